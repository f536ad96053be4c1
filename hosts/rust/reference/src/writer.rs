//! The writer's image with its refusals, and an image written anew.
//!
//! A section is a list of numbers, each with its bytes. How far a number may go, how long a section is and where
//! the one after it starts all follow from these. What is written anew is cut out of the old image, section by
//! section, as it stands.

use crate::checks::{number, read, refuse_if};
use crate::lists::Lists;
use crate::problem::HEADER;

/// A number, and how many bytes a section has for it.
type Field = (u64, u32);

fn fits(&(number, bytes): &Field) -> bool {
    number < 256u64.pow(bytes)
}

/// The digits of a number to the base 256, the lowest first.
fn digits(&(number, bytes): &Field) -> impl Iterator<Item = u8> {
    (0..bytes).map(move |k| (number / 256u64.pow(k) % 256) as u8)
}

/// The four sections of lists of the right lengths.
fn sections(lists: &Lists, tree: bool) -> [Vec<Field>; 4] {
    let edge = |e: usize| [(lists.a[e], 1), (lists.b[e], 1), (lists.lengths[e], 2)];
    let edges = (0..lists.a.len()).flat_map(edge);
    let amounts = |list: &[u64]| list.iter().map(|&amount| (amount, 4)).collect();
    let root = (lists.root as u64, 1);
    let parents = lists.parents.iter().map(|&parent| (parent.into(), 1));
    [
        edges.map(|(number, bytes)| (number.into(), bytes)).collect(),
        amounts(&lists.mu),
        amounts(&lists.nu),
        std::iter::once(root).chain(parents).filter(|_| tree).collect(),
    ]
}

/// An image of its first four bytes and its sections, back to back.
fn assemble(first: &[u8], sections: &[Vec<u8>; 4]) -> Vec<u8> {
    let (mut pairs, mut rest) = (Vec::new(), Vec::new());
    for section in sections {
        pairs.push((HEADER + rest.len()) as u64);
        pairs.push(section.len() as u64);
        rest.extend(section);
    }
    let pairs = pairs.into_iter().flat_map(|number| digits(&(number, 4)));
    first.iter().copied().chain(pairs).chain(rest).collect()
}

/// The image that is written into a buffer of so many bytes, with a tree or without, or the refusal.
pub fn write(lists: &Lists, tree: bool, buffer: usize) -> Result<Vec<u8>, u32> {
    let Lists { n, a, b, lengths, .. } = lists;
    refuse_if(1, *n == 0 || *n > 64)?;
    refuse_if(2, a.len() > 512)?;
    refuse_if(2, a.len() != b.len() || a.len() != lengths.len())?;
    refuse_if(2, lists.mu.len() != *n || lists.nu.len() != *n)?;
    refuse_if(2, tree && lists.parents.len() != *n)?;
    let sections = sections(lists, tree);
    let bytes: u32 = sections.iter().flatten().map(|field| field.1).sum();
    refuse_if(2, buffer < HEADER + bytes as usize)?;
    refuse_if(13, !sections.iter().flatten().all(fits))?;
    let first = [(*n as u64, 1), (0, 1), (a.len() as u64, 2)];
    let first: Vec<u8> = first.iter().flat_map(digits).collect();
    let sections = sections.map(|section| section.iter().flat_map(digits).collect());
    Ok(assemble(&first, &sections))
}

/// An image written anew into a buffer of so many bytes, or the refusal.
pub fn rewrite(image: &[u8], buffer: usize) -> Result<Vec<u8>, u32> {
    read(image, |_, _| true)?;
    let field = |at: usize| number(&image[at..][..4]) as usize;
    let section = |k: usize| image[field(4 + 8 * k)..][..field(8 + 8 * k)].to_vec();
    let written = assemble(&image[..4], &[0, 1, 2, 3].map(section));
    refuse_if(2, buffer < written.len())?;
    Ok(written)
}
