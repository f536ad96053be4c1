//! `mover_write_image` on patches that differ in one place: each number counts, and each bit of it.

use crate::writer::{case_a, try_case, Job, Make};
use crate::{ensure, pass};
use reference::random::Random;
use reference::random_writer::{holdable, Given, AMOUNT, END, LENGTH};
use reference::runs::{cases, seed};
use reference::Lists;
use std::collections::HashSet;

/// The kinds of numbers, each with its bound and the greatest of its type: lower ends, upper ends, lengths,
/// amounts before and after, the root and the parents.
const KINDS: [(u64, u64); 7] = [
    (END, u32::MAX as u64),
    (END, u32::MAX as u64),
    (LENGTH, u32::MAX as u64),
    (AMOUNT, u64::MAX),
    (AMOUNT, u64::MAX),
    (END, u64::MAX),
    (END, u32::MAX as u64),
];

/// Whether a kind belongs to the tree.
fn is_of_tree(kind: usize) -> bool {
    kind == 5 || kind == 6
}

/// How many numbers of a kind there are.
fn places(lists: &Lists, kind: usize) -> usize {
    match kind {
        0..=2 => lists.a.len(),
        5 => 1,
        _ => lists.n,
    }
}

/// Changes one number.
fn change(lists: &mut Lists, kind: usize, at: usize, new: impl FnOnce(u64) -> u64) {
    let place = match kind {
        0 => &mut lists.a[at],
        1 => &mut lists.b[at],
        2 => &mut lists.lengths[at],
        3 => return lists.mu[at] = new(lists.mu[at]),
        4 => return lists.nu[at] = new(lists.nu[at]),
        5 => return lists.root = new(lists.root as u64) as usize,
        _ => &mut lists.parents[at],
    };
    *place = new((*place).into()) as u32;
}

/// Every number of case A on both sides of its bound, and with each single bit that its type has above that.
#[test]
fn numbers_at_their_bounds() {
    let random = &mut Random::new(seed());
    for (kind, (most, greatest)) in KINDS.into_iter().enumerate() {
        let bits = (0..64).map(|bit| 1 << bit);
        let wide = bits.filter(|bit| (most + 1..=greatest).contains(bit));
        let numbers: Vec<u64> = wide.chain([most + 2, greatest, most, most - 1, 0]).collect();
        for (tree, at) in [true, false]
            .into_iter()
            .flat_map(|tree| (0..places(&case_a(), kind)).map(move |at| (tree, at)))
        {
            for &new in &numbers {
                let mut given = Given::fitted(case_a(), tree);
                change(&mut given.lists, kind, at, |_| new);
                let refused = new > most && (tree || !is_of_tree(kind));
                let (number, _) = pass(try_case(&Job::make, random, &given));
                assert_eq!(
                    number,
                    if refused { 13 } else { 0 },
                    "{kind}, {at}, {new}, {tree}"
                );
            }
        }
    }
}

/// The image of what can be held, whatever a judge says of its bytes.
fn image_of(make: Make, random: &mut Random, given: &Given) -> Result<Vec<u8>, String> {
    let mut job = Job::new(random, given);
    let number = make(&mut job);
    ensure(number == 0, || format!("{given:?} is refused {number}"))?;
    Ok(job.image().to_vec())
}

/// The ways to differ in one place: in a number of each kind, in the mark, by a vertex, by an edge.
const WAYS: usize = KINDS.len() + 3;

/// What differs in one place and is accepted too; none if there is no such place.
fn differing(random: &mut Random, given: &Given, way: usize) -> Option<Given> {
    let Given {
        mut lists, mut tree, ..
    } = given.clone();
    match way {
        // What is not looked at may be anything.
        5 if !tree => lists.root = random.word() as usize,
        6 if !tree => {
            let places = random.pick(&[0, 1, lists.n, 64, 100]);
            lists.parents = (0..places).map(|_| random.word() as u32).collect();
        }
        0..=6 => {
            let (most, places) = (KINDS[way].0, places(&lists, way));
            if places == 0 {
                return None;
            }
            let bits = [
                1 << random.below(most.count_ones().into()),
                random.between(1, most),
            ];
            let (at, bits) = (random.index(places), random.pick(&bits));
            change(&mut lists, way, at, |number| number ^ bits);
        }
        7 => tree = !tree,
        8 => {
            let n = if lists.n == 64 { 63 } else { lists.n + 1 };
            lists.n = n;
            lists.mu.resize(n, 0);
            lists.nu.resize(n, 0);
            lists.parents.resize(n, 0);
        }
        _ => {
            let m = lists.a.len();
            let m = if m == 512 { 511 } else { m + 1 };
            lists.a.resize(m, 0);
            lists.b.resize(m, 0);
            lists.lengths.resize(m, 0);
        }
    }
    Some(Given::fitted(lists, tree))
}

/// Equal patches get equal bytes, those that differ in one place other bytes. Without a tree, root and parents may
/// differ in everything. Says how many pairs there were.
pub fn try_pairs(make: Make, random: &mut Random) -> Result<usize, String> {
    let given = holdable(random);
    let image = image_of(make, random, &given)?;
    ensure(image_of(make, random, &given)? == image, || {
        format!("two images of one patch: {given:?}")
    })?;
    let mut pairs = 0;
    for way in 0..WAYS {
        let Some(other) = differing(random, &given, way) else {
            continue;
        };
        let equal = !given.tree && is_of_tree(way);
        ensure((image_of(make, random, &other)? == image) == equal, || {
            format!("equal bytes should be {equal}: {given:?}, {other:?}")
        })?;
        pairs += 1;
    }
    Ok(pairs)
}

#[test]
fn one_place_apart() {
    let (seed, count) = (seed(), cases(5_000));
    let mut pairs = 0;
    for index in 0..count {
        let random = &mut Random::for_case(seed, index);
        let place = |complaint| format!("seed {seed}, case {index}: {complaint}");
        pairs += pass(try_pairs(&Job::make, random).map_err(place));
    }
    println!("patches that differ in one place: seed {seed}, {pairs} pairs");
}

/// Case A and all that differ from it in one bit, with a tree and without: no two of them have one image, but for
/// bits of a tree that is not there.
#[test]
fn every_bit_counts() {
    let random = &mut Random::new(seed());
    let mut images = HashSet::new();
    let mut written = 0;
    for tree in [true, false] {
        let right = Given::fitted(case_a(), tree);
        images.insert(pass(image_of(&Job::make, random, &right)));
        written += 1;
        for (kind, (most, _)) in KINDS.into_iter().enumerate() {
            for (at, bit) in (0..places(&right.lists, kind))
                .flat_map(|at| (0..most.count_ones()).map(move |bit| (at, bit)))
            {
                let mut given = right.clone();
                change(&mut given.lists, kind, at, |number| number ^ 1 << bit);
                let (number, image) = pass(try_case(&Job::make, random, &given));
                assert_eq!(number, 0);
                let new = images.insert(image);
                assert_eq!(new, tree || !is_of_tree(kind), "{kind}, {at}, bit {bit}, {tree}");
                written += u64::from(new);
            }
        }
    }
    // Six ends, three lengths, eight amounts; and once a root with four parents.
    assert_eq!(written, 2 * (1 + 6 * 8 + 3 * 16 + 8 * 32) + 5 * 8);
}
