//! Random arguments of the writer: what an image can hold, sound or not, and what none can hold; and images with
//! anything between their sections.

use crate::checks::number;
use crate::lists::Lists;
use crate::problem::HEADER;
use crate::random::Random;
use crate::random_lists::sound_problem;

/// The greatest end, root or parent that an image can hold.
pub const END: u64 = 255;
/// The greatest length.
pub const LENGTH: u64 = 65_535;
/// The greatest amount.
pub const AMOUNT: u64 = 4_294_967_295;

/// What the writer is given: lists, whether there is a tree, and the bytes of its buffer.
#[derive(Clone, Debug, PartialEq, Eq)]
pub struct Given {
    pub lists: Lists,
    pub tree: bool,
    pub buffer: usize,
}

impl Given {
    /// With a buffer that is just long enough, if n is small and the lists have the right lengths.
    pub fn fitted(lists: Lists, tree: bool) -> Given {
        let (n, m) = (lists.n.min(300), lists.a.len());
        let buffer = HEADER + 4 * m + 8 * n + usize::from(tree) * (n + 1);
        Given { lists, tree, buffer }
    }
}

/// A number up to this one: near to the ends, or any.
fn up_to(random: &mut Random, most: u64) -> u64 {
    match random.below(4) {
        0 => random.pick(&[0, 1, most / 2, most / 2 + 1, most - 1, most]),
        _ => random.between(0, most),
    }
}

/// A number above this one: the next, one that would be sound if its upper bits were cut off, the greatest of
/// its type, or any.
fn above(random: &mut Random, most: u64, greatest: u64) -> u64 {
    let bit = random.between(most.ilog2() as u64 + 1, greatest.ilog2().into());
    match random.below(4) {
        0 => most + 1,
        1 => up_to(random, most) | 1 << bit,
        2 => greatest,
        _ => random.between(most + 1, greatest),
    }
}

fn many<T>(random: &mut Random, places: usize, mut draw: impl FnMut(&mut Random) -> T) -> Vec<T> {
    (0..places).map(|_| draw(random)).collect()
}

/// Lists of any numbers that an image can hold, whatever else they are.
fn any_lists(random: &mut Random) -> Lists {
    let (n, m) = (random.between(1, 64) as usize, random.between(0, 512) as usize);
    let (n, m) = (
        random.pick(&[1, 2, 63, 64, n, n]),
        random.pick(&[0, 1, 5, 512, m, m]),
    );
    let end = |random: &mut Random| up_to(random, END) as u32;
    let amount = |random: &mut Random| up_to(random, AMOUNT);
    Lists {
        n,
        a: many(random, m, end),
        b: many(random, m, end),
        lengths: many(random, m, |random| up_to(random, LENGTH) as u32),
        mu: many(random, n, amount),
        nu: many(random, n, amount),
        root: up_to(random, END) as usize,
        parents: many(random, n, end),
    }
}

/// What the writer accepts, with a tree and without: a sound patch, or any numbers. The buffer just fits.
pub fn holdable(random: &mut Random) -> Given {
    let lists = match random.below(3) {
        0 => Lists::of(&sound_problem(random)),
        _ => any_lists(random),
    };
    Given::fitted(lists, random.chance(2))
}

/// The same with spare bytes and, without a tree, often with a root and parents that no tree could have.
pub fn accepted(random: &mut Random) -> Given {
    let mut given = holdable(random);
    given.buffer += random.pick(&[0, 0, 1, 7, 3_000]);
    if !given.tree && random.chance(2) {
        let places = random.pick(&[0, 1, given.lists.n, 64, 65, 100]);
        given.lists.root = random.pick(&[256, 1 << 32, 1 << 63, usize::MAX]);
        given.lists.parents = many(random, places, |random| random.word() as u32);
    }
    given
}

/// One fault for each condition of the writer; several of them may meet.
#[derive(Clone, Copy, Debug, PartialEq, Eq)]
pub enum Unwritable {
    VertexCount,
    EdgeCount,
    EdgeList,
    Measure,
    Parents,
    Buffer,
    WideEnd,
    WideLength,
    WideAmount,
    WideRoot,
    WideParent,
}

pub const UNWRITABLE: [Unwritable; 11] = [
    Unwritable::VertexCount,
    Unwritable::EdgeCount,
    Unwritable::EdgeList,
    Unwritable::Measure,
    Unwritable::Parents,
    Unwritable::Buffer,
    Unwritable::WideEnd,
    Unwritable::WideLength,
    Unwritable::WideAmount,
    Unwritable::WideRoot,
    Unwritable::WideParent,
];

impl Unwritable {
    /// The number of the refusal: none for what is not looked at without a tree.
    pub fn number(self, tree: bool) -> Option<u32> {
        use Unwritable::*;
        match self {
            Parents | WideRoot | WideParent if !tree => None,
            VertexCount => Some(1),
            EdgeCount | EdgeList | Measure | Parents | Buffer => Some(2),
            WideEnd | WideLength | WideAmount | WideRoot | WideParent => Some(13),
        }
    }
}

/// What the writer accepts but for these different faults. There is an edge, so that each of them has its place,
/// and the buffer is short only if that is one of them.
pub fn refused(random: &mut Random, faults: &[Unwritable]) -> Given {
    let mut given = holdable(random);
    while given.lists.a.is_empty() {
        given = holdable(random);
    }
    for &fault in faults {
        spoil(random, &mut given, fault);
    }
    let Given { lists, tree, buffer } = given;
    match faults.contains(&Unwritable::Buffer) {
        true => Given { lists, tree, buffer },
        false => Given::fitted(lists, tree),
    }
}

/// Another length than this one: one more, one less, none, or any up to twice as long.
fn other_length(random: &mut Random, length: usize) -> usize {
    loop {
        let any = random.index(2 * length + 2);
        let other = random.pick(&[0, length + 1, length.saturating_sub(1), any]);
        if other != length {
            return other;
        }
    }
}

pub(crate) fn lengthen(random: &mut Random, list: &mut Vec<impl Clone + From<u8>>) {
    let length = other_length(random, list.len());
    list.resize(length, 7.into());
}

/// Puts a number above a bound into some place of a list.
fn widen<T: TryFrom<u64>>(random: &mut Random, list: &mut [T], most: u64, greatest: u64) {
    if !list.is_empty() {
        let wide = above(random, most, greatest);
        list[random.index(list.len())] = T::try_from(wide).ok().expect("a number of its type");
    }
}

fn spoil(random: &mut Random, Given { lists, buffer, .. }: &mut Given, fault: Unwritable) {
    let Lists { n, a, b, lengths, .. } = lists;
    let (first, most) = (random.chance(2), u64::from(u32::MAX));
    match fault {
        Unwritable::VertexCount => *n = random.pick(&[0, 65, 66, 255, *n | 256, *n | 1 << 32, usize::MAX]),
        Unwritable::EdgeCount => {
            let m = random.pick(&[513, 513, 514, 600, 1_024, 65_536 + a.len()]);
            [a, b, lengths].into_iter().for_each(|list| list.resize(m, 7));
        }
        Unwritable::EdgeList => {
            let which = random.index(3);
            lengthen(random, [a, b, lengths][which]);
        }
        Unwritable::Measure if first => lengthen(random, &mut lists.mu),
        Unwritable::Measure => lengthen(random, &mut lists.nu),
        Unwritable::Parents => lengthen(random, &mut lists.parents),
        Unwritable::Buffer => {
            let any = random.index(*buffer);
            *buffer = random.pick(&[0, 1, 36, *buffer - 1, *buffer - 1, any]);
        }
        Unwritable::WideEnd => widen(random, if first { a } else { b }, END, most),
        Unwritable::WideLength => widen(random, lengths, LENGTH, most),
        Unwritable::WideAmount if first => widen(random, &mut lists.mu, AMOUNT, u64::MAX),
        Unwritable::WideAmount => widen(random, &mut lists.nu, AMOUNT, u64::MAX),
        Unwritable::WideRoot => lists.root = above(random, END, u64::MAX) as usize,
        Unwritable::WideParent => widen(random, &mut lists.parents, END, most),
    }
}

/// A written image with so many bytes more, of any content: before its sections, between them and behind them.
pub fn spread(random: &mut Random, image: &[u8], spare: usize) -> Vec<u8> {
    let mut cuts = [0; 4].map(|_| random.index(spare + 1));
    match random.below(4) {
        0 => cuts = [random.pick(&cuts); 4],
        1 => cuts = [spare; 4],
        _ => cuts.sort_unstable(),
    }
    let words = std::iter::repeat_with(|| random.word().to_le_bytes());
    let filler = words.take(spare.div_ceil(8)).collect::<Vec<_>>().concat();
    let field = |at: usize| number(&image[at..][..4]) as usize;
    let mut spread = image[..HEADER].to_vec();
    let mut from = 0;
    for (k, cut) in cuts.into_iter().enumerate() {
        let pair = 4 + 8 * k;
        spread.extend(&filler[from..cut]);
        let start = spread.len() as u32;
        spread[pair..][..4].copy_from_slice(&start.to_le_bytes());
        spread.extend(&image[field(pair)..][..field(pair + 4)]);
        from = cut;
    }
    spread.extend(&filler[from..spare]);
    spread
}
