//! Tables that are lent to the library, and watched.

use reference::random::Random;
use weight_mover::Edge;

/// A number, or a record of them, with any content.
pub trait Draw: Copy + PartialEq {
    fn draw(random: &mut Random) -> Self;

    /// Whether both are the same, bit for bit.
    fn same(&self, other: &Self) -> bool {
        self == other
    }
}

/// Whether two tables are the same, place by place.
pub fn same<T: Draw>(first: &[T], second: &[T]) -> bool {
    first.len() == second.len() && first.iter().zip(second).all(|(x, y)| x.same(y))
}

impl Draw for u8 {
    fn draw(random: &mut Random) -> u8 {
        random.word() as u8
    }
}

impl Draw for u32 {
    fn draw(random: &mut Random) -> u32 {
        random.word() as u32
    }
}

impl Draw for i32 {
    fn draw(random: &mut Random) -> i32 {
        random.word() as i32
    }
}

impl Draw for u64 {
    fn draw(random: &mut Random) -> u64 {
        random.word()
    }
}

impl Draw for f32 {
    fn draw(random: &mut Random) -> f32 {
        f32::from_bits(random.word() as u32)
    }

    /// By the bits: what is no number is not equal to itself, and 0 has two signs.
    fn same(&self, other: &f32) -> bool {
        self.to_bits() == other.to_bits()
    }
}

impl Draw for usize {
    fn draw(random: &mut Random) -> usize {
        random.word() as usize
    }
}

impl Draw for Edge {
    fn draw(random: &mut Random) -> Edge {
        Edge {
            a: u32::draw(random),
            b: u32::draw(random),
            length: u32::draw(random),
        }
    }
}

/// How many places stand on each side.
const GUARD: usize = 16;

/// A table between guard places that must stay as they are.
pub struct Lent<T> {
    all: Vec<T>,
    copy: Vec<T>,
    start: usize,
    end: usize,
}

impl<T: Draw> Lent<T> {
    /// With guard places and any alignment, or in an allocation of exactly its size: there a memory checker
    /// sees what is read past an end.
    pub fn new(random: &mut Random, content: &[T], exact: bool) -> Lent<T> {
        let (before, after) = if exact {
            (0, 0)
        } else {
            (GUARD + random.index(8), GUARD)
        };
        let mut all: Vec<T> = Vec::with_capacity(before + content.len() + after);
        all.extend((0..before).map(|_| T::draw(random)));
        all.extend(content);
        all.extend((0..after).map(|_| T::draw(random)));
        Lent {
            copy: all.clone(),
            start: before,
            end: before + content.len(),
            all,
        }
    }

    /// A table of so many places, filled at random.
    pub fn filled(random: &mut Random, places: usize, exact: bool) -> Lent<T> {
        let content: Vec<T> = (0..places).map(|_| T::draw(random)).collect();
        Lent::new(random, &content, exact)
    }

    /// One place for a single result, between guard places.
    pub fn single(random: &mut Random) -> Lent<T> {
        Lent::filled(random, 1, false)
    }

    pub fn content(&self) -> &[T] {
        &self.all[self.start..self.end]
    }

    pub fn content_mut(&mut self) -> &mut [T] {
        &mut self.all[self.start..self.end]
    }

    /// The content as it was lent.
    pub fn before(&self) -> &[T] {
        &self.copy[self.start..self.end]
    }

    /// The place of a single result.
    pub fn one(&mut self) -> &mut T {
        &mut self.content_mut()[0]
    }

    pub fn guards_are_whole(&self) -> bool {
        same(&self.all[..self.start], &self.copy[..self.start])
            && same(&self.all[self.end..], &self.copy[self.end..])
    }

    pub fn is_as_lent(&self) -> bool {
        same(&self.all, &self.copy)
    }

    /// Whether the places from this one on are as they were lent.
    pub fn rest_is_as_lent(&self, from: usize) -> bool {
        same(&self.content()[from..], &self.before()[from..])
    }

    /// Changes the guard place right after the content, or right before it; the one that is there.
    pub fn break_guard(&mut self, random: &mut Random, after: bool) {
        let at = if after { self.end } else { self.start - 1 };
        while self.all[at].same(&self.copy[at]) {
            self.all[at] = T::draw(random);
        }
    }
}
