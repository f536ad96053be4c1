//! Random arguments of the printer: sound patches with trees, and ones with faults.

use crate::lists::Lists;
use crate::page::LINE;
use crate::random::Random;
use crate::random_lists::{sound_problem, wide};
use crate::random_queries::{cut, outside, overpaint, spoil as spoil_edges, Unaskable};
use crate::random_writer::lengthen;

/// What the printer is given: lists, and the bytes of its buffer.
#[derive(Clone, Debug, PartialEq, Eq)]
pub struct Given {
    pub lists: Lists,
    pub buffer: usize,
}

impl Given {
    /// With a buffer that is just long enough, if n is small.
    pub fn fitted(lists: Lists) -> Given {
        let buffer = LINE * lists.n.min(70);
        Given { lists, buffer }
    }
}

/// What is printed, now and then with bytes to spare.
pub fn printable(random: &mut Random) -> Given {
    let mut given = Given::fitted(Lists::of(&sound_problem(random)));
    given.buffer += random.pick(&[0, 0, 1, 95, 96, 3_000]);
    given
}

/// One fault for each condition of the printer; several of them may meet.
#[derive(Clone, Copy, Debug, PartialEq, Eq)]
pub enum Unprintable {
    ParentCycle,
    NoTreeEdge,
    SecondRoot,
    RootHasParent,
    ParentOutside,
    RootOutside,
    TotalsDiffer,
    /// Of the painting after.
    Total,
    /// A fault that a question from a start can have too. Its painting is the one before.
    Shared(Unaskable),
    /// Of the painting after.
    Measure,
    Parents,
    Buffer,
}

/// In the order in which they are put in, so that none takes away one with a lower number.
pub const UNPRINTABLE: [Unprintable; 20] = [
    Unprintable::ParentCycle,
    Unprintable::NoTreeEdge,
    Unprintable::SecondRoot,
    Unprintable::RootHasParent,
    Unprintable::ParentOutside,
    Unprintable::RootOutside,
    Unprintable::TotalsDiffer,
    Unprintable::Total,
    Unprintable::Shared(Unaskable::Disconnected),
    Unprintable::Shared(Unaskable::EdgeEnds),
    Unprintable::Shared(Unaskable::EdgeOrder),
    Unprintable::Shared(Unaskable::EdgeLength),
    Unprintable::Shared(Unaskable::EdgeCount),
    Unprintable::Shared(Unaskable::EdgeList),
    Unprintable::Shared(Unaskable::Painting),
    Unprintable::Shared(Unaskable::Total),
    Unprintable::Measure,
    Unprintable::Parents,
    Unprintable::Buffer,
    Unprintable::Shared(Unaskable::VertexCount),
];

impl Unprintable {
    /// The number of the refusal.
    pub fn number(self) -> u32 {
        use Unprintable::*;
        match self {
            Shared(fault) => fault.number(true).expect("looked at"),
            Measure | Parents | Buffer => 2,
            Total => 6,
            TotalsDiffer => 7,
            SecondRoot | RootHasParent | ParentOutside | RootOutside => 8,
            NoTreeEdge => 9,
            ParentCycle => 10,
        }
    }
}

/// The number of these faults that comes first: the least of them.
pub fn first_number(faults: &[Unprintable]) -> u32 {
    faults.iter().map(|fault| fault.number()).min().unwrap_or(0)
}

/// What is printed but for these different faults.
pub fn unprintable(random: &mut Random, faults: &[Unprintable]) -> Given {
    loop {
        let mut given = printable(random);
        let mut wanted = UNPRINTABLE.into_iter().filter(|fault| faults.contains(fault));
        if wanted.all(|fault| spoil(random, &mut given, fault).is_some()) {
            return given;
        }
    }
}

/// Puts in a fault; none if there is no room for it.
fn spoil(random: &mut Random, Given { lists, buffer }: &mut Given, fault: Unprintable) -> Option<()> {
    let (n, root) = (lists.n, lists.root);
    let any = random.index(n);
    match fault {
        Unprintable::ParentCycle => {
            let edges: Vec<(u32, u32)> = lists.a.iter().copied().zip(lists.b.iter().copied()).collect();
            let is_apart = |&&(a, b): &&(u32, u32)| a as usize != root && b as usize != root;
            let apart: Vec<_> = edges.iter().filter(is_apart).collect();
            let &&(a, b) = apart.get(random.index(apart.len().max(1)))?;
            lists.parents[a as usize] = b;
            lists.parents[b as usize] = a;
        }
        Unprintable::NoTreeEdge => {
            let x = vertex_below(random, lists)?;
            let is_edge = |y: usize| {
                let pair = (x.min(y) as u32, x.max(y) as u32);
                lists.a.iter().zip(&lists.b).any(|(&a, &b)| (a, b) == pair)
            };
            let others: Vec<usize> = (0..n).filter(|&y| y != x && !is_edge(y)).collect();
            lists.parents[x] = *others.get(random.index(others.len().max(1)))? as u32;
        }
        Unprintable::SecondRoot => {
            let x = vertex_below(random, lists)?;
            lists.parents[x] = x as u32;
        }
        Unprintable::RootHasParent => {
            let x = vertex_below(random, lists)?;
            lists.parents[root] = x as u32;
        }
        Unprintable::ParentOutside => {
            let parent = wide(random, lists.parents[any]);
            lists.parents[any] = random.pick(&[n as u32, 64, parent, parent]);
        }
        Unprintable::RootOutside => lists.root = outside(random, n, root),
        // A grain less, so that no total is above the bound.
        Unprintable::TotalsDiffer => {
            let list = match random.chance(2) {
                true => &mut lists.mu,
                false => &mut lists.nu,
            };
            *list.iter_mut().find(|amount| **amount > 0)? -= 1;
        }
        Unprintable::Total => overpaint(random, &mut lists.nu),
        Unprintable::Shared(Unaskable::Disconnected) if n > 1 => cut(random, lists),
        Unprintable::Shared(Unaskable::Disconnected) => return None,
        Unprintable::Shared(_) if lists.lengths.len() < 2 => return None,
        Unprintable::Shared(fault) => spoil_edges(random, lists, &mut 0, fault),
        Unprintable::Measure => lengthen(random, &mut lists.nu),
        Unprintable::Parents => lengthen(random, &mut lists.parents),
        Unprintable::Buffer => {
            let (size, less) = (LINE * n, random.index(LINE * n));
            *buffer = random.pick(&[0, 1, size - LINE, size - 1, size - 1, less]);
        }
    }
    Some(())
}

/// Some vertex that is not the root.
fn vertex_below(random: &mut Random, lists: &Lists) -> Option<usize> {
    let others = (0..lists.n).filter(|&x| x != lists.root);
    let others: Vec<usize> = others.collect();
    others.get(random.index(others.len().max(1))).copied()
}
