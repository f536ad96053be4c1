//! Random questions from a start vertex: a patch with one painting, a start and a reach; and ones with faults.

use crate::checks::MAX_TOTAL;
use crate::flow::distances_from;
use crate::lists::Lists;
use crate::problem::Problem;
use crate::random::{problem, Random};
use crate::random_lists::wide;
use crate::random_writer::lengthen;

/// What the two calls are given. Of the lists n, the edges and `mu` count, which is the painting.
#[derive(Clone, Debug, PartialEq, Eq)]
pub struct Query {
    pub lists: Lists,
    pub start: usize,
    pub reach: u32,
}

impl Query {
    pub fn new(problem: &Problem, start: usize, reach: u32) -> Query {
        let lists = Lists {
            nu: Vec::new(),
            root: 0,
            parents: Vec::new(),
            ..Lists::of(problem)
        };
        Query { lists, start, reach }
    }
}

/// A painting that is accepted: no amount is positive, or one, a few or all are; often its total is the greatest.
pub fn painting(random: &mut Random, n: usize) -> Vec<u64> {
    let few = 1 + random.index(n.min(4));
    let positive = random.pick(&[0, 1, few, few, few, n]);
    let mut places: Vec<usize> = (0..n).collect();
    random.shuffle(&mut places);
    places.truncate(positive);
    let mut amounts = vec![0; n];
    for &v in &places {
        let any = random.between(1, MAX_TOTAL / n as u64);
        amounts[v] = random.pick(&[1, 1, 2, any]);
    }
    if random.chance(3) && positive > 0 {
        amounts[places[0]] += MAX_TOTAL - amounts.iter().sum::<u64>();
    }
    amounts
}

/// A reach: one of these distances or next to it, none, the greatest, or any.
pub fn reach(random: &mut Random, distances: &[u64]) -> u32 {
    let distance = random.pick(distances) as u32;
    let any = (random.word() as u32) >> random.below(32);
    random.pick(&[
        distance,
        distance,
        distance.saturating_sub(1),
        distance + 1,
        0,
        u32::MAX,
        any,
    ])
}

/// A question that both calls answer.
pub fn sound_query(random: &mut Random) -> Query {
    let mut problem = problem(random);
    problem.mu = painting(random, problem.n);
    let start = random.index(problem.n);
    let reach = reach(random, &distances_from(&problem, start));
    Query::new(&problem, start, reach)
}

/// One fault for each condition of the two calls; several of them may meet.
#[derive(Clone, Copy, Debug, PartialEq, Eq)]
pub enum Unaskable {
    Disconnected,
    EdgeEnds,
    EdgeOrder,
    EdgeLength,
    EdgeCount,
    EdgeList,
    Painting,
    Total,
    Start,
    VertexCount,
}

/// In the order in which they are put in, so that none takes another away.
pub const UNASKABLE: [Unaskable; 10] = [
    Unaskable::Disconnected,
    Unaskable::EdgeEnds,
    Unaskable::EdgeOrder,
    Unaskable::EdgeLength,
    Unaskable::EdgeCount,
    Unaskable::EdgeList,
    Unaskable::Painting,
    Unaskable::Total,
    Unaskable::Start,
    Unaskable::VertexCount,
];

impl Unaskable {
    /// The number of the refusal: none for a fault of the painting where there is none.
    pub fn number(self, painting: bool) -> Option<u32> {
        use Unaskable::*;
        match self {
            Painting | Total if !painting => None,
            VertexCount => Some(1),
            EdgeCount | EdgeList | Painting => Some(2),
            EdgeEnds | EdgeOrder => Some(3),
            EdgeLength => Some(4),
            Disconnected => Some(5),
            Total => Some(6),
            Start => Some(17),
        }
    }
}

/// The number of these faults that comes first: the least of them, since 17 is the last. 0 if none of them is
/// looked at.
pub fn first_number(faults: &[Unaskable], painting: bool) -> u32 {
    let numbers = faults.iter().filter_map(|fault| fault.number(painting));
    numbers.min().unwrap_or(0)
}

/// A question with these different faults. There are two edges at least, so that each of them has its place.
pub fn faulty_query(random: &mut Random, faults: &[Unaskable]) -> Query {
    let mut query = sound_query(random);
    let apart = faults.contains(&Unaskable::Disconnected);
    loop {
        if apart && query.lists.n > 1 {
            cut(random, &mut query.lists);
        }
        if query.lists.a.len() > 1 {
            break;
        }
        query = sound_query(random);
    }
    for fault in UNASKABLE.into_iter().filter(|fault| faults.contains(fault)) {
        spoil(random, &mut query.lists, &mut query.start, fault);
    }
    query
}

/// Takes out the edges of one vertex, or those from the lower vertices to the upper ones.
pub(crate) fn cut(random: &mut Random, lists: &mut Lists) {
    let (lone, border) = (
        random.index(lists.n) as u32,
        random.between(1, lists.n as u64 - 1),
    );
    let by_border = random.chance(2);
    let is_kept = |a: u32, b: u32| match by_border {
        true => (u64::from(a) < border) == (u64::from(b) < border),
        false => a != lone && b != lone,
    };
    let kept: Vec<bool> = (0..lists.a.len())
        .map(|e| is_kept(lists.a[e], lists.b[e]))
        .collect();
    for list in [&mut lists.a, &mut lists.b, &mut lists.lengths] {
        let mut edges = kept.iter();
        list.retain(|_| *edges.next().expect("one for each edge"));
    }
}

pub(crate) fn spoil(random: &mut Random, lists: &mut Lists, start: &mut usize, fault: Unaskable) {
    let Lists {
        n, a, b, lengths, mu, ..
    } = lists;
    let (m, at) = (lengths.len(), random.index(lengths.len().max(1)));
    match fault {
        // Cut already, when it was drawn.
        Unaskable::Disconnected => {}
        Unaskable::EdgeEnds => match random.below(5) {
            0 => std::mem::swap(&mut a[at], &mut b[at]),
            1 => b[at] = a[at],
            2 => b[at] = *n as u32,
            3 => a[at] = wide(random, a[at]),
            _ => b[at] = wide(random, b[at]),
        },
        Unaskable::EdgeOrder => {
            let (first, swapped) = (random.index(m - 1), random.chance(2));
            for list in [a, b, lengths] {
                match swapped {
                    true => list.swap(first, first + 1),
                    false => list[first + 1] = list[first],
                }
            }
        }
        Unaskable::EdgeLength => {
            let longer = wide(random, lengths[at] | 1 << 16);
            lengths[at] = random.pick(&[65_536, longer]);
        }
        Unaskable::EdgeCount => {
            let m = random.pick(&[513, 513, 514, 600, 1_024]);
            [a, b, lengths].into_iter().for_each(|list| list.resize(m, 1));
        }
        Unaskable::EdgeList => {
            let which = random.index(3);
            lengthen(random, [a, b, lengths][which]);
        }
        Unaskable::Painting => lengthen(random, mu),
        Unaskable::Total => overpaint(random, mu),
        Unaskable::Start => *start = outside(random, *n, *start),
        Unaskable::VertexCount => {
            *n = random.pick(&[0, 65, 66, 255, *n | 1 << 8, *n | 1 << 32, 1 << 63, usize::MAX]);
            if random.chance(2) {
                mu.resize((*n).min(300), 0);
            }
        }
    }
}

/// What is no vertex: the next number, one near to it, one that would be this vertex if its upper bits were cut off, or
/// a great one.
pub(crate) fn outside(random: &mut Random, n: usize, vertex: usize) -> usize {
    let near = random.between(n as u64, 65) as usize;
    match random.below(4) {
        0 => n,
        1 => near,
        _ => random.pick(&[vertex | 1 << 8, vertex | 1 << 32, 1 << 63, usize::MAX]),
    }
}

/// Brings the total of a painting above the bound: by one, by a single amount, by amounts that are sound alone, or by
/// halves of 2^64, so that its last 64 bits stay.
pub(crate) fn overpaint(random: &mut Random, amounts: &mut [u64]) {
    if amounts.is_empty() {
        return;
    }
    let (at, total) = (random.index(amounts.len()), amounts.iter().sum::<u64>());
    let next = (at + 1) % amounts.len();
    match random.below(4) {
        0 => amounts[at] += MAX_TOTAL + 1 - total.min(MAX_TOTAL),
        1 if next != at => [at, next].into_iter().for_each(|v| amounts[v] = MAX_TOTAL),
        2 if next != at => [at, next].into_iter().for_each(|v| amounts[v] |= 1 << 63),
        _ => {
            amounts[at] = random.pick(&[
                MAX_TOTAL + 1,
                amounts[at] | 1 << 32,
                amounts[at] | 1 << 63,
                u64::MAX,
            ])
        }
    }
}
