//! Random arguments of the calls over tables: sound ones, and ones with faults that no image can hold.

use crate::checks::MAX_TOTAL;
use crate::lists::Lists;
use crate::random::{problem, spanning_tree, spoiled, Fault, Random};
use crate::Problem;

/// Faults of lists; [`Fault`] has those that an image can hold too.
#[derive(Clone, Copy, Debug, PartialEq, Eq)]
pub enum ListFault {
    VertexCount,
    EdgeListLength,
    MeasureLength,
    ParentsLength,
    WideEnd,
    WideLength,
    WideAmount,
    TotalWraps,
    WideRoot,
    WideParent,
}

pub const LIST_FAULTS: [ListFault; 10] = [
    ListFault::VertexCount,
    ListFault::EdgeListLength,
    ListFault::MeasureLength,
    ListFault::ParentsLength,
    ListFault::WideEnd,
    ListFault::WideLength,
    ListFault::WideAmount,
    ListFault::TotalWraps,
    ListFault::WideRoot,
    ListFault::WideParent,
];

/// The faults that lists share with images.
pub const SHARED_FAULTS: [Fault; 13] = [
    Fault::VertexCount,
    Fault::TooManyEdges,
    Fault::EdgeEnds,
    Fault::EdgeOrder,
    Fault::Disconnected,
    Fault::TotalTooLarge,
    Fault::TotalsDiffer,
    Fault::RootOutside,
    Fault::ParentOutside,
    Fault::RootHasParent,
    Fault::SecondRoot,
    Fault::NoTreeEdge,
    Fault::ParentCycle,
];

/// A problem with a tree that every call accepts.
pub fn sound_problem(random: &mut Random) -> Problem {
    let mut problem = problem(random);
    if problem.tree.is_none() {
        problem.tree = Some(spanning_tree(random, problem.n, &problem.edges));
    }
    problem
}

/// Lists with the faults asked for, where the drawn problem has room for them. They have a tree.
pub fn faulty_lists(random: &mut Random, shared: &[Fault], others: &[ListFault]) -> Lists {
    let sound = sound_problem(random);
    let mut lists = Lists::of(&spoiled(random, sound, shared));
    for &fault in others {
        spoil(random, &mut lists, fault);
    }
    lists
}

fn resize<T: Clone + Default>(random: &mut Random, list: &mut Vec<T>) {
    let length = match random.below(4) {
        0 => 0,
        1 => list.len() + 1,
        2 => list.len().saturating_sub(1),
        _ => random.index(2 * list.len() + 2),
    };
    let filler = list.last().cloned().unwrap_or_default();
    list.resize(length, filler);
}

/// A number that becomes the given one if it is cut to 8 or 16 bits, or the greatest.
pub(crate) fn wide(random: &mut Random, value: u32) -> u32 {
    random.pick(&[value | 1 << 8, value | 1 << 16, value | 1 << 31, u32::MAX])
}

fn spoil(random: &mut Random, lists: &mut Lists, fault: ListFault) {
    let m = lists.a.len().min(lists.b.len()).min(lists.lengths.len());
    match fault {
        ListFault::VertexCount => {
            let n = lists.n;
            lists.n = random.pick(&[0, 65, n | 1 << 8, n | 1 << 32, 1 << 63, usize::MAX]);
        }
        ListFault::EdgeListLength => match random.below(4) {
            0 => resize(random, &mut lists.a),
            1 => resize(random, &mut lists.b),
            2 => resize(random, &mut lists.lengths),
            _ => lists.lengths.resize(random.pick(&[512, 513, 600]), 1),
        },
        ListFault::MeasureLength => match random.below(2) {
            0 => resize(random, &mut lists.mu),
            _ => resize(random, &mut lists.nu),
        },
        ListFault::ParentsLength => resize(random, &mut lists.parents),
        ListFault::WideEnd if m > 0 => {
            let list = if random.chance(2) {
                &mut lists.a
            } else {
                &mut lists.b
            };
            let at = random.index(m);
            list[at] = wide(random, list[at]);
        }
        ListFault::WideLength if m > 0 => {
            let at = random.index(m);
            let length = lists.lengths[at];
            lists.lengths[at] = match random.chance(2) {
                true => 65_536,
                false => wide(random, length | 1 << 16),
            };
        }
        ListFault::WideAmount | ListFault::TotalWraps => {
            let list = if random.chance(2) {
                &mut lists.mu
            } else {
                &mut lists.nu
            };
            spoil_amounts(random, list, fault);
        }
        ListFault::WideRoot => {
            let root = lists.root;
            lists.root = random.pick(&[root | 1 << 8, root | 1 << 32, usize::MAX]);
        }
        ListFault::WideParent if !lists.parents.is_empty() => {
            let at = random.index(lists.parents.len());
            lists.parents[at] = wide(random, lists.parents[at]);
        }
        _ => {}
    }
}

fn spoil_amounts(random: &mut Random, list: &mut [u64], fault: ListFault) {
    if list.is_empty() {
        return;
    }
    let at = random.index(list.len());
    if fault == ListFault::WideAmount {
        list[at] = random.pick(&[MAX_TOTAL + 1, list[at] | 1 << 32, list[at] | 1 << 63, u64::MAX]);
        return;
    }
    // The sum is right if it is cut to 64 bits: two halves too much, or many parts.
    let parts = random.pick(&[2, 4, 8]);
    if list.len() >= parts {
        let part = 1 << (64 - parts.trailing_zeros());
        list.iter_mut()
            .take(parts)
            .for_each(|x| *x = x.wrapping_add(part));
    }
}
