//! The calls over tables: distances by lists and by records, evaluating, judging, solving.

use crate::jobs::{library, run, try_case, Call, Job, Outcome, Room, CALLS};
use crate::pass;
use reference::exhaustive::{least_tree_cost, spanning_trees};
use reference::random::{self, Lengths, Measures, Random};
use reference::random_lists::{faulty_lists, sound_problem, LIST_FAULTS, SHARED_FAULTS};
use reference::random_trees::{best_tree, neighbour, stalled_tree};
use reference::runs::{cases, seed};
use reference::tree::tree_cost;
use reference::{Lists, Problem};

pub fn sound_case(random: &mut Random) -> (Lists, Room) {
    let problem = sound_problem(random);
    (Lists::of(&problem), Room::random(random, problem.n))
}

/// A fault, in turn, alone and with others; or an answer table that is too short.
pub fn faulty_case(index: u64, random: &mut Random) -> (Lists, Room) {
    let index = index as usize;
    let (mut shared, mut others) = (Vec::new(), Vec::new());
    let mut short = false;
    let kinds = SHARED_FAULTS.len() + LIST_FAULTS.len() + 1;
    let mut add = |kind: usize| match kind.checked_sub(SHARED_FAULTS.len()) {
        None => shared.push(SHARED_FAULTS[kind]),
        Some(k) => match LIST_FAULTS.get(k) {
            Some(&fault) => others.push(fault),
            None => short = true,
        },
    };
    add(index % kinds);
    while random.chance(4) {
        add(random.index(kinds));
    }
    let lists = faulty_lists(random, &shared, &others);
    let mut room = Room::random(random, lists.n);
    if short {
        room = Room::exact(lists.n);
        let which = random.index(5);
        let places = &mut *room.all()[which];
        *places = match random.below(3) {
            0 => 0,
            1 => places.saturating_sub(1),
            _ => random.index(*places + 1),
        };
    }
    (lists, room)
}

/// Lists that every call accepts.
#[test]
fn sound_lists() {
    let seed = seed();
    for (call, usual) in CALLS.into_iter().zip([4_000, 4_000, 6_000, 3_000, 6_000]) {
        let count = cases(usual);
        let tally = pass(run(&library, call, seed, count, &|_, r| sound_case(r)));
        println!("sound lists, {call:?}: seed {seed}, {count} cases: {tally}");
        assert_eq!(tally.accepted(), count);
    }
}

/// Each fault in its turn, alone and with others: the call's own numbers come up, and no others.
#[test]
fn faulty_lists_are_refused() {
    let seed = seed();
    for call in CALLS {
        let count = cases(6_000);
        let tally = pass(run(&library, call, seed, count, &faulty_case));
        println!("faulty lists, {call:?}: seed {seed}, {count} cases: {tally}");
        let numbers: Vec<usize> = (1..=call.last_check()).collect();
        assert!(count < 2_000 || tally.refused_by(&numbers), "{call:?}: {tally}");
    }
}

/// Every length of every list and table, from nothing to more than enough, and all of them mixed.
#[test]
fn every_length() {
    let edges = [(0, 1, 2), (1, 2, 3), (2, 3, 1)];
    let problem = Problem::new(4, &edges, &[5, 0, 1, 0], &[0, 2, 1, 3]).with_tree(3, &[1, 2, 3, 3]);
    let right = Lists::of(&problem);
    let random = &mut Random::new(seed());
    let mut accepted = 0;
    for call in CALLS {
        for which in 0..11 {
            for length in 0..40 {
                let (mut lists, mut room) = (right.clone(), Room::exact(4));
                set_length(&mut lists, &mut room, which, length);
                let outcome = pass(try_case(&library, call, random, &lists, room));
                accepted += u64::from(!matches!(outcome, Outcome::Refused(_)));
            }
        }
        for _ in 0..cases(2_000) {
            let (mut lists, mut room) = (right.clone(), Room::random(random, 4));
            for _ in 0..random.between(1, 4) {
                let (which, length) = (random.index(11), random.index(20));
                set_length(&mut lists, &mut room, which, length);
            }
            pass(try_case(&library, call, random, &lists, room));
        }
    }
    // Lists that a call does not read, and tables that are long enough.
    assert!(accepted > 500, "{accepted}");
}

fn set_length(lists: &mut Lists, room: &mut Room, which: usize, length: usize) {
    match which {
        0 => lists.a.resize(length, 7),
        1 => lists.b.resize(length, 7),
        2 => lists.lengths.resize(length, 7),
        3 => lists.mu.resize(length, 0),
        4 => lists.nu.resize(length, 0),
        5 => lists.parents.resize(length, 3),
        table => *room.all()[table - 6] = length,
    }
}

/// Vertices from 0 to 70, edges from 510 to 514: both sides of the bounds.
#[test]
fn sizes_at_their_bounds() {
    let random = &mut Random::new(seed());
    for n in 0..71usize {
        let edges = (1..n).map(|x| (x - 1, x, 1)).collect::<Vec<_>>();
        let parents: Vec<usize> = (0..n).map(|x| x.saturating_sub(1)).collect();
        let line = Problem::new(n, &edges, &vec![1; n], &vec![1; n]).with_tree(0, &parents);
        for call in CALLS {
            let outcome = pass(try_case(
                &library,
                call,
                random,
                &Lists::of(&line),
                Room::exact(n),
            ));
            assert_eq!(outcome == Outcome::Refused(1), n == 0 || n > 64, "{call:?}, {n}");
        }
    }
    let all = (0..64).flat_map(|a| (a + 1..64).map(move |b| (a, b, 5)));
    let all: Vec<(usize, usize, u64)> = all.collect();
    for m in 510..515 {
        let star: Vec<usize> = vec![0; 64];
        let crowded = Problem::new(64, &all[..m], &[1; 64], &[1; 64]).with_tree(0, &star);
        for call in CALLS {
            let outcome = pass(try_case(
                &library,
                call,
                random,
                &Lists::of(&crowded),
                Room::exact(64),
            ));
            assert_eq!(outcome == Outcome::Refused(2), m > 512, "{call:?}, {m}");
        }
    }
}

/// How a tree to be judged is drawn.
#[derive(Clone, Copy, Debug, PartialEq, Eq)]
pub enum Quality {
    Any,
    Best,
    /// One exchange of edges away from a best one.
    NearlyBest,
    /// No single exchange makes it cheaper.
    Stalled,
}

pub const QUALITIES: [Quality; 4] = [Quality::Any, Quality::Best, Quality::NearlyBest, Quality::Stalled];

fn small_problem(random: &mut Random) -> Problem {
    let n = random.between(2, 7) as usize;
    let m = random.between(n as u64, 12) as usize;
    let lengths = random.pick(&[Lengths::Unit, Lengths::Few, Lengths::OftenZero, Lengths::Zero]);
    let edges = random::connected(random, n, m, lengths);
    let kind = random.pick(&[Measures::Small, Measures::ZeroOrOne, Measures::Sparse]);
    let (mu, nu) = random::measures(random, n, kind);
    let tree = None;
    Problem {
        n,
        edges,
        mu,
        nu,
        tree,
    }
}

pub fn judged_case(quality: Quality, random: &mut Random) -> (Lists, Room) {
    let small = quality == Quality::Stalled || random.chance(2);
    let mut problem = if small {
        small_problem(random)
    } else {
        sound_problem(random)
    };
    let tree = match quality {
        Quality::Any => random::spanning_tree(random, problem.n, &problem.edges),
        Quality::Best => best_tree(random, &problem),
        Quality::NearlyBest => {
            let best = best_tree(random, &problem);
            neighbour(random, &problem, &best)
        }
        Quality::Stalled => stalled_tree(random, &problem),
    };
    problem.tree = Some(tree);
    (Lists::of(&problem), Room::exact(problem.n))
}

/// Trees of every quality are judged as their costs are.
#[test]
fn trees_of_every_quality() {
    let seed = seed();
    for quality in QUALITIES {
        let count = cases(3_000);
        let draw = |_, random: &mut Random| judged_case(quality, random);
        let tally = pass(run(&library, Call::Judge, seed, count, &draw));
        println!("judged trees, {quality:?}: seed {seed}, {count} cases: {tally}");
        match quality {
            Quality::Best => assert_eq!(tally.not_optimal, 0),
            _ => assert!(count < 1_000 || tally.optimal > 0 && tally.not_optimal > 0),
        }
    }
}

/// Every spanning tree of a small graph under every root: judged 1 exactly if none of them costs less.
#[test]
fn all_trees_of_small_graphs() {
    let seed = seed();
    let random = &mut Random::new(seed);
    let (mut best, mut others) = (0, 0);
    let count = cases(300);
    for _ in 0..count {
        let n = random.between(1, 5) as usize;
        let lengths = random.pick(&[Lengths::Few, Lengths::OftenZero, Lengths::Zero]);
        let edges = random::connected(random, n, 8, lengths);
        let (mu, nu) = random::measures(random, n, Measures::Small);
        let tree = None;
        let mut problem = Problem {
            n,
            edges,
            mu,
            nu,
            tree,
        };
        let least = least_tree_cost(&problem);
        for root in 0..n {
            for tree in spanning_trees(&problem, root) {
                let cheapest = tree_cost(&problem, &tree) == least;
                problem.tree = Some(tree);
                let lists = Lists::of(&problem);
                let outcome = pass(try_case(&library, Call::Judge, random, &lists, Room::exact(n)));
                assert_eq!(outcome, Outcome::Judged(cheapest), "seed {seed}: {problem:?}");
                *(if cheapest { &mut best } else { &mut others }) += 1;
            }
        }
    }
    println!("all trees of small graphs: seed {seed}, best {best}, others {others}");
    assert!(count < 50 || best > 0 && others > 0);
}

/// One list may serve for both measures.
#[test]
fn shared_lists() {
    let random = &mut Random::new(seed());
    for _ in 0..cases(500) {
        let mut problem = sound_problem(random);
        problem.nu.clone_from(&problem.mu);
        let lists = Lists::of(&problem);
        for call in [Call::Evaluate, Call::Judge, Call::Solve] {
            let make = |call: Call, job: &mut Job| job.make_with(call, true);
            pass(try_case(&make, call, random, &lists, Room::exact(problem.n)));
        }
    }
}

/// Every call from several threads at once.
#[test]
fn several_threads() {
    let (seed, count) = (seed(), cases(300));
    std::thread::scope(|scope| {
        for index in 0..4 {
            scope.spawn(move || {
                for call in CALLS {
                    let draw = |case: u64, random: &mut Random| match case % 2 {
                        0 => sound_case(random),
                        _ => faulty_case(case / 2, random),
                    };
                    pass(run(&library, call, seed + index, count, &draw));
                }
            });
        }
    });
    println!("several threads, every call: seed {seed}, 4 times {count} cases");
}
