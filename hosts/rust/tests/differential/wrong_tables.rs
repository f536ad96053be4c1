//! Calls over tables that are wrong on purpose: the tests of them can fail.

use crate::jobs::{judge, library, replace, run, try_case, Call, Job, Make, Room, CALLS};
use crate::spoils::{Spoil, FIGURES, TREES};
use crate::tables::{faulty_case, judged_case, sound_case, QUALITIES};
use crate::{brief, pass};
use reference::checks::check_graph;
use reference::flow::{distances, least_cost};
use reference::random::Random;
use reference::random_lists::sound_problem;
use reference::random_trees::cheaper_neighbour;
use reference::tree::evaluate;
use reference::{Lists, Problem};

type Wrong = fn(Call, &mut Job) -> u32;

/// Calls that are wrong as calls: in their number, or in what they write.
const WRONG_CALLS: [(&str, Wrong); 10] = [
    ("7 for everybody", |_, _| 7),
    ("accepts everything", |call, job| {
        job.make(call);
        0
    }),
    ("the number after", |call, job| match job.make(call) {
        0 => 0,
        number => number + 1,
    }),
    ("refuses, and changes a table", |call, job| {
        let number = job.make(call);
        if number > 0 {
            job.results(call)[0].1.change(0);
        }
        number
    }),
    ("refuses, and changes the last result", |call, job| {
        let number = job.make(call);
        if let (1.., Some(last)) = (number, job.results(call).last_mut()) {
            last.1.change(0);
        }
        number
    }),
    ("writes past an answer", |call, job| {
        let number = job.make(call);
        let first = match call {
            Call::Judge => 0,
            Call::Evaluate | Call::Solve => job.n,
            _ => job.n.wrapping_mul(job.n),
        };
        if number == 0 {
            job.results(call)[0].1.change(first);
        }
        number
    }),
    ("changes a list", |call, job| {
        let number = job.make(call);
        job.arguments()[0].1.change(0);
        number
    }),
    ("tests lengths before the order of edges", |call, job| {
        match job.make(call) {
            3 if job.lengths.content().iter().any(|&l| l > 65_535) => 4,
            number => number,
        }
    }),
    ("tests 16 bits of a length", |call, job| match job.make(call) {
        4 => 0,
        number => number,
    }),
    ("refuses a length of 0", |call, job| match job.make(call) {
        0 if job.lengths.content().contains(&0) => 4,
        number => number,
    }),
];

/// Each of these calls is caught, whichever call it is made of.
#[test]
fn wrong_calls_are_caught() {
    let (seed, count) = (1, 1_500);
    let draw = |index: u64, random: &mut Random| match index % 3 {
        0 => sound_case(random),
        _ => faulty_case(index, random),
    };
    for call in CALLS {
        pass(run(&library, call, seed, count, &draw));
        for (name, wrong) in WRONG_CALLS {
            match run(&wrong, call, seed, count, &draw) {
                Ok(_) => panic!("{call:?}, \"{name}\" was not caught: seed {seed}"),
                Err(complaint) => println!("wrong on purpose, {name}: {}", brief(&complaint)),
            }
        }
    }
}

/// Every table and single result of every call stands between guards that are looked at.
#[test]
fn wrong_places_are_watched() {
    let lists = Lists::of(&sound_problem(&mut Random::new(1)));
    let room = Room::exact(lists.n);
    for call in CALLS {
        let names: Vec<&str> = guarded_job(&lists, room)
            .results(call)
            .iter()
            .map(|r| r.0)
            .collect();
        for (which, name) in names.into_iter().enumerate() {
            for after in [false, true] {
                let mut job = guarded_job(&lists, room);
                let number = job.make(call);
                job.results(call)[which].1.break_guard(&mut Random::new(2), after);
                let complaint = judge(call, &lists, room, &mut job, number);
                assert_eq!(complaint, Err(format!("places round {name} were changed")));
            }
        }
    }
}

/// A job whose tables all have guards: every second seed gives one.
fn guarded_job(lists: &Lists, room: Room) -> Job {
    let mut seeds = 0..;
    let guarded = seeds.find(|&s| !Random::new(s).chance(2)).expect("a seed");
    Job::new(&mut Random::new(guarded), lists, room)
}

/// Makes a call, and spoils its answer.
fn spoiled(call: Call, job: &mut Job, spoil: impl FnOnce(&Problem, &mut Job)) -> u32 {
    let number = job.make(call);
    if number == 0 {
        let lists = Lists {
            n: job.n,
            a: job.a.content().to_vec(),
            b: job.b.content().to_vec(),
            lengths: job.lengths.content().to_vec(),
            mu: job.mu.content().to_vec(),
            nu: job.nu.content().to_vec(),
            root: job.root,
            parents: job.parents.content().to_vec(),
        };
        let problem = lists.accept_judge().expect("accepted");
        spoil(&problem, job);
    }
    number
}

fn spoiled_record(call: Call, job: &mut Job, spoil: Spoil) -> u32 {
    spoiled(call, job, |problem, job| {
        let mut record = job.record(problem.n);
        if call == Call::Evaluate {
            record.tree = problem.tree.clone().expect("a tree");
        }
        spoil(problem, &mut record);
        job.put(&record, call == Call::Solve);
    })
}

/// How many of the sound cases show that a call is wrong.
fn caught(call: Call, count: u64, make: Make) -> u64 {
    let is_caught = |index: &u64| {
        let random = &mut Random::for_case(1, *index);
        let (lists, room) = match call {
            Call::Judge => judged_case(QUALITIES[*index as usize % 4], random),
            _ => sound_case(random),
        };
        try_case(make, call, random, &lists, room).is_err()
    };
    (0..count).filter(is_caught).count() as u64
}

type SpoilJob = fn(&Problem, &mut Job);

/// Spoils of answers, each of one kind of call.
const ANSWERS: [(&str, Call, SpoilJob); 19] = [
    (
        "edges as they are, no way round",
        Call::Distances,
        lengths_for_distances,
    ),
    (
        "edges as they are, no way round",
        Call::Records,
        lengths_for_distances,
    ),
    (
        "edges of length 0 taken for none",
        Call::Distances,
        distances_without_seams,
    ),
    (
        "edges of length 0 taken for none",
        Call::Records,
        distances_without_seams,
    ),
    ("row 0 alone", Call::Distances, |p, job| {
        job.out.content_mut()[p.n..].fill(0)
    }),
    ("a column shifted", Call::Records, |p, job| {
        job.out.content_mut()[..p.n * p.n].rotate_right(1)
    }),
    ("one too far", Call::Distances, |p, job| {
        job.out.content_mut()[p.n - 1] += 1
    }),
    ("a diagonal that is not 0", Call::Records, |p, job| {
        job.out.content_mut()[p.n * p.n - 1] += 1
    }),
    ("imbalance turned round", Call::Evaluate, |p, job| {
        let places = job.imbalance.content_mut();
        places[..p.n].iter_mut().for_each(|x| *x = -*x)
    }),
    ("imbalance of one vertex", Call::Evaluate, |p, job| {
        let own: Vec<i64> = (0..p.n).map(|x| p.difference(x)).collect();
        replace(&mut job.imbalance, &own, |x| x as i32)
    }),
    ("rising where nothing moves", Call::Evaluate, |p, job| {
        slope_where_nothing_moves(p, job, 1)
    }),
    ("falling where nothing moves", Call::Evaluate, |p, job| {
        slope_where_nothing_moves(p, job, -1)
    }),
    ("cost of the best", Call::Evaluate, |p, job| {
        *job.cost.one() = least_cost(p)
    }),
    ("1 to every tree", Call::Judge, |_, job| *job.optimal.one() = 1),
    ("0 to every tree", Call::Judge, |_, job| *job.optimal.one() = 0),
    ("judged the other way", Call::Judge, |_, job| {
        *job.optimal.one() ^= 1
    }),
    ("by the tree's own potential", Call::Judge, |p, job| {
        let u = evaluate(p, p.tree.as_ref().expect("a tree")).potential;
        let steep = p.edges.iter().any(|e| u[e.a].abs_diff(u[e.b]) > e.length);
        *job.optimal.one() = u32::from(!steep)
    }),
    ("if no swap is cheaper", Call::Judge, |p, job| {
        if p.n < 8 {
            let cheaper = cheaper_neighbour(p, p.tree.as_ref().expect("a tree"));
            *job.optimal.one() = u32::from(cheaper.is_none())
        }
    }),
    ("2 for 1", Call::Judge, |_, job| *job.optimal.one() *= 2),
];

fn lengths_for_distances(problem: &Problem, job: &mut Job) {
    let n = problem.n;
    for e in &problem.edges {
        job.out.content_mut()[e.a * n + e.b] = e.length as u32;
        job.out.content_mut()[e.b * n + e.a] = e.length as u32;
    }
}

/// The distances where edges of length 0 are left out, if all vertices can still be reached.
fn distances_without_seams(problem: &Problem, job: &mut Job) {
    let mut without = problem.clone();
    without.edges.retain(|e| e.length > 0);
    if check_graph(&without).is_ok() {
        for (place, d) in job.out.content_mut().iter_mut().zip(distances(&without)) {
            *place = d as u32;
        }
    }
}

/// The potential with another sign than 0 for an imbalance of 0.
fn slope_where_nothing_moves(problem: &Problem, job: &mut Job, slope: i64) {
    let tree = problem.tree.as_ref().expect("a tree");
    let mut potential = vec![0; problem.n];
    for x in (0..problem.n).filter(|&x| x != tree.root) {
        let sign = match i64::from(job.imbalance.content()[x]).signum() {
            0 => slope,
            sign => sign,
        };
        let length = problem.length(x, tree.parents[x]).expect("an edge") as i64;
        let below = (0..problem.n).filter(|&y| tree.is_below(y, x));
        below.for_each(|y| potential[y] += sign * length);
    }
    replace(&mut job.potential, &potential, |u| u as i32);
}

/// Wrong answers are caught.
#[test]
fn wrong_answers_are_caught() {
    let count = 200;
    let report = |call: Call, name: &str, count: u64, make: Make| {
        let times = caught(call, count, make);
        println!("wrong on purpose, {call:?}, {name}: caught {times} of {count}");
        assert!(times > 0, "{call:?}, \"{name}\" was never caught");
    };
    for (name, call, spoil) in ANSWERS {
        // Trees that are stalled and not best are rare.
        let count = if call == Call::Judge { 10 * count } else { count };
        report(call, name, count, &|call, job| spoiled(call, job, spoil));
    }
    let of_evaluate = FIGURES.iter().map(|s| (Call::Evaluate, s));
    // The root of a best answer over tables is no result.
    let of_solve = FIGURES.iter().chain(&TREES[1..]).map(|s| (Call::Solve, s));
    for (call, &(name, spoil)) in of_evaluate.chain(of_solve) {
        report(call, name, count, &|call, job| spoiled_record(call, job, spoil));
    }
}
