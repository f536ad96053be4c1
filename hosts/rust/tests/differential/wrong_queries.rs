//! Answers to questions from a start that are wrong on purpose: the tests of them can fail.

use crate::pass;
use crate::queries::{any_query, judge, library, try_case, Asked, Call, DrawCase, Job, Make, CALLS};
use reference::checks::MAX_TOTAL;
use reference::flow::distances_from;
use reference::random::Random;
use reference::random_queries::{sound_query, Query};
use reference::Edge;
use std::cmp::Reverse;
use weight_mover::calls::{mover_nearest_vertex, mover_vertices_within};

/// Farther than any vertex, and no reach.
const FAR: u64 = 1 << 40;

/// The word of the vertices of this kind.
fn word(asked: &Asked, is_such: impl Fn(usize) -> bool) -> u64 {
    asked.vertices().filter(|&v| is_such(v)).map(|v| 1 << v).sum()
}

/// Of some vertices the one whose key is least, or 64.
fn least<K: Ord>(vertices: impl Iterator<Item = usize>, key: impl Fn(usize) -> K) -> u64 {
    vertices.min_by_key(|&v| key(v)).map_or(64, |v| v as u64)
}

/// The right answer by the distances that are there.
fn right(call: Call, q: &Asked) -> u64 {
    match call {
        Call::Within => word(q, |v| q.distance[v] <= q.reach),
        Call::Nearest => least(q.painted(), |v| (q.distance[v], v)),
    }
}

type Distances = fn(&Asked) -> Vec<u64>;

/// Distances that are wrong, and spoil both answers.
const DISTANCES: [(&str, Distances); 12] = [
    ("an edge's own length", |q| {
        let mut distance = q.distance.clone();
        for (v, length) in q.beside() {
            distance[v] = length;
        }
        distance
    }),
    ("neighbours alone", |q| {
        let mut distance = vec![FAR; q.problem.n];
        distance[q.start] = 0;
        for (v, length) in q.beside() {
            distance[v] = length;
        }
        distance
    }),
    ("two edges at most", |q| relaxed(q, 2, true)),
    ("from lower to upper ends alone", |q| relaxed(q, 64, false)),
    ("edges of length 0 taken for none", |q| {
        with_edges(q, |edges| edges.retain(|e| e.length > 0))
    }),
    ("edges of length 0 taken for 1", |q| {
        with_edges(q, |edges| {
            edges.iter_mut().for_each(|e| e.length = e.length.max(1))
        })
    }),
    ("edges of length 0 from the start alone", |q| {
        let away = |e: &&mut Edge| e.a != q.start && e.b != q.start;
        with_edges(q, |edges| {
            edges
                .iter_mut()
                .filter(away)
                .for_each(|e| e.length = e.length.max(1))
        })
    }),
    ("edges counted", |q| {
        with_edges(q, |edges| edges.iter_mut().for_each(|e| e.length = 1))
    }),
    ("the way of the fewest edges", fewest_edges),
    ("the last edge is not looked at", |q| {
        with_edges(q, |edges| edges.truncate(edges.len().saturating_sub(1)))
    }),
    ("16 bits of a distance", |q| {
        q.distance.iter().map(|d| d % (1 << 16)).collect()
    }),
    ("from vertex 0", |q| distances_from(&q.problem, 0)),
];

/// The distances over other edges.
fn with_edges(q: &Asked, other: impl FnOnce(&mut Vec<Edge>)) -> Vec<u64> {
    let mut problem = q.problem.clone();
    other(&mut problem.edges);
    distances_from(&problem, q.start)
}

/// The distances over paths of so many edges at most, in both directions or upward alone.
fn relaxed(q: &Asked, rounds: usize, both: bool) -> Vec<u64> {
    let mut distance = vec![FAR; q.problem.n];
    distance[q.start] = 0;
    for _ in 0..rounds {
        let before = distance.clone();
        for e in &q.problem.edges {
            distance[e.b] = distance[e.b].min(before[e.a] + e.length);
            if both {
                distance[e.a] = distance[e.a].min(before[e.b] + e.length);
            }
        }
    }
    distance
}

/// The length of the least way with as few edges as there can be.
fn fewest_edges(q: &Asked) -> Vec<u64> {
    const EDGE: u64 = 1 << 24;
    let with_edge = with_edges(q, |edges| edges.iter_mut().for_each(|e| e.length += EDGE));
    with_edge.into_iter().map(|d| d % EDGE).collect()
}

/// Whether some shortest way to a vertex ends with an edge that is longer than 0.
fn ends_with_a_step(q: &Asked, v: usize) -> bool {
    let mut edges = q
        .problem
        .edges
        .iter()
        .filter(|e| e.length > 0 && (e.a == v || e.b == v));
    edges.any(|e| q.distance[e.a + e.b - v] + e.length == q.distance[v])
}

type Answer = fn(&Asked) -> u64;

/// Wrong words of the vertices within reach.
const WITHIN: [(&str, Answer); 16] = [
    ("the rim left out", |q| word(q, |v| q.distance[v] < q.reach)),
    ("one step further", |q| word(q, |v| q.distance[v] <= q.reach + 1)),
    ("the rim alone", |q| word(q, |v| q.distance[v] == q.reach)),
    ("the start left out", |q| right(Call::Within, q) & !(1 << q.start)),
    ("the last left out", |q| {
        right(Call::Within, q) & !(1 << (q.problem.n - 1))
    }),
    ("what is welded at the rim left out", |q| {
        let by_seam = |v: usize| q.distance[v] == q.reach && !ends_with_a_step(q, v);
        right(Call::Within, q) & word(q, |v| v == q.start || !by_seam(v))
    }),
    ("as far as the first one out of reach", |q| {
        let beyond = q.vertices().find(|&v| q.distance[v] > q.reach);
        let end = beyond.unwrap_or(q.problem.n);
        word(q, |v| v == q.start || v < end)
    }),
    ("16 bits of the reach", |q| {
        word(q, |v| q.distance[v] <= q.reach % (1 << 16))
    }),
    ("a reach with a sign", |q| {
        word(q, |v| q.distance[v] as i64 <= i64::from(q.reach as i32))
    }),
    ("below the reach and 1, which wraps", |q| {
        word(q, |v| q.distance[v] < (q.reach as u32).wrapping_add(1).into())
    }),
    ("those out of reach", |q| word(q, |v| q.distance[v] > q.reach)),
    ("32 bits of the word", |q| right(Call::Within, q) % (1 << 32)),
    ("bits from 1 on", |q| right(Call::Within, q) << 1),
    ("bits from the other end", |q| {
        right(Call::Within, q).reverse_bits()
    }),
    ("bits past the last vertex", |q| {
        right(Call::Within, q) | u64::MAX.checked_shl(q.problem.n as u32).unwrap_or(0)
    }),
    ("nothing", |_| 0),
];

/// Wrong nearest vertices.
const NEAREST: [(&str, Answer); 17] = [
    ("a tie to the highest", |q| {
        least(q.painted(), |v| (q.distance[v], Reverse(v)))
    }),
    ("a tie to the start", |q| {
        least(q.painted(), |v| (q.distance[v], v != q.start, v))
    }),
    ("a tie to the most paint", |q| {
        least(q.painted(), |v| (q.distance[v], Reverse(q.problem.mu[v]), v))
    }),
    ("amounts ignored", |q| least(q.vertices(), |v| (q.distance[v], v))),
    ("the start always", |q| q.start as u64),
    ("the start left out", |q| {
        least(q.painted().filter(|&v| v != q.start), |v| (q.distance[v], v))
    }),
    ("the last left out", |q| {
        let last = q.problem.n - 1;
        least(q.painted().filter(|&v| v < last), |v| (q.distance[v], v))
    }),
    ("the lowest with paint", |q| least(q.painted(), |v| v)),
    ("the most paint", |q| {
        least(q.painted(), |v| (Reverse(q.problem.mu[v]), q.distance[v], v))
    }),
    ("the farthest", |q| {
        least(q.painted(), |v| (Reverse(q.distance[v]), v))
    }),
    ("the nearest without paint", |q| {
        least(q.vertices().filter(|&v| q.problem.mu[v] == 0), |v| {
            (q.distance[v], v)
        })
    }),
    ("one grain is no paint", |q| {
        least(q.painted().filter(|&v| q.problem.mu[v] > 1), |v| {
            (q.distance[v], v)
        })
    }),
    ("63 for 64", |q| right(Call::Nearest, q).min(63)),
    ("0 for 64", |q| right(Call::Nearest, q) % 64),
    ("n for 64", |q| right(Call::Nearest, q).min(q.problem.n as u64)),
    ("the start for 64", |q| match right(Call::Nearest, q) {
        64 => q.start as u64,
        vertex => vertex,
    }),
    ("the bit for the vertex", |q| {
        1u64.checked_shl(right(Call::Nearest, q) as u32).unwrap_or(64)
    }),
];

/// The library, and another answer in place of its own.
fn answering(answer: impl Fn(Call, &Asked) -> u64) -> impl Fn(Call, &Query, &mut Job) -> u32 {
    move |call, query, job| {
        let number = job.make(call);
        if let (0, Some(asked)) = (number, Asked::new(call, query)) {
            job.tell(call, answer(call, &asked));
        }
        number
    }
}

/// The questions that wrong calls are tried on, and how many of them show it.
struct Trial(Vec<Query>);

impl Trial {
    fn new(count: u64, draw: DrawCase) -> Trial {
        let query = |index| draw(index, &mut Random::for_case(1, index));
        Trial((0..count).map(query).collect())
    }

    fn caught(&self, call: Call, make: Make) -> usize {
        let random = &mut Random::new(1);
        let wrong = |query: &&Query| try_case(make, call, random, query).is_err();
        self.0.iter().filter(wrong).count()
    }

    fn report(&self, call: Call, name: &str, make: Make) {
        let times = self.caught(call, make);
        let count = self.0.len();
        println!("wrong on purpose, {call:?}, {name}: caught {times} of {count}");
        assert!(times > 0, "{call:?}, \"{name}\" was never caught");
    }
}

/// Wrong answers are caught; by right distances the same programs are right.
#[test]
fn wrong_answers_to_queries_are_caught() {
    let trial = Trial::new(600, &|_, random| sound_query(random));
    for call in CALLS {
        assert_eq!(trial.caught(call, &library), 0);
        assert_eq!(trial.caught(call, &answering(right)), 0);
        for (name, distances) in DISTANCES {
            let answer = |call: Call, q: &Asked| {
                let (problem, distance) = (q.problem.clone(), distances(q));
                right(
                    call,
                    &Asked {
                        problem,
                        distance,
                        ..*q
                    },
                )
            };
            trial.report(call, name, &answering(answer));
        }
    }
    for (call, answers) in CALLS.into_iter().zip([&WITHIN[..], &NEAREST]) {
        for &(name, answer) in answers {
            trial.report(call, name, &answering(|_, q| answer(q)));
        }
    }
}

type Wrong = fn(Call, &Query, &mut Job) -> u32;

/// The library with another question.
fn with(call: Call, query: &Query, job: &mut Job, other: impl FnOnce(&mut Query)) -> u32 {
    let mut query = query.clone();
    other(&mut query);
    let Query { lists, start, reach } = query;
    let (n, a, b, lengths) = (lists.n, &lists.a, &lists.b, &lists.lengths);
    match call {
        Call::Within => mover_vertices_within(n, a, b, lengths, start, reach, job.mask.one()),
        Call::Nearest => mover_nearest_vertex(n, a, b, lengths, start, &lists.mu, job.vertex.one()),
    }
}

/// The library, but another number for this one if it is of this kind.
fn instead(call: Call, job: &mut Job, number: u32, other: u32, is_other: impl FnOnce(&Job) -> bool) -> u32 {
    match job.make(call) {
        got if got == number && is_other(job) => {
            job.tell(call, 0);
            other
        }
        got => got,
    }
}

/// The library, but a refusal tells this.
fn telling(call: Call, job: &mut Job, told: u64) -> u32 {
    let number = job.make(call);
    if number > 0 {
        job.tell(call, told);
    }
    number
}

fn starts_outside(job: &Job) -> bool {
    job.start >= job.n
}

fn total(job: &Job) -> u128 {
    job.amounts.content().iter().map(|&x| u128::from(x)).sum()
}

fn is_heavy(job: &Job) -> bool {
    total(job) > MAX_TOTAL.into()
}

/// Calls that are wrong as calls, whichever it is.
const WRONG_CALLS: [(&str, Wrong); 26] = [
    ("17 for everybody", |_, _, _| 17),
    ("accepts everything", |call, _, job| {
        job.make(call);
        0
    }),
    ("the number after", |call, _, job| match job.make(call) {
        0 => 0,
        number => number + 1,
    }),
    ("8 for 17", |call, _, job| instead(call, job, 17, 8, |_| true)),
    ("no vertex reaches nothing", |call, _, job| {
        instead(call, job, 17, 0, |_| true)
    }),
    ("17 from 64 on alone", |call, _, job| {
        instead(call, job, 17, 0, |job| job.start < 64)
    }),
    ("the last vertex is no start", |call, _, job| {
        instead(call, job, 0, 17, |job| job.start + 1 == job.n)
    }),
    ("the nearest start that there is", |call, query, job| {
        with(call, query, job, |q| q.start = q.start.min(q.lists.n.max(1) - 1))
    }),
    ("8 bits of the start", |call, query, job| {
        with(call, query, job, |q| q.start %= 1 << 8)
    }),
    ("32 bits of the start", |call, query, job| {
        with(call, query, job, |q| q.start %= 1 << 32)
    }),
    ("8 bits of n", |call, query, job| {
        with(call, query, job, |q| q.lists.n %= 1 << 8)
    }),
    ("17 before 1", |call, _, job| {
        instead(call, job, 1, 17, starts_outside)
    }),
    ("17 before 2", |call, _, job| {
        instead(call, job, 2, 17, starts_outside)
    }),
    ("17 before 3", |call, _, job| {
        instead(call, job, 3, 17, starts_outside)
    }),
    ("17 before 4", |call, _, job| {
        instead(call, job, 4, 17, starts_outside)
    }),
    ("17 before 5", |call, _, job| {
        instead(call, job, 5, 17, starts_outside)
    }),
    ("5 before 4", |call, query, job| {
        match with(call, query, job, |q| q.lists.lengths.fill(1)) {
            5 => 5,
            _ => job.make(call),
        }
    }),
    ("what cannot be reached is no matter", |call, _, job| {
        instead(call, job, 5, 0, |_| true)
    }),
    ("16 bits of a length", |call, query, job| {
        with(call, query, job, |q| {
            q.lists.lengths.iter_mut().for_each(|l| *l %= 1 << 16)
        })
    }),
    ("a length of 0 is refused", |call, _, job| {
        instead(call, job, 0, 4, |job| job.edges[2].content().contains(&0))
    }),
    ("the shortest edge list counts", |call, query, job| {
        with(call, query, job, |q| {
            let lists = [&mut q.lists.a, &mut q.lists.b, &mut q.lists.lengths];
            let m = lists.iter().map(|list| list.len()).min().unwrap_or(0);
            lists.into_iter().for_each(|list| list.truncate(m));
        })
    }),
    ("nothing is told", |call, _, job| {
        let before = job.told(call);
        let number = job.make(call);
        if number == 0 {
            job.tell(call, before);
        }
        number
    }),
    ("a refusal tells nothing", |call, _, job| {
        let before = job.told(call);
        telling(call, job, before)
    }),
    ("a refusal tells 64", |call, _, job| telling(call, job, 64)),
    (
        "a refusal by 17 tells the answer from 0",
        |call, query, job| match job.make(call) {
            17 => {
                with(call, query, job, |q| q.start = 0);
                17
            }
            number => number,
        },
    ),
    ("changes a list", |call, _, job| {
        let number = job.make(call);
        job.edges[1]
            .content_mut()
            .iter_mut()
            .take(1)
            .for_each(|b| *b ^= 1);
        number
    }),
];

/// Calls that are wrong with their painting.
const WRONG_PAINTINGS: [(&str, Wrong); 12] = [
    ("17 before 6", |call, _, job| {
        instead(call, job, 6, 17, starts_outside)
    }),
    ("6 before 5", |call, _, job| instead(call, job, 5, 6, is_heavy)),
    ("6 before 2", |call, _, job| instead(call, job, 2, 6, is_heavy)),
    ("totals are no matter", |call, _, job| {
        instead(call, job, 6, 0, |_| true)
    }),
    ("each amount alone", |call, _, job| {
        instead(call, job, 6, 0, |job| {
            job.amounts.content().iter().all(|&x| x <= MAX_TOTAL)
        })
    }),
    ("64 bits of the total", |call, _, job| {
        instead(call, job, 6, 0, |job| total(job) as u64 <= MAX_TOTAL)
    }),
    ("32 bits of an amount", |call, query, job| {
        with(call, query, job, |q| {
            q.lists.mu.iter_mut().for_each(|x| *x %= 1 << 32)
        })
    }),
    ("one grain above is let pass", |call, _, job| {
        instead(call, job, 6, 0, |job| total(job) == u128::from(MAX_TOTAL) + 1)
    }),
    ("the greatest total is refused", |call, _, job| {
        instead(call, job, 0, 6, |job| total(job) == MAX_TOTAL.into())
    }),
    ("no paint is refused", |call, _, job| {
        instead(call, job, 0, 6, |job| total(job) == 0)
    }),
    ("a longer painting is cut", |call, query, job| {
        with(call, query, job, |q| q.lists.mu.truncate(q.lists.n))
    }),
    ("a shorter painting is filled up", |call, query, job| {
        with(call, query, job, |q| {
            let places = q.lists.n.min(64).max(q.lists.mu.len());
            q.lists.mu.resize(places, 0);
        })
    }),
];

/// Calls with other numbers or other ways to tell them are caught.
#[test]
fn wrong_queries_are_caught() {
    let trial = Trial::new(1_500, &any_query);
    for call in CALLS {
        for (name, wrong) in WRONG_CALLS {
            trial.report(call, name, &wrong);
        }
    }
    for (name, wrong) in WRONG_PAINTINGS {
        trial.report(Call::Nearest, name, &wrong);
    }
}

/// The single results stand between guards that are looked at.
#[test]
fn wrong_places_of_queries_are_watched() {
    for (call, after) in CALLS.into_iter().flat_map(|call| [(call, false), (call, true)]) {
        let random = &mut Random::new(1);
        let query = sound_query(random);
        let mut job = Job::new(random, &query);
        let number = job.make(call);
        pass(judge(call, &query, &job, number));
        match call {
            Call::Within => job.mask.break_guard(random, after),
            Call::Nearest => job.vertex.break_guard(random, after),
        }
        let complaint = judge(call, &query, &job, number);
        assert_eq!(complaint, Err("places round the result were changed".into()));
    }
}
