//! What brushes ask from a start vertex: the vertices within reach, and the nearest one with paint.

use crate::lent::Lent;
use crate::trees::asked;
use crate::{ensure, pass};
use reference::checks::MAX_TOTAL;
use reference::flow::distances_from;
use reference::queries::{nearest, within};
use reference::random::{self, Random};
use reference::random_queries::{
    faulty_query, first_number, painting, reach, sound_query, Query, Unaskable, UNASKABLE,
};
use reference::runs::{cases, seed};
use reference::Problem;
use std::fmt;
use weight_mover::calls::{mover_nearest_vertex, mover_vertices_within};

#[derive(Clone, Copy, Debug, PartialEq, Eq)]
pub enum Call {
    Within,
    Nearest,
}

pub const CALLS: [Call; 2] = [Call::Within, Call::Nearest];

impl Call {
    /// Its own numbers.
    fn numbers(self) -> &'static [usize] {
        match self {
            Call::Within => &[1, 2, 3, 4, 5, 17],
            Call::Nearest => &[1, 2, 3, 4, 5, 6, 17],
        }
    }

    fn has_painting(self) -> bool {
        self == Call::Nearest
    }

    /// The answer by the reference, or the refusal.
    fn expected(self, Query { lists, start, reach }: &Query) -> Result<u64, u32> {
        match self {
            Call::Within => within(lists, *start, *reach),
            Call::Nearest => nearest(lists, *start).map(u64::from),
        }
    }
}

/// All that the two calls are lent.
pub struct Job {
    pub n: usize,
    /// Lower ends, upper ends and lengths.
    pub edges: [Lent<u32>; 3],
    pub start: usize,
    pub reach: u32,
    pub amounts: Lent<u64>,
    pub mask: Lent<u64>,
    pub vertex: Lent<u32>,
}

impl Job {
    /// With single results that are not 0.
    pub fn new(random: &mut Random, Query { lists, start, reach }: &Query) -> Job {
        let exact = random.chance(2);
        let (mask, vertex) = (random.word() | 1, random.word() as u32 | 1);
        Job {
            n: lists.n,
            edges: [&lists.a, &lists.b, &lists.lengths].map(|list| Lent::new(random, list, exact)),
            start: *start,
            reach: *reach,
            amounts: Lent::new(random, &lists.mu, exact),
            mask: Lent::new(random, &[mask], false),
            vertex: Lent::new(random, &[vertex], false),
        }
    }

    /// The call of the library.
    pub fn make(&mut self, call: Call) -> u32 {
        let [a, b, lengths] = self.edges.each_ref().map(|list| list.content());
        match call {
            Call::Within => {
                mover_vertices_within(self.n, a, b, lengths, self.start, self.reach, self.mask.one())
            }
            Call::Nearest => mover_nearest_vertex(
                self.n,
                a,
                b,
                lengths,
                self.start,
                self.amounts.content(),
                self.vertex.one(),
            ),
        }
    }

    /// The single result of a call.
    pub fn told(&self, call: Call) -> u64 {
        match call {
            Call::Within => self.mask.content()[0],
            Call::Nearest => self.vertex.content()[0].into(),
        }
    }

    /// Puts another one in its place.
    pub fn tell(&mut self, call: Call, answer: u64) {
        match call {
            Call::Within => *self.mask.one() = answer,
            Call::Nearest => *self.vertex.one() = answer as u32,
        }
    }
}

/// Judges all that a call did.
pub fn judge(call: Call, query: &Query, job: &Job, number: u32) -> Result<(), String> {
    let lists_are_as_lent = job.edges.iter().all(Lent::is_as_lent) && job.amounts.is_as_lent();
    ensure(lists_are_as_lent, || "a list was changed".into())?;
    ensure(
        job.mask.guards_are_whole() && job.vertex.guards_are_whole(),
        || "places round the result were changed".into(),
    )?;
    let told = job.told(call);
    match call.expected(query) {
        Ok(answer) => {
            ensure(number == 0, || format!("accepted, but got {number}"))?;
            ensure(told == answer, || {
                format!("answer: expected {answer:#x}, but got {told:#x}")
            })
        }
        Err(expected) => {
            ensure(number == expected, || {
                format!("refused {expected}, but got {number}")
            })?;
            ensure(told == 0, || format!("a refusal told {told:#x}"))
        }
    }
}

/// The call under test, or one made wrong on purpose.
pub type Make<'a> = &'a dyn Fn(Call, &Query, &mut Job) -> u32;

pub fn library(call: Call, _: &Query, job: &mut Job) -> u32 {
    job.make(call)
}

/// Makes a call and judges it; its number.
pub fn try_case(make: Make, call: Call, random: &mut Random, query: &Query) -> Result<u32, String> {
    let mut job = Job::new(random, query);
    let number = make(call, query, &mut job);
    let judged = judge(call, query, &job, number);
    judged.map_err(|complaint| format!("{call:?}: {complaint}\n{query:?}"))?;
    Ok(number)
}

/// A question that is answered, with the distances from its start.
pub struct Asked {
    pub problem: Problem,
    pub start: usize,
    pub reach: u64,
    pub distance: Vec<u64>,
}

impl Asked {
    pub fn new(call: Call, Query { lists, start, reach }: &Query) -> Option<Asked> {
        let accepted = match call {
            Call::Within => lists.accept_within(*start),
            Call::Nearest => lists.accept_nearest(*start),
        };
        let problem = accepted.ok()?;
        Some(Asked {
            distance: distances_from(&problem, *start),
            problem,
            start: *start,
            reach: (*reach).into(),
        })
    }

    pub fn vertices(&self) -> std::ops::Range<usize> {
        0..self.problem.n
    }

    pub fn painted(&self) -> impl Iterator<Item = usize> + '_ {
        self.vertices().filter(|&v| self.problem.mu[v] > 0)
    }

    /// The other ends of the start's edges, with their lengths.
    pub fn beside(&self) -> impl Iterator<Item = (usize, u64)> + '_ {
        let edges = self.problem.edges.iter();
        let at_start = edges.filter(|e| e.a == self.start || e.b == self.start);
        at_start.map(|e| (e.a + e.b - self.start, e.length))
    }

    /// Whether some vertex other than the start is so far away.
    fn any_at(&self, distance: u64) -> bool {
        self.vertices()
            .any(|v| v != self.start && self.distance[v] == distance)
    }

    /// How far the nearest paint is, and on how many vertices it is as near.
    fn nearest_paint(&self) -> Option<(u64, usize)> {
        let least = self.painted().map(|v| self.distance[v]).min()?;
        let as_near = self.painted().filter(|&v| self.distance[v] == least);
        Some((least, as_near.count()))
    }
}

type IsSuch = fn(&Asked) -> bool;

/// What must come up among the questions that are answered.
const KINDS: [(&str, Call, IsSuch); 14] = [
    ("some within", Call::Within, |q| {
        let within = q.vertices().filter(|&v| q.distance[v] <= q.reach).count();
        within > 1 && within < q.problem.n
    }),
    ("just within", Call::Within, |q| q.any_at(q.reach)),
    ("just beyond", Call::Within, |q| q.any_at(q.reach + 1)),
    ("welded to the start", Call::Within, |q| q.any_at(0)),
    ("welded at the rim", Call::Within, |q| {
        let at_rim = |v: usize| v != q.start && q.reach > 0 && q.distance[v] == q.reach;
        let mut seams = q.problem.edges.iter().filter(|e| e.length == 0);
        seams.any(|e| at_rim(e.a) && at_rim(e.b))
    }),
    ("by a way round", Call::Within, |q| {
        q.beside()
            .any(|(v, length)| q.distance[v] <= q.reach && q.reach < length)
    }),
    ("reach 0", Call::Within, |q| q.reach == 0),
    ("greatest reach", Call::Within, |q| q.reach == u32::MAX.into()),
    ("no paint", Call::Nearest, |q| q.nearest_paint().is_none()),
    ("paint everywhere", Call::Nearest, |q| {
        q.painted().count() == q.problem.n && q.problem.n > 1
    }),
    ("paint on the start", Call::Nearest, |q| q.problem.mu[q.start] > 0),
    ("greatest total", Call::Nearest, |q| {
        q.problem.mu.iter().sum::<u64>() == MAX_TOTAL
    }),
    ("tie", Call::Nearest, |q| {
        q.nearest_paint().is_some_and(|(far, ties)| far > 0 && ties > 1)
    }),
    ("tie over a seam with the start", Call::Nearest, |q| {
        q.problem.mu[q.start] > 0 && q.nearest_paint().is_some_and(|(_, ties)| ties > 1)
    }),
];

/// What the calls of a run did.
#[derive(Default)]
pub struct Tally {
    numbers: [u64; 18],
    kinds: [u64; KINDS.len()],
}

impl Tally {
    fn add(&mut self, call: Call, query: &Query, number: u32) {
        self.numbers[number as usize] += 1;
        let Some(asked) = Asked::new(call, query) else {
            return;
        };
        for (count, (_, of, is_such)) in self.kinds.iter_mut().zip(KINDS) {
            *count += u64::from(of == call && is_such(&asked));
        }
    }

    /// Whether just these numbers came up.
    fn refused_by(&self, numbers: &[usize]) -> bool {
        (1..18).all(|k| (self.numbers[k] > 0) == numbers.contains(&k))
    }

    fn has_every_kind(&self, call: Call) -> bool {
        let mut kinds = self.kinds.iter().zip(KINDS);
        kinds.all(|(&count, (_, of, _))| of != call || count > 0)
    }
}

impl fmt::Display for Tally {
    fn fmt(&self, f: &mut fmt::Formatter) -> fmt::Result {
        write!(f, "answered {}", self.numbers[0])?;
        for (count, (name, ..)) in self.kinds.iter().zip(KINDS).filter(|(&count, _)| count > 0) {
            write!(f, ", {name} {count}")?;
        }
        for number in (1..18).filter(|&k| self.numbers[k] > 0) {
            write!(f, ", refused {number}: {}", self.numbers[number])?;
        }
        Ok(())
    }
}

pub type DrawCase<'a> = &'a dyn Fn(u64, &mut Random) -> Query;

/// Runs many cases. On the first wrong answer the complaint has all that is needed to see it again.
pub fn run(make: Make, call: Call, seed: u64, count: u64, draw: DrawCase) -> Result<Tally, String> {
    let mut tally = Tally::default();
    for index in 0..count {
        let random = &mut Random::for_case(seed, index);
        let query = draw(index, random);
        let number = try_case(make, call, random, &query);
        let number = number.map_err(|c| format!("{c}\nseed {seed}, case {index}"))?;
        tally.add(call, &query, number);
    }
    Ok(tally)
}

/// Questions that are answered, of every kind.
#[test]
fn sound_queries() {
    let seed = seed();
    for call in CALLS {
        let count = cases(10_000);
        let tally = pass(run(&library, call, seed, count, &|_, random| sound_query(random)));
        println!("sound queries, {call:?}: seed {seed}, {count} cases: {tally}");
        assert_eq!(tally.numbers[0], count);
        assert!(count < 2_000 || tally.has_every_kind(call), "{call:?}: {tally}");
    }
}

/// Every two faults in their turn, together; or the first alone, or with a third.
fn some_faults(random: &mut Random, index: u64) -> Vec<Unaskable> {
    let turn = |index: u64| UNASKABLE[index as usize % UNASKABLE.len()];
    let (first, second) = (turn(index), turn(index / UNASKABLE.len() as u64));
    match random.below(4) {
        0 => vec![first],
        1 => vec![first, second, random.pick(&UNASKABLE)],
        _ => vec![first, second],
    }
}

/// A question that is answered, or has some faults.
pub fn any_query(index: u64, random: &mut Random) -> Query {
    match index % 3 {
        0 => sound_query(random),
        _ => {
            let faults = some_faults(random, index);
            faulty_query(random, &faults)
        }
    }
}

/// Each fault in its turn, alone and with others: the call's own numbers come up, and no others.
#[test]
fn faulty_queries_are_refused() {
    let seed = seed();
    for call in CALLS {
        let (count, mut tally) = (cases(10_000), Tally::default());
        for index in 0..count {
            let random = &mut Random::for_case(seed, index);
            let faults = some_faults(random, index);
            let query = faulty_query(random, &faults);
            let place = |complaint| format!("seed {seed}, case {index}, {faults:?}: {complaint}");
            let number = pass(try_case(&library, call, random, &query).map_err(place));
            assert_eq!(number, first_number(&faults, call.has_painting()), "{faults:?}");
            tally.add(call, &query, number);
        }
        println!("faulty queries, {call:?}: seed {seed}, {count} cases: {tally}");
        let own = tally.refused_by(call.numbers());
        assert!(count < 2_000 || own, "{call:?}: {tally}");
    }
}

/// Every two faults together: the order of the checks.
#[test]
fn order_of_checks() {
    let random = &mut Random::new(seed());
    for (first, second) in UNASKABLE.into_iter().flat_map(|f| UNASKABLE.map(|s| (f, s))) {
        for _ in 0..cases(40) {
            let query = faulty_query(random, &[first, second]);
            for call in CALLS {
                let number = pass(try_case(&library, call, random, &query));
                let expected = first_number(&[first, second], call.has_painting());
                assert_eq!(number, expected, "{first:?}, {second:?}: {query:?}");
            }
        }
    }
}

/// Every start of a patch, and what is no vertex.
#[test]
fn every_start() {
    let (seed, count) = (seed(), cases(100));
    let mut tallies = [Tally::default(), Tally::default()];
    for index in 0..count {
        let random = &mut Random::for_case(seed, index);
        let mut problem = random::problem(random);
        for start in asked(problem.n) {
            let distances = distances_from(&problem, start.min(problem.n - 1));
            let drawn = [0; 3].map(|_| reach(random, &distances));
            for reach in drawn.into_iter().chain([0, u32::MAX]) {
                problem.mu = painting(random, problem.n);
                let query = Query::new(&problem, start, reach);
                for (call, tally) in CALLS.into_iter().zip(&mut tallies) {
                    let number = pass(try_case(&library, call, random, &query));
                    assert_eq!(number, if start < problem.n { 0 } else { 17 });
                    tally.add(call, &query, number);
                }
            }
        }
    }
    for (call, tally) in CALLS.into_iter().zip(&tallies) {
        println!("every start, {call:?}: seed {seed}, {count} patches: {tally}");
        let every = tally.refused_by(&[17]) && tally.has_every_kind(call);
        assert!(count < 100 || every, "{call:?}: {tally}");
    }
}

/// Vertices in a line, asked from the first.
fn line(n: usize, amounts: &[u64]) -> Query {
    let edges: Vec<_> = (1..n).map(|x| (x - 1, x, 2)).collect();
    Query::new(&Problem::new(n, &edges, amounts, &[]), 0, 3)
}

fn set_length(query: &mut Query, which: usize, length: usize) {
    let lists = &mut query.lists;
    match which {
        0 => lists.a.resize(length, 7),
        1 => lists.b.resize(length, 7),
        2 => lists.lengths.resize(length, 7),
        _ => lists.mu.resize(length, 7),
    }
}

/// Every length of every list, and all of them mixed.
#[test]
fn every_length() {
    let random = &mut Random::new(seed());
    let right = line(4, &[0, 0, 1, 1]);
    for call in CALLS {
        for (which, exact) in [3, 3, 3, 4].into_iter().enumerate() {
            for length in 0..40 {
                let mut query = right.clone();
                set_length(&mut query, which, length);
                let is_read = which < 3 || call.has_painting();
                let expected = if is_read && length != exact { 2 } else { 0 };
                let number = pass(try_case(&library, call, random, &query));
                assert_eq!(number, expected, "{call:?}, list {which}, {length}");
            }
        }
        for _ in 0..cases(2_000) {
            let mut query = right.clone();
            for _ in 0..random.between(1, 4) {
                set_length(&mut query, random.index(4), random.index(8));
            }
            pass(try_case(&library, call, random, &query));
        }
    }
}

/// Both sides of the bounds of n and m, and counts that would be sound if they were cut to fewer bits.
#[test]
fn sizes_at_their_bounds() {
    let random = &mut Random::new(seed());
    let wide = [255, 256 + 4, 65_536 + 4, 1 << 32 | 4, 1 << 63, usize::MAX];
    for n in (0..71).chain(wide) {
        let places = if n < 71 { n } else { 4 };
        let mut query = line(places, &vec![1; places]);
        query.lists.n = n;
        for start in [0, places.saturating_sub(1), places, n] {
            query.start = start;
            let expected = match n {
                0 | 65.. => 1,
                _ if start >= n => 17,
                _ => 0,
            };
            for call in CALLS {
                let number = pass(try_case(&library, call, random, &query));
                assert_eq!(number, expected, "{call:?}, {n} vertices, start {start}");
            }
        }
    }
    let all = (0..64).flat_map(|a| (a + 1..64).map(move |b| (a, b, 5)));
    let mut all: Vec<(usize, usize, u64)> = all.collect();
    all.resize(65_536 + 63, (62, 63, 5));
    for m in (510..515).chain([1_024, 2_016, 65_536, 65_536 + 63]) {
        let query = Query::new(&Problem::new(64, &all[..m], &[1; 64], &[]), 63, 5);
        for call in CALLS {
            let number = pass(try_case(&library, call, random, &query));
            assert_eq!(number, if m > 512 { 2 } else { 0 }, "{call:?}, {m} edges");
        }
    }
}

/// Totals on both sides of the bound, in one place and in many, and such as would be sound if they were cut to 64
/// or 32 bits. They are looked at before the start.
#[test]
fn totals_at_their_bound() {
    const MOST: u64 = MAX_TOTAL;
    let random = &mut Random::new(seed());
    let paintings: [(Vec<u64>, bool); 15] = [
        (vec![MOST], true),
        (vec![MOST + 1], false),
        (vec![0, MOST, 0], true),
        (vec![0, 0, MOST + 1], false),
        (vec![MOST / 64; 64], true),
        (vec![MOST / 64 + 1; 64], false),
        (vec![1, MOST], false),
        (vec![MOST, 0, 1], false),
        (vec![MOST; 64], false),
        (vec![1 << 32 | 1, 0], false),
        (vec![1 << 63, 1 << 63], false),
        (vec![u64::MAX, MOST + 1], false),
        (vec![1 << 62; 4], false),
        (vec![1 << 58; 64], false),
        (vec![u64::MAX; 64], false),
    ];
    for (amounts, is_sound) in paintings {
        let n = amounts.len();
        for start in asked(n) {
            let query = Query {
                start,
                ..line(n, &amounts)
            };
            let last = if start < n { 0 } else { 17 };
            for (call, expected) in CALLS.into_iter().zip([last, if is_sound { last } else { 6 }]) {
                let number = pass(try_case(&library, call, random, &query));
                assert_eq!(number, expected, "{call:?}, start {start}: {amounts:?}");
            }
        }
    }
}

/// Every graph of n vertices, connected or not, with lengths from 0 to 2.
fn all_graphs(n: usize) -> impl Iterator<Item = Problem> {
    let pairs: Vec<(usize, usize)> = (0..n).flat_map(|a| (a + 1..n).map(move |b| (a, b))).collect();
    (0..1u64 << (2 * pairs.len())).map(move |code| {
        let digits = pairs
            .iter()
            .enumerate()
            .map(|(k, &(a, b))| (a, b, code >> (2 * k) & 3));
        let edges: Vec<_> = digits.filter(|e| e.2 < 3).collect();
        Problem::new(n, &edges, &[], &[])
    })
}

/// Every reach up to 7 and every painting of amounts below this, from every vertex and one beyond; how many
/// questions of both kinds are answered.
fn ask_all(random: &mut Random, problem: &Problem, amounts: u64) -> [u64; 2] {
    let n = problem.n;
    let mut answered = [0; 2];
    for start in 0..=n {
        let mut query = Query::new(problem, start, 0);
        for reach in 0..8 {
            query.reach = reach;
            let number = pass(try_case(&library, Call::Within, random, &query));
            answered[0] += u64::from(number == 0);
        }
        for code in 0..amounts.pow(n as u32) {
            let digit = |v: u32| code / amounts.pow(v) % amounts;
            query.lists.mu = (0..n as u32).map(digit).collect();
            let number = pass(try_case(&library, Call::Nearest, random, &query));
            answered[1] += u64::from(number == 0);
        }
    }
    answered
}

/// All questions on every graph of up to four vertices with lengths from 0 to 2, the amounts being 0 to 2 too, on
/// four vertices 0 and 1; with fewer cases, on some of the graphs of four.
#[test]
fn all_small_queries() {
    let random = &mut Random::new(seed());
    let some = 4_096 / cases(4_096).min(4_096) as usize;
    let mut answered = [0; 2];
    for n in 1..5 {
        let (step, amounts) = if n < 4 { (1, 3) } else { (some, 2) };
        for problem in all_graphs(n).step_by(step) {
            let more = ask_all(random, &problem, amounts);
            answered.iter_mut().zip(more).for_each(|(sum, k)| *sum += k);
        }
    }
    // Connected are one graph of one vertex and one of two, of three vertices 3 with two edges and 1 with three, of
    // four 16, 15, 6 and 1 with three to six edges. Each edge has three lengths, and each vertex is a start.
    let starts = [
        1,
        3 * 2,
        (3 * 9 + 27) * 3,
        (16 * 27 + 15 * 81 + 6 * 243 + 729) * 4,
    ];
    let all = |questions: [u64; 4]| starts.iter().zip(questions).map(|(s, q)| s * q).sum::<u64>();
    let expected = [all([8; 4]), all([3, 9, 27, 16])];
    assert!(some > 1 || answered == expected, "{answered:?}, not {expected:?}");
}

/// Both calls from several threads at once.
#[test]
fn several_threads() {
    let (seed, count) = (seed(), cases(500));
    std::thread::scope(|scope| {
        for index in 0..4 {
            scope.spawn(move || {
                for call in CALLS {
                    pass(run(&library, call, seed + index, count, &any_query));
                }
            });
        }
    });
    println!("several threads, both queries: seed {seed}, 4 times {count} cases");
}
