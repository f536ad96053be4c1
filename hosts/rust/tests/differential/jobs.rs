//! The calls over tables with all that they are lent, and the judge of what they did.

use crate::ensure;
use crate::lent::{Draw, Lent};
use reference::flow::{distances, least_cost};
use reference::random::Random;
use reference::record::{judge_best, Record};
use reference::tree::{evaluate, tree_cost};
use reference::{Lists, Problem, Tree};
use std::fmt::{self, Debug};
use weight_mover::calls::{
    mover_distances, mover_distances_of_records, mover_evaluate, mover_is_optimal, mover_solve,
};
use weight_mover::Edge;

#[derive(Clone, Copy, Debug, PartialEq, Eq)]
pub enum Call {
    Distances,
    Records,
    Evaluate,
    Judge,
    Solve,
}

pub const CALLS: [Call; 5] = [
    Call::Distances,
    Call::Records,
    Call::Evaluate,
    Call::Judge,
    Call::Solve,
];

impl Call {
    /// The last check that it runs.
    pub fn last_check(self) -> usize {
        match self {
            Call::Distances | Call::Records => 5,
            Call::Solve => 7,
            Call::Evaluate | Call::Judge => 10,
        }
    }
}

/// The lengths of the answer tables.
#[derive(Clone, Copy, Debug)]
pub struct Room {
    pub out: usize,
    pub imbalance: usize,
    pub potential: usize,
    pub plan: usize,
    pub tree: usize,
}

impl Room {
    /// As much as n vertices need, and spare places.
    pub fn with_spare(n: usize, mut spare: impl FnMut() -> usize) -> Room {
        let n = n.min(70);
        Room {
            out: n * n + spare(),
            imbalance: n + spare(),
            potential: n + spare(),
            plan: n * n + spare(),
            tree: n + spare(),
        }
    }

    pub fn exact(n: usize) -> Room {
        Room::with_spare(n, || 0)
    }

    pub fn random(random: &mut Random, n: usize) -> Room {
        Room::with_spare(n, || random.pick(&[0, 0, 1, 50]))
    }

    pub fn all(&mut self) -> [&mut usize; 5] {
        let Room {
            out,
            imbalance,
            potential,
            plan,
            tree,
        } = self;
        [out, imbalance, potential, plan, tree]
    }
}

/// All that a call is lent: lists to read, tables to fill, places for single results.
pub struct Job {
    pub n: usize,
    pub root: usize,
    pub a: Lent<u32>,
    pub b: Lent<u32>,
    pub lengths: Lent<u32>,
    pub edges: Lent<Edge>,
    pub mu: Lent<u64>,
    pub nu: Lent<u64>,
    pub parents: Lent<u32>,
    pub out: Lent<u32>,
    pub imbalance: Lent<i32>,
    pub potential: Lent<i32>,
    pub plan: Lent<u32>,
    /// The parents that the best call fills.
    pub tree: Lent<u32>,
    pub cost: Lent<u64>,
    pub moves: Lent<u32>,
    pub optimal: Lent<u32>,
}

/// The records of as many edges as all three lists have.
fn records(lists: &Lists) -> Vec<Edge> {
    let ends = lists.a.iter().zip(&lists.b);
    ends.zip(&lists.lengths)
        .map(|((&a, &b), &length)| Edge { a, b, length })
        .collect()
}

impl Job {
    pub fn new(random: &mut Random, lists: &Lists, room: Room) -> Job {
        let exact = random.chance(2);
        Job {
            n: lists.n,
            root: lists.root,
            a: Lent::new(random, &lists.a, exact),
            b: Lent::new(random, &lists.b, exact),
            lengths: Lent::new(random, &lists.lengths, exact),
            edges: Lent::new(random, &records(lists), exact),
            mu: Lent::new(random, &lists.mu, exact),
            nu: Lent::new(random, &lists.nu, exact),
            parents: Lent::new(random, &lists.parents, exact),
            out: Lent::filled(random, room.out, exact),
            imbalance: Lent::filled(random, room.imbalance, exact),
            potential: Lent::filled(random, room.potential, exact),
            plan: Lent::filled(random, room.plan, exact),
            tree: Lent::filled(random, room.tree, exact),
            cost: Lent::single(random),
            moves: Lent::single(random),
            optimal: Lent::single(random),
        }
    }

    /// The call of the library.
    pub fn make(&mut self, call: Call) -> u32 {
        self.make_with(call, false)
    }

    /// The same, with `mu` for both measures if it is asked.
    pub fn make_with(&mut self, call: Call, one_measure: bool) -> u32 {
        let (a, b, lengths) = (self.a.content(), self.b.content(), self.lengths.content());
        let (mu, parents) = (self.mu.content(), self.parents.content());
        let nu = if one_measure { mu } else { self.nu.content() };
        match call {
            Call::Distances => mover_distances(self.n, a, b, lengths, self.out.content_mut()),
            Call::Records => mover_distances_of_records(self.n, self.edges.content(), self.out.content_mut()),
            Call::Evaluate => mover_evaluate(
                self.n,
                a,
                b,
                lengths,
                mu,
                nu,
                self.root,
                parents,
                self.imbalance.content_mut(),
                self.potential.content_mut(),
                self.plan.content_mut(),
                self.cost.one(),
                self.moves.one(),
            ),
            Call::Judge => mover_is_optimal(
                self.n,
                a,
                b,
                lengths,
                mu,
                nu,
                self.root,
                parents,
                self.optimal.one(),
            ),
            Call::Solve => mover_solve(
                self.n,
                a,
                b,
                lengths,
                mu,
                nu,
                self.tree.content_mut(),
                self.potential.content_mut(),
                self.plan.content_mut(),
                self.cost.one(),
                self.moves.one(),
            ),
        }
    }

    /// The tables and single results of a call, each with its name.
    pub fn results(&mut self, call: Call) -> Vec<(&'static str, &mut dyn Watched)> {
        let out = ("out", &mut self.out as &mut dyn Watched);
        let imbalance = ("imbalance", &mut self.imbalance as &mut dyn Watched);
        let potential = ("potential", &mut self.potential as &mut dyn Watched);
        let plan = ("plan", &mut self.plan as &mut dyn Watched);
        let tree = ("tree", &mut self.tree as &mut dyn Watched);
        let cost = ("cost", &mut self.cost as &mut dyn Watched);
        let moves = ("moves", &mut self.moves as &mut dyn Watched);
        let optimal = ("optimal", &mut self.optimal as &mut dyn Watched);
        match call {
            Call::Distances | Call::Records => vec![out],
            Call::Evaluate => vec![imbalance, potential, plan, cost, moves],
            Call::Judge => vec![optimal],
            Call::Solve => vec![tree, potential, plan, cost, moves],
        }
    }

    /// The lists that a call reads.
    pub fn arguments(&mut self) -> [(&'static str, &mut dyn Watched); 7] {
        [
            ("a", &mut self.a),
            ("b", &mut self.b),
            ("lengths", &mut self.lengths),
            ("edges", &mut self.edges),
            ("mu", &mut self.mu),
            ("nu", &mut self.nu),
            ("parents", &mut self.parents),
        ]
    }

    /// What the best call filled, as a record.
    pub fn record(&self, n: usize) -> Record {
        Record {
            cost: self.cost.content()[0],
            moves: self.moves.content()[0],
            tree: Tree {
                root: 0,
                parents: wide(&self.tree.content()[..n], |p| p as usize),
            },
            potential: wide(&self.potential.content()[..n], i64::from),
            plan: wide(&self.plan.content()[..n * n], u64::from),
        }
    }

    /// Puts a record back in place of what was filled.
    pub fn put(&mut self, record: &Record, with_tree: bool) {
        *self.cost.one() = record.cost;
        *self.moves.one() = record.moves;
        replace(&mut self.potential, &record.potential, |u| u as i32);
        replace(&mut self.plan, &record.plan, |x| x as u32);
        if with_tree {
            replace(&mut self.tree, &record.tree.parents, |p| p as u32);
        }
    }
}

fn wide<T: Copy, U>(list: &[T], widen: impl Fn(T) -> U) -> Vec<U> {
    list.iter().map(|&x| widen(x)).collect()
}

pub fn replace<T: Draw, U: Copy>(table: &mut Lent<T>, list: &[U], narrow: impl Fn(U) -> T) {
    for (place, &value) in table.content_mut().iter_mut().zip(list) {
        *place = narrow(value);
    }
}

/// A table of any type, to be watched.
pub trait Watched {
    fn guards_are_whole(&self) -> bool;
    fn is_as_lent(&self) -> bool;
    fn is_zero(&self) -> bool;
    /// Changes one place; says whether there is such a one.
    fn change(&mut self, at: usize) -> bool;
    fn break_guard(&mut self, random: &mut Random, after: bool);
}

impl<T: Draw + Debug + Default> Watched for Lent<T> {
    fn guards_are_whole(&self) -> bool {
        Lent::guards_are_whole(self)
    }

    fn is_as_lent(&self) -> bool {
        Lent::is_as_lent(self)
    }

    fn is_zero(&self) -> bool {
        self.content().iter().all(|x| *x == T::default())
    }

    fn change(&mut self, at: usize) -> bool {
        let random = &mut Random::new(at as u64);
        let place = self.content_mut().get_mut(at);
        place.map(|place| change(random, place)).is_some()
    }

    fn break_guard(&mut self, random: &mut Random, after: bool) {
        Lent::break_guard(self, random, after);
    }
}

fn change<T: Draw>(random: &mut Random, place: &mut T) {
    let old = *place;
    while *place == old {
        *place = T::draw(random);
    }
}

/// What a right call did.
#[derive(Clone, Copy, Debug, PartialEq, Eq)]
pub enum Outcome {
    Refused(u32),
    Filled,
    Judged(bool),
}

/// What the call accepts, or its refusal number.
fn accept(call: Call, lists: &Lists, room: Room) -> Result<Problem, u32> {
    match call {
        Call::Distances => lists.accept_distances(room.out),
        Call::Records => {
            let m = records(lists).len();
            let mut lists = lists.clone();
            for list in [&mut lists.a, &mut lists.b, &mut lists.lengths] {
                list.truncate(m);
            }
            lists.accept_distances(room.out)
        }
        Call::Evaluate => lists.accept_evaluate(room.imbalance, room.potential, room.plan),
        Call::Judge => lists.accept_judge(),
        Call::Solve => lists.accept_solve(room.tree, room.potential, room.plan),
    }
}

/// Judges all that a call did.
pub fn judge(call: Call, lists: &Lists, room: Room, job: &mut Job, number: u32) -> Result<Outcome, String> {
    for (name, list) in job.arguments() {
        ensure(list.is_as_lent(), || format!("{name} was changed"))?;
    }
    for (name, table) in job.results(call) {
        ensure(table.guards_are_whole(), || {
            format!("places round {name} were changed")
        })?;
    }
    match accept(call, lists, room) {
        Ok(problem) => {
            ensure(number == 0, || format!("accepted, but got {number}"))?;
            judge_answer(call, &problem, job)
        }
        Err(expected) => {
            ensure(number == expected, || {
                format!("refused {expected}, but got {number}")
            })?;
            for (name, table) in job.results(call) {
                let single = ["cost", "moves", "optimal"].contains(&name);
                let right = if single {
                    table.is_zero()
                } else {
                    table.is_as_lent()
                };
                ensure(right, || format!("a refusal changed {name}"))?;
            }
            Ok(Outcome::Refused(number))
        }
    }
}

fn judge_answer(call: Call, problem: &Problem, job: &Job) -> Result<Outcome, String> {
    let n = problem.n;
    let tree = problem.tree.as_ref().expect("lists have a tree");
    match call {
        Call::Distances | Call::Records => holds("out", &job.out, &distances(problem))?,
        Call::Evaluate => {
            let expected = evaluate(problem, tree);
            holds("cost", &job.cost, &[expected.cost])?;
            holds("moves", &job.moves, &[expected.moves])?;
            holds("imbalance", &job.imbalance, &expected.imbalance)?;
            holds("potential", &job.potential, &expected.potential)?;
            holds("plan", &job.plan, &expected.plan)?;
        }
        Call::Judge => {
            let best = tree_cost(problem, tree) == least_cost(problem);
            holds("optimal", &job.optimal, &[u32::from(best)])?;
            return Ok(Outcome::Judged(best));
        }
        Call::Solve => {
            judge_best(problem, &job.record(n))?;
            ensure(job.tree.rest_is_as_lent(n), || past("tree"))?;
            ensure(job.potential.rest_is_as_lent(n), || past("potential"))?;
            ensure(job.plan.rest_is_as_lent(n * n), || past("plan"))?;
        }
    }
    Ok(Outcome::Filled)
}

fn past(name: &str) -> String {
    format!("places past the answer in {name} were changed")
}

/// Tests that a table begins with these numbers, and that its rest is as it was lent.
fn holds<T, U>(name: &str, table: &Lent<T>, expected: &[U]) -> Result<(), String>
where
    T: Draw + Into<i128> + Debug,
    U: Copy + Into<i128> + Debug,
{
    let got = &table.content()[..expected.len()];
    let same = got.iter().zip(expected).all(|(&x, &y)| x.into() == y.into());
    ensure(same, || format!("{name}: expected {expected:?}, but got {got:?}"))?;
    ensure(table.rest_is_as_lent(expected.len()), || past(name))
}

/// The call under test, or one made wrong on purpose.
pub type Make<'a> = &'a dyn Fn(Call, &mut Job) -> u32;

pub fn library(call: Call, job: &mut Job) -> u32 {
    job.make(call)
}

pub fn try_case(
    make: Make,
    call: Call,
    random: &mut Random,
    lists: &Lists,
    room: Room,
) -> Result<Outcome, String> {
    let mut job = Job::new(random, lists, room);
    let number = make(call, &mut job);
    let judged = judge(call, lists, room, &mut job, number);
    judged.map_err(|complaint| format!("{call:?}: {complaint}\n{lists:?}, {room:?}"))
}

/// What the calls of a run did.
#[derive(Default)]
pub struct Tally {
    pub filled: u64,
    pub optimal: u64,
    pub not_optimal: u64,
    pub refused: [u64; 14],
}

impl Tally {
    fn add(&mut self, outcome: Outcome) {
        match outcome {
            Outcome::Filled => self.filled += 1,
            Outcome::Judged(true) => self.optimal += 1,
            Outcome::Judged(false) => self.not_optimal += 1,
            Outcome::Refused(number) => self.refused[number as usize] += 1,
        }
    }

    pub fn accepted(&self) -> u64 {
        self.filled + self.optimal + self.not_optimal
    }

    /// Whether just these numbers came up.
    pub fn refused_by(&self, numbers: &[usize]) -> bool {
        (1..14).all(|k| (self.refused[k] > 0) == numbers.contains(&k))
    }
}

impl fmt::Display for Tally {
    fn fmt(&self, f: &mut fmt::Formatter) -> fmt::Result {
        match self.optimal + self.not_optimal {
            0 => write!(f, "answered {}", self.filled)?,
            _ => write!(f, "optimal {}, not {}", self.optimal, self.not_optimal)?,
        }
        for number in (1..14).filter(|&k| self.refused[k] > 0) {
            write!(f, ", refused {number}: {}", self.refused[number])?;
        }
        Ok(())
    }
}

pub type DrawCase<'a> = &'a dyn Fn(u64, &mut Random) -> (Lists, Room);

/// Runs many cases. On the first wrong answer the complaint has all that is needed to see it again.
pub fn run(make: Make, call: Call, seed: u64, count: u64, draw: DrawCase) -> Result<Tally, String> {
    let mut tally = Tally::default();
    for index in 0..count {
        let random = &mut Random::for_case(seed, index);
        let (lists, room) = draw(index, random);
        let outcome = try_case(make, call, random, &lists, room);
        tally.add(outcome.map_err(|c| format!("{c}\nseed {seed}, case {index}"))?);
    }
    Ok(tally)
}
