//! Times the weight mover, LEMON's network simplex and the plain reference solver on the same images.
//!
//! Usage: `bench [queries | reports] [COUNT] [SEED]`; prints a markdown table, with `queries` or `reports` that of [`queries`] or
//! [`reports`].
//!
//! Each solver starts from the image and builds its graph from it. The weight mover also checks the image
//! and fills the whole record: tree, potential and the n × n plan. LEMON finds the flow on the arcs.

mod pivots;
mod queries;
mod reports;

use reference::checks::accept;
use reference::flow::least_cost;
use reference::random::{connected, grid, measures, seam, Lengths, Measures, Random};
use reference::{Edge, Problem};
use std::hint::black_box;
use std::time::Instant;
use weight_mover::{mover_run, record_size};

extern "C" {
    fn lemon_solve(image: *const u8) -> i64;
}

fn lemon(image: &[u8]) -> u64 {
    // SAFETY: the images here are sound, so all that is read of them is there.
    let cost = unsafe { lemon_solve(image.as_ptr()) };
    u64::try_from(cost).expect("LEMON finds an optimum")
}

fn mover(image: &[u8], record: &mut [u8]) -> u64 {
    assert_eq!(mover_run(image, record), 0, "the image is accepted");
    u64::from_le_bytes(record[..8].try_into().expect("eight bytes"))
}

fn plain(image: &[u8]) -> u64 {
    least_cost(&accept(image, usize::MAX).expect("the image is accepted"))
}

struct Class {
    name: &'static str,
    vertices: usize,
    edges: fn(&mut Random) -> Vec<Edge>,
    measures: Measures,
}

impl Class {
    fn draw(&self, random: &mut Random) -> Problem {
        let n = self.vertices;
        let edges = (self.edges)(random);
        let (mu, nu) = measures(random, n, self.measures);
        Problem {
            n,
            edges,
            mu,
            nu,
            tree: None,
        }
    }
}

const CLASSES: [Class; 7] = [
    Class {
        name: "dense 64/512, random lengths",
        vertices: 64,
        edges: |random| connected(random, 64, 512, Lengths::Any),
        measures: Measures::Large,
    },
    Class {
        name: "dense 64/512, unit lengths",
        vertices: 64,
        edges: |random| connected(random, 64, 512, Lengths::Unit),
        measures: Measures::Large,
    },
    Class {
        name: "sparse 64/126, random lengths",
        vertices: 64,
        edges: |random| connected(random, 64, 126, Lengths::Any),
        measures: Measures::Large,
    },
    Class {
        name: "grid 8 × 8, random lengths",
        vertices: 64,
        edges: |random| grid(random, 64, 8, Lengths::Any),
        measures: Measures::Large,
    },
    Class {
        name: "two grids 8 × 4 and a seam",
        vertices: 64,
        edges: |random| seam(random, 64, 8, Lengths::Any),
        measures: Measures::Large,
    },
    Class {
        name: "small 8/16, random lengths",
        vertices: 8,
        edges: |random| connected(random, 8, 16, Lengths::Any),
        measures: Measures::Large,
    },
    Class {
        name: "dense 64/512, equal measures",
        vertices: 64,
        edges: |random| connected(random, 64, 512, Lengths::Any),
        measures: Measures::Equal,
    },
];

/// Calls of a solver on each patch; the median of their times counts.
const ROUNDS: usize = 7;

fn median(mut list: Vec<f64>) -> f64 {
    list.sort_by(f64::total_cmp);
    list[list.len() / 2]
}

/// The pivots of the search, counted by its transcription, which must end with the record's tree and potential.
fn pivots(problem: &Problem, record: &[u8]) -> f64 {
    let n = problem.n;
    let ended = pivots::search(problem);
    let (parents, rest) = record[13..].split_at(n);
    let potential = rest[..4 * n]
        .chunks(4)
        .map(|b| i32::from_le_bytes([b[0], b[1], b[2], b[3]]));
    assert!(
        parents.iter().map(|&p| usize::from(p)).eq(ended.parents),
        "the trees agree"
    );
    let origin = ended.potential[0];
    assert!(
        potential
            .map(i64::from)
            .eq(ended.potential.iter().map(|u| u - origin)),
        "the potentials agree"
    );
    ended.pivots as f64
}

/// Microseconds of one call, and its result.
fn timed<T>(call: impl FnOnce() -> T) -> (f64, T) {
    let start = Instant::now();
    let result = black_box(call());
    (start.elapsed().as_secs_f64() * 1e6, result)
}

/// The three solvers' times on one image, in microseconds.
fn measure(image: &[u8], record: &mut [u8]) -> [f64; 3] {
    let mut times = [const { Vec::new() }; 3];
    for _ in 0..ROUNDS {
        let results = [
            timed(|| mover(black_box(image), record)),
            timed(|| lemon(black_box(image))),
            timed(|| plain(black_box(image))),
        ];
        for (list, (time, cost)) in times.iter_mut().zip(results) {
            assert_eq!(cost, results[0].1, "the solvers agree on the cost");
            list.push(time);
        }
    }
    times.map(median)
}

/// Prints the table of the solvers.
fn table(patches: u64, seed: u64) {
    println!("{patches} patches of each class, seed {seed}. Of each solver the median of {ROUNDS} calls on each patch, then");
    println!("the median over the patches, in microseconds. A ratio below 1: mover_run is the faster. All costs agree.");
    println!();
    println!("| patches | pivots | most | mover_run | LEMON | plain Rust | mover_run / LEMON | mover_run / plain |");
    println!("|---|---:|---:|---:|---:|---:|---:|---:|");
    for class in &CLASSES {
        let random = &mut Random::new(seed);
        let results: Vec<([f64; 3], f64)> = (0..patches)
            .map(|_| {
                let problem = class.draw(random);
                let mut record = vec![0; record_size(problem.n)];
                let times = measure(&problem.image(), &mut record);
                (times, pivots(&problem, &record))
            })
            .collect();
        let column = |k: usize| median(results.iter().map(|(t, _)| t[k]).collect());
        let ratio = |k: usize| median(results.iter().map(|(t, _)| t[0] / t[k]).collect());
        println!(
            "| {} | {:.0} | {:.0} | {:.1} | {:.1} | {:.1} | {:.2} | {:.2} |",
            class.name,
            median(results.iter().map(|r| r.1).collect()),
            results.iter().map(|r| r.1).fold(0.0, f64::max),
            column(0),
            column(1),
            column(2),
            ratio(1),
            ratio(2)
        );
    }
}

fn main() {
    let mut arguments = std::env::args().skip(1).peekable();
    let kind = arguments.next_if(|word| word == "queries" || word == "reports");
    let mut numbers = arguments.map(|a| a.parse::<u64>().expect("a number"));
    let (count, seed) = (numbers.next(), numbers.next().unwrap_or(1));
    match kind.as_deref() {
        Some("queries") => queries::table(count.unwrap_or(200), seed),
        Some(_) => reports::table(count.unwrap_or(10_000), seed),
        None => table(count.unwrap_or(200), seed),
    }
}
