//! Times `mover_report` on a reel of many images beside LEMON's network simplex and `mover_run`, each in a loop over the same patches.
//!
//! The weight mover reads the reel and checks every image. LEMON's edge lists and supplies are in memory before the clock starts: it
//! builds a graph of each patch and finds the flow on it.

use crate::{median, mover, timed, Class, CLASSES};
use reference::random::Random;
use reference::{Lists, Problem};
use std::hint::black_box;
use std::slice;
use weight_mover::calls::mover_report;
use weight_mover::record_size;

mod ffi {
    extern "C" {
        pub fn lemon_solve_lists(
            n: usize,
            m: usize,
            a: *const u32,
            b: *const u32,
            lengths: *const u32,
            supplies: *const i32,
        ) -> i64;
    }
}

/// What is told of the costs: their sum, the greatest of them, and the first image that has it.
#[derive(Clone, Copy, Debug, Default, PartialEq, Eq)]
struct Report {
    sum: u64,
    greatest: u64,
    first: usize,
}

impl Report {
    fn of(costs: impl Iterator<Item = u64>) -> Report {
        let mut report = Report::default();
        for (i, cost) in costs.enumerate() {
            report.sum += cost;
            if cost > report.greatest {
                (report.greatest, report.first) = (cost, i);
            }
        }
        report
    }
}

/// A problem as LEMON takes it: the edges as three lists, and what each vertex supplies.
struct Network {
    lists: Lists,
    supplies: Vec<i32>,
}

impl Network {
    fn of(problem: &Problem) -> Network {
        let supply = |x: usize| i32::try_from(problem.difference(x)).expect("a 32-bit number");
        Network {
            lists: Lists::of(problem),
            supplies: (0..problem.n).map(supply).collect(),
        }
    }

    fn least_cost(&self) -> u64 {
        let Lists { n, a, b, lengths, .. } = &self.lists;
        let (m, supplies) = (a.len(), self.supplies.as_ptr());
        // SAFETY: the lists are those of a connected graph, and the supplies are n long.
        let cost =
            unsafe { ffi::lemon_solve_lists(*n, m, a.as_ptr(), b.as_ptr(), lengths.as_ptr(), supplies) };
        u64::try_from(cost).expect("LEMON finds an optimum")
    }
}

/// The images back to back behind their places.
fn reel_of(images: &[Vec<u8>]) -> Vec<u8> {
    let count = u16::try_from(images.len()).expect("a 16-bit number");
    let mut reel = count.to_le_bytes().to_vec();
    let mut offset = 2 + 8 * images.len();
    for image in images {
        for number in [offset, image.len()] {
            reel.extend(u32::try_from(number).expect("a 32-bit number").to_le_bytes());
        }
        offset += image.len();
    }
    reel.extend(images.iter().flatten());
    reel
}

fn image_of(reel: &[u8], i: usize) -> &[u8] {
    let number = |at: usize| u32::from_le_bytes(reel[at..at + 4].try_into().expect("four bytes")) as usize;
    let at = 2 + 8 * i;
    &reel[number(at)..][..number(at + 4)]
}

/// The same problems as a reel and for LEMON.
struct Batch {
    reel: Vec<u8>,
    networks: Vec<Network>,
}

impl Batch {
    /// Problems of the given classes in turn.
    fn draw(classes: &[Class], count: u64, seed: u64) -> Batch {
        let random = &mut Random::new(seed);
        let (images, networks): (Vec<Vec<u8>>, Vec<Network>) = (0..count)
            .zip(classes.iter().cycle())
            .map(|(_, class)| class.draw(random))
            .map(|problem| (problem.image(), Network::of(&problem)))
            .unzip();
        Batch {
            reel: reel_of(&images),
            networks,
        }
    }

    /// One call on the whole reel.
    fn by_report(&self) -> Report {
        let mut tally = [0; 24];
        let (mut accepted, mut sum, mut greatest, mut first) = (0, 0, 0, 0);
        let number = mover_report(
            black_box(&self.reel),
            &mut tally,
            &mut accepted,
            &mut sum,
            &mut greatest,
            &mut first,
        );
        assert_eq!(number, 0, "the reel is accepted");
        let count = self.networks.len();
        let all = [accepted, tally[0]].map(|k| k as usize) == [count; 2];
        assert!(all && tally[1..] == [0; 23], "all images are accepted");
        Report { sum, greatest, first }
    }

    fn by_lemon(&self) -> Report {
        Report::of(black_box(&self.networks).iter().map(Network::least_cost))
    }

    /// Calls of `mover_run` on the reel's images, with one record.
    fn by_run(&self) -> Report {
        let reel = black_box(&self.reel);
        let mut record = vec![0; record_size(64)];
        let count = self.networks.len();
        Report::of((0..count).map(|i| mover(image_of(reel, i), &mut record)))
    }

    /// Microseconds for each image: by `mover_report`, by LEMON, by `mover_run`.
    fn round(&self) -> [f64; 3] {
        let results = [
            timed(|| self.by_report()),
            timed(|| self.by_lemon()),
            timed(|| self.by_run()),
        ];
        let lemon = results[1].1;
        results.map(|(time, report)| {
            assert_eq!(report, lemon, "the sum, the greatest cost and its place agree");
            time / self.networks.len() as f64
        })
    }
}

/// Each of the three is timed so often, in turn; the median counts.
const ROUNDS: usize = 5;

fn row(name: &str, batch: &Batch) -> String {
    let times: Vec<[f64; 3]> = (0..ROUNDS).map(|_| batch.round()).collect();
    let column = |k: usize| median(times.iter().map(|t| t[k]).collect());
    let ratio = |k: usize| median(times.iter().map(|t| t[0] / t[k]).collect());
    let cells: String = [column(0), column(1), column(2), ratio(1), ratio(2)]
        .iter()
        .map(|x| format!(" {x:.2} |"))
        .collect();
    format!("| {name} |{cells}")
}

/// Prints the table: a reel of each class, and one of all of them.
pub fn table(images: u64, seed: u64) {
    assert!((1..=65_535).contains(&images), "1 to 65,535 images");
    println!("A reel of {images} images of each class, and one of all classes in turn, seed {seed}: one call of mover_report, LEMON's");
    println!("NetworkSimplex in a loop with the building of its graphs, mover_run in a loop. Microseconds for each image, the");
    println!("median of {ROUNDS} rounds; a ratio is the median of the rounds' ratios. A ratio below 1: mover_report is the faster. The");
    println!("sum of the costs, the greatest and its place agree in every round.");
    println!();
    println!(
        "| patches | mover_report | LEMON | mover_run | mover_report / LEMON | mover_report / mover_run |"
    );
    println!("|---|---:|---:|---:|---:|---:|");
    let each = CLASSES.iter().map(|class| (class.name, slice::from_ref(class)));
    for (name, classes) in each.chain([("all classes in turn", &CLASSES[..])]) {
        println!("{}", row(name, &Batch::draw(classes, images, seed)));
    }
}
