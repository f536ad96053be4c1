//! How many cases a test runs, and from which seed: `MOVER_CASES` and `MOVER_SEED`.

use std::time::{SystemTime, UNIX_EPOCH};

/// The usual number of images of each kind.
const IMAGES: u64 = 20_000;

fn variable(name: &str) -> Option<u64> {
    let text = std::env::var(name).ok()?;
    Some(text.parse().unwrap_or_else(|_| panic!("{name} is a number")))
}

/// The number of images of each kind: `MOVER_CASES`, or 20,000.
pub fn images() -> u64 {
    variable("MOVER_CASES").unwrap_or(IMAGES)
}

/// How many cases to run where it is usually so many.
pub fn cases(usual: u64) -> u64 {
    (usual * images()).div_ceil(IMAGES)
}

/// The seed of this run: `MOVER_SEED`, or the time.
pub fn seed() -> u64 {
    let now = SystemTime::now().duration_since(UNIX_EPOCH);
    variable("MOVER_SEED").unwrap_or_else(|| now.expect("a clock").as_micros() as u64)
}
