//! The report on an image sequence: its directory, and the answers to its images one by one.

use crate::checks::{accept, number, refuse_if};
use crate::flow::least_cost;
use crate::tree::tree_cost;

/// How many numbers a tally has a place for.
pub const NUMBERS: usize = 24;

/// What is told of an image sequence.
#[derive(Clone, Debug, PartialEq, Eq)]
pub struct Report {
    pub tally: [u32; NUMBERS],
    pub accepted: u32,
    pub sum: u64,
    pub greatest: u64,
    pub first: usize,
}

/// An image's cost, or its number.
pub type Answer = Result<u64, u32>;

/// The answer to an image, with room enough for its record: the cost of its tree, or the least cost.
pub fn answer(image: &[u8]) -> Answer {
    let problem = accept(image, usize::MAX)?;
    Ok(match &problem.tree {
        Some(tree) => tree_cost(&problem, tree),
        None => least_cost(&problem),
    })
}

/// The images of a reel, or its refusal.
pub fn images(reel: &[u8]) -> Result<Vec<&[u8]>, u32> {
    refuse_if(14, reel.len() < 2)?;
    let count = number(&reel[..2]) as usize;
    let directory = 2 + 8 * count;
    refuse_if(14, reel.len() < directory)?;
    let numbers: Vec<usize> = reel[2..directory].chunks(4).map(|b| number(b) as usize).collect();
    let pairs = numbers.chunks(2);
    let ranges: Vec<_> = pairs.map(|pair| pair[0]..pair[0] + pair[1]).collect();
    refuse_if(14, ranges.iter().any(|range| range.start < directory))?;
    refuse_if(14, ranges.windows(2).any(|two| two[1].start < two[0].end))?;
    refuse_if(14, ranges.iter().any(|range| range.end > reel.len()))?;
    Ok(ranges.into_iter().map(|range| &reel[range]).collect())
}

/// The report on images with these answers.
pub fn summary(answers: &[Answer]) -> Report {
    let costs = || answers.iter().flatten().copied();
    let greatest = costs().max().unwrap_or(0);
    let first = answers.iter().position(|&answer| answer == Ok(greatest));
    let with_number = |k: usize| {
        let such = answers.iter().filter(|a| a.err().unwrap_or(0) as usize == k);
        such.count() as u32
    };
    let sum: u128 = costs().map(u128::from).sum();
    Report {
        tally: std::array::from_fn(with_number),
        accepted: costs().count() as u32,
        sum: sum.try_into().expect("64 bits are enough"),
        greatest,
        first: first.unwrap_or(answers.len()),
    }
}

/// The report on a reel for a tally of so many places, or the refusal.
pub fn report(reel: &[u8], places: usize) -> Result<Report, u32> {
    report_by(&mut answer, reel, places)
}

/// The same with answers that are perhaps known already.
pub fn report_by(answer: &mut dyn FnMut(&[u8]) -> Answer, reel: &[u8], places: usize) -> Result<Report, u32> {
    let images = images(reel)?;
    refuse_if(2, places < NUMBERS)?;
    let answers: Vec<Answer> = images.into_iter().map(answer).collect();
    Ok(summary(&answers))
}
