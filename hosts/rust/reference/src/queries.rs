//! What brushes ask from a start vertex: what is within reach, and where the nearest paint is.

use crate::flow::distances_from;
use crate::lists::Lists;

/// The word of all vertices at distance at most the reach, bit v for vertex v; or the refusal.
pub fn within(lists: &Lists, start: usize, reach: u32) -> Result<u64, u32> {
    let problem = lists.accept_within(start)?;
    let distance = distances_from(&problem, start);
    let near = (0..problem.n).filter(|&v| distance[v] <= reach.into());
    Ok(near.map(|v| 1 << v).sum())
}

/// The nearest vertex with a positive amount in the painting `mu`, ties to the lowest number, or 64 if no amount is
/// positive; or the refusal.
pub fn nearest(lists: &Lists, start: usize) -> Result<u32, u32> {
    let problem = lists.accept_nearest(start)?;
    let distance = distances_from(&problem, start);
    let painted = (0..problem.n).filter(|&v| problem.mu[v] > 0);
    let first = painted.min_by_key(|&v| (distance[v], v));
    Ok(first.map_or(64, |v| v as u32))
}
