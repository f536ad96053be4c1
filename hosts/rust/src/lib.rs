//! Optimal transport on a weighted graph, by the proved library *weight mover*.
//!
//! A graph of up to 64 vertices has a length on each edge. Two measures of equal total lie on it, `mu` before
//! and `nu` after. The cheapest way to turn one into the other, along the edges, is a spanning tree with its
//! plan; [`Graph::solve`] finds it, and [`Graph::evaluate`] tells what a given tree costs.
//!
//! ```
//! use weight_mover::Graph;
//!
//! // A triangle whose long edge is longer than the way round.
//! let graph = Graph::new(3).edge(0, 1, 5).edge(0, 2, 1).edge(1, 2, 1);
//! let answer = graph.solve(&[3, 0, 0], &[0, 3, 0])?;
//! assert_eq!(answer.cost, 6);
//! assert_eq!(answer.amount(0, 1), 3);
//! assert_eq!(graph.distances()?.between(0, 1), 2);
//! # Ok::<(), weight_mover::Refusal>(())
//! ```
//!
//! What the library refuses comes back as a [`Refusal`]. No number is cut to fit: the library itself is
//! given each one and refuses those that are too large.
//!
//! ```
//! use weight_mover::{Graph, Refusal};
//!
//! assert_eq!(Graph::new(1).solve(&[3], &[4]), Err(Refusal::TotalsDiffer));
//! assert_eq!(Graph::new(2).edge(0, 1, 65_537).distances(), Err(Refusal::EdgeLength));
//! ```
//!
//! | exported call | here | into what is there |
//! |---|---|---|
//! | `mover_distances` | [`Graph::distances`] | [`Graph::distances_into`] |
//! | `mover_distances_of_records` | [`distances_of_records`] | [`distances_of_records_into`] |
//! | `mover_evaluate` | [`Graph::evaluate`] | [`Graph::evaluate_into`] |
//! | `mover_is_optimal` | [`Graph::is_optimal`] | |
//! | `mover_solve` | [`Graph::solve`] | [`Graph::solve_into`] |
//! | `mover_mark_ancestors` | | [`mark_ancestors`] |
//! | `mover_vertices_within` | [`Graph::vertices_within`] | |
//! | `mover_nearest_vertex` | [`Graph::nearest_vertex`] | |
//! | `mover_to_amounts` | [`to_amounts`] | [`to_amounts_into`] |
//! | `mover_to_weights` | [`to_weights`] | [`to_weights_into`] |
//! | `mover_read` | [`read`] | [`read_into`] |
//! | `mover_write_image` | [`Patch::image`] | |
//! | `mover_write_page` | [`Graph::page`], [`Patch::page`] | [`Graph::page_into`] |
//! | `mover_rewrite` | [`rewrite`] | [`rewrite_into`] |
//! | `mover_run` | [`run`] | [`run_into`] |
//! | `mover_report` | [`report`](report()), [`report_by_parts`] | |
//! | `mover_tree_new` | [`Tree::new`] | |
//! | `mover_tree_depth`, `_parent`, `_subtree` | [`Tree::depth`], [`parent`](Tree::parent), [`subtree`](Tree::subtree) | |
//!
//! [`calls`] has them under their own names, on slices. A [`Patch`] is a graph with its measures and perhaps
//! a tree: what an image holds, and a [`text`]. [`to_amounts`] makes a measure of weights as paint tools hold
//! them, 32-bit floats from 0 to 1. Brushes ask a graph which vertices are within a reach, and which one with
//! paint is nearest. [`Graph::page`] prints a tree as text, a line for each vertex. [`pack`] puts images together,
//! and [`report`](report()) says of such a sequence how many are accepted or refused, and what they cost. The
//! library keeps nothing between calls and may be used from several threads at once.

#![warn(missing_docs)]

mod answer;
pub mod calls;
mod graph;
mod lend;
mod patch;
mod refusal;
mod report;
pub mod text;
mod tree;
mod weights;

pub use answer::{run, run_into, Answer, Evaluation};
pub use calls::mover_run;
pub use graph::{distances_of_records, distances_of_records_into, Distances, Edge, Graph};
pub use patch::{read, read_into, rewrite, rewrite_into, Patch};
pub use refusal::Refusal;
pub use report::{pack, report, report_by_parts, PackError, Report};
pub use tree::{mark_ancestors, Tree};
pub use weights::{to_amounts, to_amounts_into, to_weights, to_weights_into};

/// The greatest number of vertices.
pub const MAX_VERTICES: usize = 64;
/// The greatest number of edges.
pub const MAX_EDGES: usize = 512;
/// The greatest length of an edge.
pub const MAX_LENGTH: u32 = 65_535;
/// The greatest total of a measure, 2 to the 24th.
pub const MAX_TOTAL: u64 = 16_777_216;

/// Bytes of a written image of `n` vertices and `m` edges: 36 + 4m + 8n, with a tree n + 1 more.
///
/// An image that is read may be longer, by gaps and a tail, up to 65,536 bytes.
pub const fn image_size(n: usize, m: usize, tree: bool) -> usize {
    36 + 4 * m + 8 * n + if tree { n + 1 } else { 0 }
}

/// Bytes of the page of a tree of `n` vertices: a line of 96 for each.
pub const fn page_size(n: usize) -> usize {
    96 * n
}

/// Bytes of the record for `n` vertices: 4n² + 5n + 13.
pub const fn record_size(n: usize) -> usize {
    4 * n * n + 5 * n + 13
}
