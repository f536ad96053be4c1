//! A plain solver of the transport problem on a graph, written from the specification
//! alone and sharing nothing with the library under test.
//!
//! | module | content |
//! |---|---|
//! | [`problem`] | a graph, two measures, an optional spanning tree; the image format |
//! | [`checks`] | the refusal numbers, by the table of the specification |
//! | [`lists`] | the arguments of the calls over tables, and their refusals |
//! | [`writer`] | the image that is written of such lists, and an image written anew |
//! | [`queries`] | the vertices within reach of a start, and the nearest one with paint |
//! | [`weights`] | 32-bit floats and the grains that they stand for, from their bits |
//! | [`tree`] | evaluation of a given spanning tree, word for word as defined |
//! | [`page`] | the page of such a tree, line by line |
//! | [`flow`] | distances by Dijkstra, the least cost by successive shortest paths |
//! | [`exhaustive`] | all spanning trees, all plans and all paths of a small problem |
//! | [`record`] | the host record, and the test that an answer is right |
//! | [`report`] | the report on an image sequence, over the answers to its images |
//! | [`random`] | random problems, valid and faulty, and damaged images |
//! | [`random_lists`] | random arguments of the calls over tables |
//! | [`random_writer`] | random arguments of the writer, and images with anything between their sections |
//! | [`random_queries`] | random questions from a start, and ones with faults |
//! | [`random_pages`] | random arguments of the printer, and ones with faults |
//! | [`random_trees`] | spanning trees: best ones, nearly best ones, and those where descent stalls |
//! | [`sequences`] | image sequences, by hand and random, and directories with faults |
//! | [`runs`] | how many cases a test runs, and from which seed |
//!
//! Speed is no aim here; the point is another algorithm, short enough to be read.

pub mod checks;
pub mod exhaustive;
pub mod flow;
pub mod lists;
pub mod page;
pub mod problem;
pub mod queries;
pub mod random;
pub mod random_lists;
pub mod random_pages;
pub mod random_queries;
pub mod random_trees;
pub mod random_writer;
pub mod record;
pub mod report;
pub mod runs;
pub mod sequences;
pub mod tree;
pub mod weights;
pub mod writer;

pub use lists::Lists;
pub use problem::{Edge, Layout, Problem, Tree};
