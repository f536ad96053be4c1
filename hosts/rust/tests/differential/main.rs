//! The proved library against the reference solver: every call, on sound, faulty and damaged arguments.
//!
//! | module | what it calls |
//! |---|---|
//! | `images` | `mover_run` |
//! | `tables` | distances by lists and by records, evaluating, judging, solving |
//! | `reader` | `mover_read` |
//! | `writer` | `mover_write_image` |
//! | `one_place` | the same on patches that differ in one place |
//! | `pages` | `mover_write_page` |
//! | `rewriter` | `mover_rewrite` |
//! | `report` | `mover_report` |
//! | `trees` | the tree by value |
//! | `ancestors` | `mover_mark_ancestors` |
//! | `queries` | `mover_vertices_within`, `mover_nearest_vertex` |
//! | `weights` | `mover_to_amounts`, `mover_to_weights` |
//!
//! Tests whose names begin with `wrong_` make calls wrong on purpose, and want the others to notice.
//!
//! `MOVER_CASES` sets the number of images of each kind, and all other numbers of cases by it; `MOVER_SEED`
//! repeats a run. Under a memory checker: `hosts/rust/valgrind`. One test, of every float there is, runs only
//! if it is asked for: `cargo test --release --test differential -- --ignored`.

mod ancestors;
mod images;
mod jobs;
mod lent;
mod one_place;
mod pages;
mod queries;
mod reader;
mod report;
mod rewriter;
mod spoils;
mod tables;
mod trees;
mod weights;
mod writer;
mod wrong_pages;
mod wrong_queries;
mod wrong_report;
mod wrong_rewriter;
mod wrong_tables;
mod wrong_weights;
mod wrong_writer;

fn pass<T>(result: Result<T, String>) -> T {
    result.unwrap_or_else(|complaint| panic!("{complaint}"))
}

fn ensure(condition: bool, complaint: impl FnOnce() -> String) -> Result<(), String> {
    if condition {
        Ok(())
    } else {
        Err(complaint())
    }
}

/// The start of a complaint, for one line.
fn brief(complaint: &str) -> String {
    complaint.lines().next().unwrap_or("").chars().take(100).collect()
}
