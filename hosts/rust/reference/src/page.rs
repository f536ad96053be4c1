//! The page of a tree: a line for each vertex, in preorder.

use crate::lists::Lists;
use crate::problem::{Problem, Tree};
use crate::tree::evaluate;

/// Bytes of a line.
pub const LINE: usize = 96;

/// The page that is written into a buffer of so many bytes, or the refusal.
pub fn page(lists: &Lists, buffer: usize) -> Result<String, u32> {
    let problem = lists.accept_page(buffer)?;
    let tree = problem.tree.as_ref().expect("a tree");
    Ok(print(&problem, tree))
}

/// The page of an accepted tree.
pub fn print(problem: &Problem, tree: &Tree) -> String {
    let evaluation = evaluate(problem, tree);
    let line = |(vertex, depth)| {
        let (imbalance, potential) = (evaluation.imbalance[vertex], evaluation.potential[vertex]);
        line(vertex, depth, imbalance, potential)
    };
    preorder(tree).into_iter().map(line).collect()
}

pub fn line(vertex: usize, depth: usize, imbalance: i64, potential: i64) -> String {
    let name = format!("{:depth$}{vertex:02}", "");
    format!("{name:68}{imbalance:>11}{potential:>11}{:5}\n", "")
}

/// The vertices with their depths, children by rising number.
pub fn preorder(tree: &Tree) -> Vec<(usize, usize)> {
    let mut order = Vec::new();
    let mut stack = vec![(tree.root, 0)];
    while let Some((vertex, depth)) = stack.pop() {
        order.push((vertex, depth));
        // The lowest child is put in last, and comes out first.
        let others = (0..tree.parents.len()).rev().filter(|&child| child != tree.root);
        let children = others.filter(|&child| tree.parents[child] == vertex);
        stack.extend(children.map(|child| (child, depth + 1)));
    }
    order
}
