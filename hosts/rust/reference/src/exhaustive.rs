//! Everything there is, for small problems: the definitions without an algorithm.

use crate::problem::{Problem, Tree};
use crate::tree::evaluate;

/// Every spanning tree of the graph, hung on `root`.
pub fn spanning_trees(problem: &Problem, root: usize) -> Vec<Tree> {
    let m = problem.edges.len();
    assert!(m <= 20, "too many sets of edges to try");
    (0u32..1 << m)
        .filter(|set| set.count_ones() as usize == problem.n - 1)
        .filter_map(|set| {
            let chosen = (0..m).filter(|k| set >> k & 1 == 1);
            let pairs: Vec<_> = chosen.map(|k| (problem.edges[k].a, problem.edges[k].b)).collect();
            hang(problem.n, &pairs, root)
        })
        .collect()
}

/// The rooted tree that n − 1 edges form, if they reach every vertex.
pub fn hang(n: usize, pairs: &[(usize, usize)], root: usize) -> Option<Tree> {
    let mut parents = vec![usize::MAX; n];
    parents[root] = root;
    for _ in 0..n {
        for &(a, b) in pairs {
            for (x, y) in [(a, b), (b, a)] {
                if parents[x] != usize::MAX && parents[y] == usize::MAX {
                    parents[y] = x;
                }
            }
        }
    }
    let complete = parents.iter().all(|&p| p < n);
    complete.then_some(Tree { root, parents })
}

/// The least tree cost over all spanning trees.
pub fn least_tree_cost(problem: &Problem) -> u64 {
    let trees = spanning_trees(problem, 0);
    let costs = trees.iter().map(|tree| evaluate(problem, tree).cost);
    costs.min().expect("a connected graph")
}

/// The least cost of a plan, by trying every table with the right row and column sums.
pub fn least_plan_cost(problem: &Problem, distances: &[u64]) -> u64 {
    fn fill(n: usize, at: usize, rows: &mut [u64], columns: &mut [u64], d: &[u64]) -> Option<u64> {
        if at == n * n {
            let done = rows.iter().chain(columns.iter()).all(|&left| left == 0);
            return done.then_some(0);
        }
        let (i, j) = (at / n, at % n);
        let mut least = None;
        for amount in 0..=rows[i].min(columns[j]) {
            rows[i] -= amount;
            columns[j] -= amount;
            if let Some(rest) = fill(n, at + 1, rows, columns, d) {
                let cost = amount * d[at] + rest;
                least = Some(least.map_or(cost, |l: u64| l.min(cost)));
            }
            rows[i] += amount;
            columns[j] += amount;
        }
        least
    }
    let (mut rows, mut columns) = (problem.mu.clone(), problem.nu.clone());
    fill(problem.n, 0, &mut rows, &mut columns, distances).expect("totals are equal")
}

/// The least length over all paths from a vertex to each, by trying every path that meets no vertex twice; none
/// where there is no path.
pub fn least_paths(problem: &Problem, from: usize) -> Vec<Option<u64>> {
    fn go_on(problem: &Problem, at: usize, length: u64, met: &mut [bool], least: &mut [Option<u64>]) {
        least[at] = Some(least[at].map_or(length, |l| l.min(length)));
        met[at] = true;
        for e in problem.edges.iter().filter(|e| e.a == at || e.b == at) {
            let next = e.a + e.b - at;
            if !met[next] {
                go_on(problem, next, length + e.length, met, least);
            }
        }
        met[at] = false;
    }
    let (mut met, mut least) = (vec![false; problem.n], vec![None; problem.n]);
    go_on(problem, from, 0, &mut met, &mut least);
    least
}
