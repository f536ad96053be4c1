//! Evaluation of a spanning tree (the specification's weighing), as it is defined.

use crate::checks::{check_chains, check_parents, refuse_if};
use crate::problem::{Problem, Tree};

/// What evaluating a tree gives.
#[derive(Clone, Debug, PartialEq, Eq)]
pub struct Evaluation {
    pub cost: u64,
    pub moves: u32,
    pub imbalance: Vec<i64>,
    pub potential: Vec<i64>,
    /// n × n amounts, row from, column to.
    pub plan: Vec<u64>,
}

impl Tree {
    /// y is below x if x is y or is met going from y up to the root.
    pub fn is_below(&self, y: usize, x: usize) -> bool {
        y == x || (y != self.root && self.is_below(self.parents[y], x))
    }

    /// The number of edges up to the root.
    pub fn depth(&self, x: usize) -> usize {
        if x == self.root {
            0
        } else {
            1 + self.depth(self.parents[x])
        }
    }
}

/// What a tree by value tells of vertex v: depth, parent, and the word of the vertices below.
///
/// Any numbers may be given; of the parents only the first n count.
pub fn told(n: usize, root: usize, parents: &[u32], v: usize) -> (u32, u32, u64) {
    let unknown = (0, 64, 0);
    if n > 64 || v >= n {
        return unknown;
    }
    let parents = parents[..n].iter().map(|&p| p as usize).collect();
    let tree = Tree { root, parents };
    if check_parents(n, &tree).is_err() || check_chains(n, &tree).is_err() {
        return unknown;
    }
    let below = (0..n).filter(|&y| tree.is_below(y, v));
    let word = below.map(|y| 1 << y).sum();
    (tree.depth(v) as u32, tree.parents[v] as u32, word)
}

/// The words after a climb from y, which sets its bit in the word of each x that y is below; or the refusal.
///
/// Any numbers and lists may be given.
pub fn marked(n: usize, root: usize, parents: &[u32], y: usize, words: &[u64]) -> Result<Vec<u64>, u32> {
    refuse_if(1, n == 0 || n > 64)?;
    refuse_if(2, parents.len() != n || words.len() < n)?;
    let parents = parents.iter().map(|&p| p as usize).collect();
    let tree = Tree { root, parents };
    check_parents(n, &tree)?;
    check_chains(n, &tree)?;
    let mut words = words.to_vec();
    for x in (0..n).filter(|&x| y < n && tree.is_below(y, x)) {
        words[x] |= 1 << y;
    }
    Ok(words)
}

/// For each vertex those below it.
fn below(n: usize, tree: &Tree) -> Vec<Vec<usize>> {
    (0..n)
        .map(|x| (0..n).filter(|&y| tree.is_below(y, x)).collect())
        .collect()
}

fn imbalance(problem: &Problem, below: &[Vec<usize>]) -> Vec<i64> {
    let sum = |ys: &Vec<usize>| ys.iter().map(|&y| problem.difference(y)).sum();
    below.iter().map(sum).collect()
}

/// The length of the edge from a vertex, not the root, up to its parent.
fn length_up(problem: &Problem, tree: &Tree, x: usize) -> u64 {
    problem.length(x, tree.parents[x]).expect("a tree edge")
}

/// The cost of an accepted tree.
pub fn tree_cost(problem: &Problem, tree: &Tree) -> u64 {
    cost(problem, tree, &imbalance(problem, &below(problem.n, tree)))
}

fn cost(problem: &Problem, tree: &Tree, imbalance: &[i64]) -> u64 {
    let others = (0..problem.n).filter(|&x| x != tree.root);
    let on_edge = |x: usize| length_up(problem, tree, x) * imbalance[x].unsigned_abs();
    others.map(on_edge).sum()
}

/// Evaluates an accepted tree of an accepted problem.
pub fn evaluate(problem: &Problem, tree: &Tree) -> Evaluation {
    let n = problem.n;
    let below = below(n, tree);
    let imbalance = imbalance(problem, &below);
    let mut potential = vec![0; n];
    for x in (0..n).filter(|&x| x != tree.root) {
        let rise = imbalance[x].signum() * length_up(problem, tree, x) as i64;
        below[x].iter().for_each(|&y| potential[y] += rise);
    }
    let plan = plan(problem, tree, &below);
    Evaluation {
        cost: cost(problem, tree, &imbalance),
        moves: moves(n, &plan),
        imbalance,
        potential,
        plan,
    }
}

/// The plan by the rule: matched at each vertex, the deepest first.
fn plan(problem: &Problem, tree: &Tree, below: &[Vec<usize>]) -> Vec<u64> {
    let n = problem.n;
    let mut plan = vec![0; n * n];
    let mut residue: Vec<i64> = (0..n).map(|x| problem.difference(x)).collect();
    for x in 0..n {
        plan[x * n + x] = problem.mu[x].min(problem.nu[x]);
    }
    let mut order: Vec<usize> = (0..n).collect();
    order.sort_by_key(|&x| (std::cmp::Reverse(tree.depth(x)), x));
    for x in order {
        loop {
            let from = below[x].iter().find(|&&y| residue[y] > 0);
            let to = below[x].iter().find(|&&y| residue[y] < 0);
            let (Some(&from), Some(&to)) = (from, to) else {
                break;
            };
            let amount = residue[from].min(-residue[to]);
            plan[from * n + to] += amount as u64;
            residue[from] -= amount;
            residue[to] += amount;
        }
    }
    plan
}

/// The number of positive entries off the diagonal.
pub fn moves(n: usize, plan: &[u64]) -> u32 {
    let off_diagonal = |&at: &usize| at / n != at % n;
    (0..n * n).filter(off_diagonal).filter(|&at| plan[at] > 0).count() as u32
}
