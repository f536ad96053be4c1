//! What may be done to a right answer to make it wrong.

use reference::exhaustive::hang;
use reference::record::Record;
use reference::tree::{evaluate, moves};
use reference::{Problem, Tree};

pub type Spoil = fn(&Problem, &mut Record);

/// Hands back the first tree found: all that belongs to it, or the tree alone.
fn first_tree(problem: &Problem, record: &mut Record) {
    let tree = first_tree_of(problem, record.tree.root);
    *record = Record::of_evaluation(&tree, &evaluate(problem, &tree));
}

fn first_tree_of(problem: &Problem, root: usize) -> Tree {
    let pairs: Vec<_> = problem.edges.iter().map(|e| (e.a, e.b)).collect();
    hang(problem.n, &pairs, root).expect("connected")
}

/// Two entries of the plan exchange a grain's destinations: rows and columns stay.
fn exchange(problem: &Problem, record: &mut Record) {
    let (n, plan) = (problem.n, &mut record.plan);
    let positive: Vec<usize> = (0..n * n).filter(|&k| plan[k] > 0).collect();
    for &k in &positive {
        let apart = |l: &&usize| k / n != **l / n && k % n != **l % n;
        if let Some(&l) = positive.iter().find(apart) {
            plan[k] -= 1;
            plan[l] -= 1;
            plan[k / n * n + l % n] += 1;
            plan[l / n * n + k % n] += 1;
            record.moves = moves(n, plan);
            return;
        }
    }
}

/// A grain goes elsewhere: the rows stay, two columns do not.
fn stray(problem: &Problem, record: &mut Record) {
    let n = problem.n;
    if let Some(k) = (0..n * n).find(|&k| record.plan[k] > 0) {
        record.plan[k] -= 1;
        record.plan[k / n * n + (k + 1) % n] += 1;
    }
}

/// Spoils of what a given tree settles too.
pub const FIGURES: [(&str, Spoil); 12] = [
    ("cost one too high", |_, r| r.cost += 1),
    ("cost of another unit", |_, r| r.cost *= 100),
    ("moves with the diagonal", |p, r| {
        let positive = r.plan.iter().filter(|&&x| x > 0);
        r.moves = positive.count() as u32 + u32::from(p.n == 1);
    }),
    ("no moves", |_, r| r.moves = 0),
    ("potential one higher", |_, r| {
        r.potential.iter_mut().for_each(|u| *u += 1)
    }),
    ("potential turned round", |_, r| {
        r.potential.iter_mut().for_each(|u| *u = -*u)
    }),
    ("potential 0", |_, r| r.potential.fill(0)),
    ("potential of the tree's depths", |p, r| {
        r.potential = (0..p.n).map(|x| r.tree.depth(x) as i64 * 65_535).collect()
    }),
    ("diagonal alone", |p, r| {
        let n = p.n;
        (0..n * n).filter(|k| k / n != k % n).for_each(|k| r.plan[k] = 0)
    }),
    ("plan turned round", |p, r| {
        let n = p.n;
        r.plan = (0..n * n).map(|k| r.plan[k % n * n + k / n]).collect()
    }),
    ("destinations exchanged", exchange),
    ("a stray grain", stray),
];

/// Spoils of the tree, which a best answer chooses.
pub const TREES: [(&str, Spoil); 5] = [
    ("another root", |p, r| r.tree.root = (r.tree.root + 1) % p.n),
    ("every parent 0", |_, r| r.tree.parents.fill(0)),
    ("two parents exchanged", |p, r| {
        r.tree.parents.swap(p.n / 2, p.n - 1)
    }),
    ("the first tree", first_tree),
    ("the first tree's parents alone", |p, r| {
        r.tree = first_tree_of(p, r.tree.root)
    }),
];
