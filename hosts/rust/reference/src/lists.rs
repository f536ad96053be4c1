//! The arguments of the calls over tables: which are accepted, and the refusal numbers of the others.

use crate::checks::{check_graph, check_measures, check_painting, check_start, check_tree, refuse_if};
use crate::page::LINE;
use crate::problem::{Edge, Problem, Tree};

/// The lists that calls are lent, of any length and with any numbers.
#[derive(Clone, Debug, PartialEq, Eq)]
pub struct Lists {
    pub n: usize,
    pub a: Vec<u32>,
    pub b: Vec<u32>,
    pub lengths: Vec<u32>,
    pub mu: Vec<u64>,
    pub nu: Vec<u64>,
    pub root: usize,
    pub parents: Vec<u32>,
}

impl Lists {
    /// The lists of a problem; without a tree, those of no parents.
    pub fn of(problem: &Problem) -> Lists {
        let vertex = |x: usize| u32::try_from(x).expect("a 32-bit number");
        let ends = |end: fn(&Edge) -> usize| problem.edges.iter().map(|e| vertex(end(e))).collect();
        let (root, parents) = match &problem.tree {
            Some(tree) => (tree.root, &tree.parents[..]),
            None => (0, &[][..]),
        };
        Lists {
            n: problem.n,
            a: ends(|e| e.a),
            b: ends(|e| e.b),
            lengths: ends(|e| e.length as usize),
            mu: problem.mu.clone(),
            nu: problem.nu.clone(),
            root,
            parents: parents.iter().map(|&p| vertex(p)).collect(),
        }
    }

    /// Checks 1 and 2, and the numbers as a problem with a tree.
    fn sized(&self, fits: impl Fn(usize) -> bool) -> Result<Problem, u32> {
        let n = self.n;
        refuse_if(1, n == 0 || n > 64)?;
        let m = self.a.len();
        refuse_if(2, m > 512 || self.b.len() != m || self.lengths.len() != m)?;
        refuse_if(2, !fits(n))?;
        let edge = |e: usize| Edge {
            a: self.a[e] as usize,
            b: self.b[e] as usize,
            length: self.lengths[e].into(),
        };
        Ok(Problem {
            n,
            edges: (0..m).map(edge).collect(),
            mu: self.mu.clone(),
            nu: self.nu.clone(),
            tree: Some(Tree {
                root: self.root,
                parents: self.parents.iter().map(|&p| p as usize).collect(),
            }),
        })
    }

    fn measures_fit(&self, n: usize) -> bool {
        self.mu.len() == n && self.nu.len() == n
    }

    /// The problem that the distance call accepts with an answer table of so many places, or its refusal.
    pub fn accept_distances(&self, out: usize) -> Result<Problem, u32> {
        let problem = self.sized(|n| out >= n * n)?;
        check_graph(&problem)?;
        Ok(problem)
    }

    /// The same of the best call, with tables for parents, potential and plan.
    pub fn accept_solve(&self, parents: usize, potential: usize, plan: usize) -> Result<Problem, u32> {
        let room = |n: usize| parents >= n && potential >= n && plan >= n * n;
        let problem = self.sized(|n| self.measures_fit(n) && room(n))?;
        check_graph(&problem)?;
        check_measures(&problem)?;
        Ok(problem)
    }

    /// The same of judging.
    pub fn accept_judge(&self) -> Result<Problem, u32> {
        self.accept_evaluate(usize::MAX, usize::MAX, usize::MAX)
    }

    /// The same of weighing, with tables for imbalance, potential and plan.
    pub fn accept_evaluate(&self, imbalance: usize, potential: usize, plan: usize) -> Result<Problem, u32> {
        self.accept_tree(|n| imbalance >= n && potential >= n && plan >= n * n)
    }

    /// The same of printing, with a buffer of so many bytes.
    pub fn accept_page(&self, buffer: usize) -> Result<Problem, u32> {
        self.accept_tree(|n| buffer >= LINE * n)
    }

    fn accept_tree(&self, room: impl Fn(usize) -> bool) -> Result<Problem, u32> {
        let given = |n: usize| self.measures_fit(n) && self.parents.len() == n;
        let problem = self.sized(|n| given(n) && room(n))?;
        check_graph(&problem)?;
        check_measures(&problem)?;
        check_tree(&problem)?;
        Ok(problem)
    }

    /// The same of the call for the vertices within reach of a start.
    pub fn accept_within(&self, start: usize) -> Result<Problem, u32> {
        let problem = self.sized(|_| true)?;
        check_graph(&problem)?;
        check_start(problem.n, start)?;
        Ok(problem)
    }

    /// The same of the call for the nearest vertex, of which `mu` is the one painting.
    pub fn accept_nearest(&self, start: usize) -> Result<Problem, u32> {
        let problem = self.sized(|n| self.mu.len() == n)?;
        check_graph(&problem)?;
        check_painting(&problem.mu)?;
        check_start(problem.n, start)?;
        Ok(problem)
    }
}
