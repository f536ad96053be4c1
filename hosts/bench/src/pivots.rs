//! Counts the pivots of the library's search, which it does not tell itself.
//!
//! This is the search of `crates/network_simplex` from the tree of `crates/shortest_paths`, written again. The caller compares the tree and the potential that it ends
//! with to those of the record: where they agree patch after patch, so do the pivots.

use reference::{Edge, Problem};

/// The edges are looked at in blocks of so many.
const BLOCK: usize = 64;

/// A spanning tree with root 0 and what is kept of each vertex: the perturbed masses below it, the vertices below it as a word,
/// the potential.
struct Basis {
    parents: Vec<usize>,
    supply: Vec<i64>,
    demand: Vec<i64>,
    masks: Vec<u64>,
    potential: Vec<i64>,
}

/// The tree and the potential that the search ends with, and how many pivots it took.
pub struct Ended {
    pub parents: Vec<usize>,
    pub potential: Vec<i64>,
    pub pivots: usize,
}

/// The tree of shortest paths from vertex 0, by sweeps of relaxing the edges: upward by rising number, downward by falling number, in turn.
fn shortest_path_tree(problem: &Problem) -> (Vec<usize>, Vec<usize>) {
    let (mut parents, mut edge) = (vec![0; problem.n], vec![0; problem.n]);
    let mut labels = vec![1u64 << 30; problem.n];
    labels[0] = 0;
    let mut sweep = |rising: bool| {
        let mut lowered = false;
        for i in 0..problem.edges.len() {
            let e = if rising { i } else { problem.edges.len() - 1 - i };
            let Edge { a, b, length } = problem.edges[e];
            let (x, y) = if rising { (a, b) } else { (b, a) };
            let near = labels[x] + 128 * length + 1;
            if near < labels[y] {
                (labels[y], parents[y], edge[y]) = (near, x, e);
                lowered = true;
            }
        }
        lowered
    };
    sweep(true);
    while sweep(false) && sweep(true) {}
    (parents, edge)
}

impl Basis {
    fn first(problem: &Problem) -> Basis {
        let n = problem.n;
        let (parents, edge) = shortest_path_tree(problem);
        let (mut supply, mut demand, mut masks) = (vec![0; n], vec![0; n], vec![0; n]);
        for y in 0..n {
            let (grain, grains) = if y == 0 { (0, n as i64 - 1) } else { (1, 0) };
            let mut x = y;
            loop {
                supply[x] += 64 * problem.mu[y] as i64 + grain;
                demand[x] += 64 * problem.nu[y] as i64 + grains;
                masks[x] |= 1u64 << y;
                if x == 0 {
                    break;
                }
                x = parents[x];
            }
        }
        let mut basis = Basis {
            parents,
            supply,
            demand,
            masks,
            potential: vec![0; n],
        };
        let step = |x: usize| problem.edges[edge[x]].length as i64 * basis.flow(x).signum();
        basis.potential = (0..n)
            .map(|y| basis.path(y, 0).into_iter().map(step).sum())
            .collect();
        basis
    }

    /// The vertices from one up to another above it, the last excluded.
    fn path(&self, from: usize, to: usize) -> Vec<usize> {
        std::iter::successors(Some(from), |&x| Some(self.parents[x]))
            .take_while(|&x| x != to)
            .collect()
    }

    fn flow(&self, x: usize) -> i64 {
        self.supply[x] - self.demand[x]
    }

    fn excess(&self, e: &Edge) -> i64 {
        (self.potential[e.a] - self.potential[e.b]).abs() - e.length as i64
    }

    /// The ends of an edge, the one with the higher potential first.
    fn falling(&self, edge: &Edge) -> (usize, usize) {
        if self.potential[edge.b] < self.potential[edge.a] {
            (edge.a, edge.b)
        } else {
            (edge.b, edge.a)
        }
    }

    /// The worst edge of the first block, from the given one on and round all of them, that has a violated edge; of equally bad ones, the one with the
    /// largest flow from its higher end less that from its lower.
    fn entering_edge(&self, edges: &[Edge], block: usize) -> Option<usize> {
        let key = |e: usize| {
            let (s, t) = self.falling(&edges[e]);
            (self.excess(&edges[e]), self.flow(s) - self.flow(t))
        };
        let blocks = edges.len().div_ceil(BLOCK);
        (block..blocks).chain(0..block).find_map(|k| {
            let end = edges.len().min(BLOCK * (k + 1));
            // The first of the worst: `max_by_key` would give the last.
            let worst = (BLOCK * k..end).rev().max_by_key(|&e| key(e))?;
            (self.excess(&edges[worst]) > 0).then_some(worst)
        })
    }

    fn pivot(&mut self, edge: &Edge) {
        let (s, t) = self.falling(edge);
        let mut join = s;
        while self.masks[join] >> t & 1 == 0 {
            join = self.parents[join];
        }
        let least = |from: usize, sign: i64| {
            let flows = self
                .path(from, join)
                .into_iter()
                .map(|x| (sign * self.flow(x), x));
            flows.filter(|f| f.0 > 0).min_by_key(|f| f.0)
        };
        let (up, down) = (least(s, 1), least(t, -1));
        let rises = down.is_some_and(|d| up.is_none_or(|u| d.0 < u.0));
        let (_, leaving) = if rises { down } else { up }.expect("an edge of the cycle leaves");
        let (a, b) = if rises { (t, s) } else { (s, t) };

        let shift = self.excess(edge) * if rises { 1 } else { -1 };
        let subtree = self.masks[leaving];
        let (supply, demand) = (self.supply[leaving], self.demand[leaving]);
        for (path, sign) in [(self.path(leaving, join), -1), (self.path(b, join), 1)] {
            for x in path {
                self.supply[x] += sign * supply;
                self.demand[x] += sign * demand;
                self.masks[x] ^= subtree;
            }
        }
        // The path from a up to the leaving vertex turns round.
        let mut last = b;
        let (mut mask, mut out, mut back) = (0, 0, 0);
        let mut turned = self.path(a, leaving);
        turned.push(leaving);
        for x in turned {
            let own = (self.masks[x], self.supply[x], self.demand[x]);
            (self.masks[x], self.supply[x], self.demand[x]) = (subtree ^ mask, supply - out, demand - back);
            (mask, out, back) = own;
            self.parents[x] = std::mem::replace(&mut last, x);
        }
        (0..self.parents.len())
            .filter(|x| subtree >> x & 1 == 1)
            .for_each(|x| self.potential[x] += shift);
    }
}

pub fn search(problem: &Problem) -> Ended {
    let mut basis = Basis::first(problem);
    let (mut pivots, mut block) = (0, 0);
    while let Some(e) = basis.entering_edge(&problem.edges, block) {
        basis.pivot(&problem.edges[e]);
        pivots += 1;
        block = e / BLOCK + 1;
    }
    Ended {
        parents: basis.parents,
        potential: basis.potential,
        pivots,
    }
}
