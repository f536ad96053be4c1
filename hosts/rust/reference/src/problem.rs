//! A transport problem and its image.

/// An edge of the graph, with `a < b` in a well-formed problem.
#[derive(Clone, Copy, Debug, PartialEq, Eq)]
pub struct Edge {
    pub a: usize,
    pub b: usize,
    pub length: u64,
}

/// A rooted spanning tree: the root is its own parent.
#[derive(Clone, Debug, PartialEq, Eq)]
pub struct Tree {
    pub root: usize,
    pub parents: Vec<usize>,
}

/// A graph (the specification's patch) with two measures (paintings) and perhaps a tree.
///
/// Any numbers can be held, also those that are to be refused.
#[derive(Clone, Debug, PartialEq, Eq)]
pub struct Problem {
    pub n: usize,
    pub edges: Vec<Edge>,
    pub mu: Vec<u64>,
    pub nu: Vec<u64>,
    pub tree: Option<Tree>,
}

/// Bytes to leave free before each of the four sections and after the last.
#[derive(Clone, Copy, Debug, Default)]
pub struct Layout {
    pub gaps: [usize; 5],
    /// What the free bytes hold.
    pub filler: u8,
}

/// Size of the fixed part of an image: four bytes and four pairs of offset and length.
pub const HEADER: usize = 36;

impl Problem {
    /// A problem from plain lists: edges as (a, b, length).
    pub fn new(n: usize, edges: &[(usize, usize, u64)], mu: &[u64], nu: &[u64]) -> Problem {
        Problem {
            n,
            edges: edges
                .iter()
                .map(|&(a, b, length)| Edge { a, b, length })
                .collect(),
            mu: mu.to_vec(),
            nu: nu.to_vec(),
            tree: None,
        }
    }

    /// The same problem with a tree to be evaluated.
    pub fn with_tree(mut self, root: usize, parents: &[usize]) -> Problem {
        self.tree = Some(Tree {
            root,
            parents: parents.to_vec(),
        });
        self
    }

    /// The length of the edge between two vertices, if there is one.
    pub fn length(&self, x: usize, y: usize) -> Option<u64> {
        let (a, b) = (x.min(y), x.max(y));
        let edge = self.edges.iter().find(|e| e.a == a && e.b == b)?;
        Some(edge.length)
    }

    /// mu(x) − nu(x).
    pub fn difference(&self, x: usize) -> i64 {
        self.mu[x] as i64 - self.nu[x] as i64
    }

    /// The image with sections back to back.
    pub fn image(&self) -> Vec<u8> {
        self.image_with(Layout::default())
    }

    /// The image with gaps; numbers too large for their field lose their upper bits.
    pub fn image_with(&self, layout: Layout) -> Vec<u8> {
        let edges = self.edges.iter().flat_map(|e| {
            let [low, high, ..] = e.length.to_le_bytes();
            [e.a as u8, e.b as u8, low, high]
        });
        let amounts =
            |list: &[u64]| -> Vec<u8> { list.iter().flat_map(|&x| (x as u32).to_le_bytes()).collect() };
        let tree = self
            .tree
            .iter()
            .flat_map(|t| std::iter::once(t.root as u8).chain(t.parents.iter().map(|&p| p as u8)));
        let sections: [Vec<u8>; 4] = [
            edges.collect(),
            amounts(&self.mu),
            amounts(&self.nu),
            tree.collect(),
        ];

        let mut image = vec![self.n as u8, 0];
        image.extend((self.edges.len() as u16).to_le_bytes());
        let mut at = HEADER;
        for (section, gap) in sections.iter().zip(layout.gaps) {
            at += gap;
            image.extend((at as u32).to_le_bytes());
            image.extend((section.len() as u32).to_le_bytes());
            at += section.len();
        }
        for (section, gap) in sections.iter().zip(layout.gaps) {
            image.resize(image.len() + gap, layout.filler);
            image.extend(section);
        }
        image.resize(image.len() + layout.gaps[4], layout.filler);
        image
    }
}
