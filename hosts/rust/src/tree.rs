use crate::calls::{
    mover_mark_ancestors, mover_tree_depth, mover_tree_new, mover_tree_parent, mover_tree_subtree,
};
use crate::{Refusal, MAX_VERTICES};

/// A tree by value: a root and each vertex's parent, the root being its own.
///
/// Nothing is examined when it is made. Its methods know a vertex only if the whole is a tree: at most 64
/// vertices, the root and all parents among them, no second vertex its own parent, and every chain of parents
/// reaching the root. Edges are not looked at.
///
/// ```
/// use weight_mover::Tree;
///
/// // 1 is the root, 0 below it and 2 below 0.
/// let tree = Tree::new(3, 1, &[1, 1, 0]);
/// assert_eq!(tree.depth(2), Some(2));
/// assert_eq!(tree.parent(2), Some(0));
/// assert_eq!(tree.subtree(0), Some(0b101));
/// assert_eq!(tree.depth(3), None);
/// ```
#[derive(Clone, Copy, Debug, PartialEq, Eq)]
#[non_exhaustive]
#[repr(C)]
pub struct Tree {
    /// The number of vertices.
    pub n: usize,
    /// The root.
    pub root: usize,
    /// The parents of the first n vertices; the other places are 0.
    pub parents: [u32; MAX_VERTICES],
}

impl Tree {
    /// The tree with a root and a list of parents, of which the first `n` count; those missing are 0.
    pub fn new(n: usize, root: usize, parents: &[u32]) -> Tree {
        mover_tree_new(n, root, parents)
    }

    /// The number of edges from a vertex up to the root.
    pub fn depth(&self, v: usize) -> Option<u32> {
        self.parent(v).map(|_| mover_tree_depth(*self, v))
    }

    /// The parent of a vertex; the root's is the root.
    pub fn parent(&self, v: usize) -> Option<u32> {
        // 64, which is no vertex, stands for none.
        Some(mover_tree_parent(*self, v)).filter(|&parent| parent < 64)
    }

    /// The vertices that are `v` or below it, bit y for vertex y.
    pub fn subtree(&self, v: usize) -> Option<u64> {
        // A vertex is below itself, so the word of one is never 0.
        Some(mover_tree_subtree(*self, v)).filter(|&word| word != 0)
    }
}

/// Climbs from a vertex of a tree up to its root: sets bit `y` in the word of each vertex that `y` is below, and
/// changes no other bit. A vertex is below itself and all that it meets going up.
///
/// `masks` has a word for each vertex, and may have more. A climb from each vertex, in any order, on words of 0
/// gives the words of [`Tree::subtree`]. From what is no vertex nothing changes. Edges are not looked at. After a
/// refusal all words are as they were.
///
/// ```
/// use weight_mover::{mark_ancestors, Refusal};
///
/// // 1 is the root, 0 below it and 2 below 0.
/// let parents = [1, 1, 0];
/// let mut masks = [0; 3];
/// for y in [2, 0, 1] {
///     mark_ancestors(3, 1, &parents, y, &mut masks)?;
/// }
/// assert_eq!(masks, [0b101, 0b111, 0b100]);
/// assert_eq!(mark_ancestors(3, 0, &parents, 2, &mut masks), Err(Refusal::TreeParents));
/// # Ok::<(), Refusal>(())
/// ```
pub fn mark_ancestors(
    n: usize,
    root: usize,
    parents: &[u32],
    y: usize,
    masks: &mut [u64],
) -> Result<(), Refusal> {
    Refusal::check(mover_mark_ancestors(n, root, parents, y, masks))
}
