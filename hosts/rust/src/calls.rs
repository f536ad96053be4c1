//! The exported calls under their own names, on slices.
//!
//! Each returns the number of its refusal, or 0; [`Refusal::check`](crate::Refusal::check) makes a `Result`
//! of it. After a refusal every table is as it was and every single result is 0. An answer table may be
//! longer than is asked; what is past the answer stays as it was. All contents are allowed: no table can do
//! harm, and each call says what it refuses. The calls keep nothing and may be used from several threads at
//! once.
//!
//! A table of n × n numbers has row i from place i × n.

// The calls have the arguments that they have.
#![allow(clippy::too_many_arguments)]
// SAFETY of every call below: pointers come from slices and references, so each is aligned and valid for its
// length, and what is borrowed mutably overlaps nothing. The library is proved to stay within these places
// for all contents, and keeps no pointer.

use crate::{Edge, Tree};

mod ffi {
    use crate::{Edge, Tree};

    extern "C" {
        pub fn mover_distances(
            n: usize,
            a: *const u32,
            a_len: usize,
            b: *const u32,
            b_len: usize,
            lengths: *const u32,
            lengths_len: usize,
            out: *mut u32,
            out_len: usize,
        ) -> u32;
        pub fn mover_distances_of_records(
            n: usize,
            edges: *const Edge,
            edges_len: usize,
            out: *mut u32,
            out_len: usize,
        ) -> u32;
        pub fn mover_evaluate(
            n: usize,
            a: *const u32,
            a_len: usize,
            b: *const u32,
            b_len: usize,
            lengths: *const u32,
            lengths_len: usize,
            mu: *const u64,
            mu_len: usize,
            nu: *const u64,
            nu_len: usize,
            root: usize,
            parents: *const u32,
            parents_len: usize,
            imbalance: *mut i32,
            imbalance_len: usize,
            potential: *mut i32,
            potential_len: usize,
            plan: *mut u32,
            plan_len: usize,
            cost: *mut u64,
            moves: *mut u32,
        ) -> u32;
        pub fn mover_is_optimal(
            n: usize,
            a: *const u32,
            a_len: usize,
            b: *const u32,
            b_len: usize,
            lengths: *const u32,
            lengths_len: usize,
            mu: *const u64,
            mu_len: usize,
            nu: *const u64,
            nu_len: usize,
            root: usize,
            parents: *const u32,
            parents_len: usize,
            optimal: *mut u32,
        ) -> u32;
        pub fn mover_solve(
            n: usize,
            a: *const u32,
            a_len: usize,
            b: *const u32,
            b_len: usize,
            lengths: *const u32,
            lengths_len: usize,
            mu: *const u64,
            mu_len: usize,
            nu: *const u64,
            nu_len: usize,
            parents: *mut u32,
            parents_len: usize,
            potential: *mut i32,
            potential_len: usize,
            plan: *mut u32,
            plan_len: usize,
            cost: *mut u64,
            moves: *mut u32,
        ) -> u32;
        pub fn mover_mark_ancestors(
            n: usize,
            root: usize,
            parents: *const u32,
            parents_len: usize,
            y: usize,
            masks: *mut u64,
            masks_len: usize,
        ) -> u32;
        pub fn mover_vertices_within(
            n: usize,
            a: *const u32,
            a_len: usize,
            b: *const u32,
            b_len: usize,
            lengths: *const u32,
            lengths_len: usize,
            start: usize,
            reach: u32,
            mask: *mut u64,
        ) -> u32;
        pub fn mover_nearest_vertex(
            n: usize,
            a: *const u32,
            a_len: usize,
            b: *const u32,
            b_len: usize,
            lengths: *const u32,
            lengths_len: usize,
            start: usize,
            amounts: *const u64,
            amounts_len: usize,
            vertex: *mut u32,
        ) -> u32;
        pub fn mover_to_amounts(
            weights: *const f32,
            weights_len: usize,
            amounts: *mut u64,
            amounts_len: usize,
        ) -> u32;
        pub fn mover_to_weights(
            amounts: *const u64,
            amounts_len: usize,
            weights: *mut f32,
            weights_len: usize,
        ) -> u32;
        pub fn mover_read(
            image: *const u8,
            image_len: usize,
            a: *mut u32,
            a_len: usize,
            b: *mut u32,
            b_len: usize,
            lengths: *mut u32,
            lengths_len: usize,
            mu: *mut u64,
            mu_len: usize,
            nu: *mut u64,
            nu_len: usize,
            parents: *mut u32,
            parents_len: usize,
            n: *mut usize,
            m: *mut usize,
            root: *mut usize,
            tree: *mut u32,
        ) -> u32;
        pub fn mover_write_image(
            n: usize,
            a: *const u32,
            a_len: usize,
            b: *const u32,
            b_len: usize,
            lengths: *const u32,
            lengths_len: usize,
            mu: *const u64,
            mu_len: usize,
            nu: *const u64,
            nu_len: usize,
            tree: bool,
            root: usize,
            parents: *const u32,
            parents_len: usize,
            buffer: *mut u8,
            buffer_len: usize,
            length: *mut usize,
        ) -> u32;
        pub fn mover_write_page(
            n: usize,
            a: *const u32,
            a_len: usize,
            b: *const u32,
            b_len: usize,
            lengths: *const u32,
            lengths_len: usize,
            mu: *const u64,
            mu_len: usize,
            nu: *const u64,
            nu_len: usize,
            root: usize,
            parents: *const u32,
            parents_len: usize,
            buffer: *mut u8,
            buffer_len: usize,
            length: *mut usize,
        ) -> u32;
        pub fn mover_rewrite(
            image: *const u8,
            image_len: usize,
            buffer: *mut u8,
            buffer_len: usize,
            length: *mut usize,
        ) -> u32;
        pub fn mover_run(image: *const u8, image_len: usize, record: *mut u8, record_len: usize) -> u32;
        pub fn mover_report(
            reel: *const u8,
            reel_len: usize,
            tally: *mut u32,
            tally_len: usize,
            accepted: *mut u32,
            sum: *mut u64,
            greatest: *mut u64,
            first: *mut usize,
        ) -> u32;
        pub fn mover_tree_new(n: usize, root: usize, parents: *const u32, parents_len: usize) -> Tree;
        pub fn mover_tree_depth(tree: Tree, v: usize) -> u32;
        pub fn mover_tree_parent(tree: Tree, v: usize) -> u32;
        pub fn mover_tree_subtree(tree: Tree, v: usize) -> u64;
    }
}

/// All distances: fills the first n × n places of `out`. Refuses by 1 to 5.
///
/// ```
/// use weight_mover::calls::mover_distances;
///
/// // A triangle whose long edge is longer than the way round.
/// let mut out = [0; 9];
/// assert_eq!(mover_distances(3, &[0, 0, 1], &[1, 2, 2], &[5, 1, 1], &mut out), 0);
/// assert_eq!(out, [0, 2, 1, 2, 0, 1, 1, 1, 0]);
/// ```
pub fn mover_distances(n: usize, a: &[u32], b: &[u32], lengths: &[u32], out: &mut [u32]) -> u32 {
    unsafe {
        ffi::mover_distances(
            n,
            a.as_ptr(),
            a.len(),
            b.as_ptr(),
            b.len(),
            lengths.as_ptr(),
            lengths.len(),
            out.as_mut_ptr(),
            out.len(),
        )
    }
}

/// All distances, from a list of records. Refuses by 1 to 5.
///
/// ```
/// use weight_mover::{calls::mover_distances_of_records, Edge};
///
/// let mut out = [0; 4];
/// let edge = Edge { a: 0, b: 1, length: 7 };
/// assert_eq!(mover_distances_of_records(2, &[edge], &mut out), 0);
/// assert_eq!(out, [0, 7, 7, 0]);
/// ```
pub fn mover_distances_of_records(n: usize, edges: &[Edge], out: &mut [u32]) -> u32 {
    unsafe { ffi::mover_distances_of_records(n, edges.as_ptr(), edges.len(), out.as_mut_ptr(), out.len()) }
}

/// Evaluates a tree: fills n places of `imbalance` and `potential` and n × n of `plan`. Refuses by 1 to 10.
///
/// ```
/// use weight_mover::calls::mover_evaluate;
///
/// let (mut imbalance, mut potential, mut plan) = ([0; 2], [0; 2], [0; 4]);
/// let (mut cost, mut moves) = (0, 0);
/// let number = mover_evaluate(
///     2, &[0], &[1], &[7], &[3, 1], &[0, 4], 1, &[1, 1],
///     &mut imbalance, &mut potential, &mut plan, &mut cost, &mut moves,
/// );
/// assert_eq!((number, cost, moves), (0, 21, 1));
/// assert_eq!((imbalance, potential, plan), ([3, 0], [7, 0], [0, 3, 0, 1]));
/// ```
pub fn mover_evaluate(
    n: usize,
    a: &[u32],
    b: &[u32],
    lengths: &[u32],
    mu: &[u64],
    nu: &[u64],
    root: usize,
    parents: &[u32],
    imbalance: &mut [i32],
    potential: &mut [i32],
    plan: &mut [u32],
    cost: &mut u64,
    moves: &mut u32,
) -> u32 {
    unsafe {
        ffi::mover_evaluate(
            n,
            a.as_ptr(),
            a.len(),
            b.as_ptr(),
            b.len(),
            lengths.as_ptr(),
            lengths.len(),
            mu.as_ptr(),
            mu.len(),
            nu.as_ptr(),
            nu.len(),
            root,
            parents.as_ptr(),
            parents.len(),
            imbalance.as_mut_ptr(),
            imbalance.len(),
            potential.as_mut_ptr(),
            potential.len(),
            plan.as_mut_ptr(),
            plan.len(),
            cost,
            moves,
        )
    }
}

/// Judges a tree: `optimal` becomes 1 if no spanning tree of the graph costs less, else 0. Refuses by 1 to 10.
///
/// ```
/// use weight_mover::calls::mover_is_optimal;
///
/// let mut optimal = 9;
/// let number = mover_is_optimal(2, &[0], &[1], &[7], &[3, 1], &[0, 4], 1, &[1, 1], &mut optimal);
/// assert_eq!((number, optimal), (0, 1));
/// ```
pub fn mover_is_optimal(
    n: usize,
    a: &[u32],
    b: &[u32],
    lengths: &[u32],
    mu: &[u64],
    nu: &[u64],
    root: usize,
    parents: &[u32],
    optimal: &mut u32,
) -> u32 {
    unsafe {
        ffi::mover_is_optimal(
            n,
            a.as_ptr(),
            a.len(),
            b.as_ptr(),
            b.len(),
            lengths.as_ptr(),
            lengths.len(),
            mu.as_ptr(),
            mu.len(),
            nu.as_ptr(),
            nu.len(),
            root,
            parents.as_ptr(),
            parents.len(),
            optimal,
        )
    }
}

/// The best answer: fills n places of `parents`, a best tree with root 0, n of `potential` and n × n of
/// `plan`. Refuses by 1 to 7.
///
/// ```
/// use weight_mover::calls::mover_solve;
///
/// let (mut parents, mut potential, mut plan) = ([9; 2], [9; 2], [9; 4]);
/// let (mut cost, mut moves) = (0, 0);
/// let number = mover_solve(
///     2, &[0], &[1], &[7], &[3, 1], &[0, 4],
///     &mut parents, &mut potential, &mut plan, &mut cost, &mut moves,
/// );
/// assert_eq!((number, cost, moves), (0, 21, 1));
/// assert_eq!((parents, potential, plan), ([0, 0], [0, -7], [0, 3, 0, 1]));
/// ```
pub fn mover_solve(
    n: usize,
    a: &[u32],
    b: &[u32],
    lengths: &[u32],
    mu: &[u64],
    nu: &[u64],
    parents: &mut [u32],
    potential: &mut [i32],
    plan: &mut [u32],
    cost: &mut u64,
    moves: &mut u32,
) -> u32 {
    unsafe {
        ffi::mover_solve(
            n,
            a.as_ptr(),
            a.len(),
            b.as_ptr(),
            b.len(),
            lengths.as_ptr(),
            lengths.len(),
            mu.as_ptr(),
            mu.len(),
            nu.as_ptr(),
            nu.len(),
            parents.as_mut_ptr(),
            parents.len(),
            potential.as_mut_ptr(),
            potential.len(),
            plan.as_mut_ptr(),
            plan.len(),
            cost,
            moves,
        )
    }
}

/// Climbs from vertex y of a tree up to its root: sets bit y in `masks[x]` for each x that y is below, and
/// changes no other bit. y is below x if x is y or is met going from y up through the parents.
///
/// If y is no vertex, the checks run all the same, and nothing changes. No edges are looked at. Refuses by 1,
/// 2, 8 and 10.
///
/// ```
/// use weight_mover::calls::mover_mark_ancestors;
///
/// // 1 is the root, 0 below it and 2 below 0.
/// let mut masks = [0, 0b1000, 0, 9];
/// assert_eq!(mover_mark_ancestors(3, 1, &[1, 1, 0], 2, &mut masks), 0);
/// assert_eq!(masks, [0b100, 0b1100, 0b100, 9]);
/// assert_eq!(mover_mark_ancestors(3, 1, &[1, 1, 0], 3, &mut masks), 0);
/// assert_eq!(mover_mark_ancestors(3, 1, &[2, 1, 0], 2, &mut masks), 10);
/// assert_eq!(masks, [0b100, 0b1100, 0b100, 9]);
/// ```
pub fn mover_mark_ancestors(n: usize, root: usize, parents: &[u32], y: usize, masks: &mut [u64]) -> u32 {
    unsafe {
        ffi::mover_mark_ancestors(
            n,
            root,
            parents.as_ptr(),
            parents.len(),
            y,
            masks.as_mut_ptr(),
            masks.len(),
        )
    }
}

/// The vertices within reach of a start: `mask` becomes the word with bit v for each vertex v whose distance from
/// `start` is at most `reach`. The start itself is one of them.
///
/// Distances are least lengths over all paths: what is welded to a vertex within reach, by edges of length 0, is
/// within reach. Refuses by 1 to 5 and then by 17, if `start` is no vertex.
///
/// ```
/// use weight_mover::calls::mover_vertices_within;
///
/// // A triangle whose long edge is longer than the way round; 3 is welded to 1.
/// let (a, b, lengths) = ([0, 0, 1, 1], [1, 2, 2, 3], [5, 1, 1, 0]);
/// let mut mask = 9;
/// assert_eq!(mover_vertices_within(4, &a, &b, &lengths, 0, 1, &mut mask), 0);
/// assert_eq!(mask, 0b0101);
/// assert_eq!(mover_vertices_within(4, &a, &b, &lengths, 0, 2, &mut mask), 0);
/// assert_eq!(mask, 0b1111);
/// assert_eq!(mover_vertices_within(4, &a, &b, &lengths, 4, 2, &mut mask), 17);
/// assert_eq!(mask, 0);
/// ```
pub fn mover_vertices_within(
    n: usize,
    a: &[u32],
    b: &[u32],
    lengths: &[u32],
    start: usize,
    reach: u32,
    mask: &mut u64,
) -> u32 {
    unsafe {
        ffi::mover_vertices_within(
            n,
            a.as_ptr(),
            a.len(),
            b.as_ptr(),
            b.len(),
            lengths.as_ptr(),
            lengths.len(),
            start,
            reach,
            mask,
        )
    }
}

/// The nearest vertex with paint: `vertex` becomes the one whose distance from `start` is least among those with
/// a positive amount, the lowest of those that are equally near. It becomes 64 if no amount is positive.
///
/// The start itself counts, at distance 0. `amounts` is one measure, n long. Refuses by 1 to 5, by 6 if its total
/// is above 16,777,216, and then by 17, if `start` is no vertex.
///
/// ```
/// use weight_mover::calls::mover_nearest_vertex;
///
/// // A triangle whose long edge is longer than the way round; 3 is welded to 1.
/// let (a, b, lengths) = ([0, 0, 1, 1], [1, 2, 2, 3], [5, 1, 1, 0]);
/// let mut vertex = 9;
/// assert_eq!(mover_nearest_vertex(4, &a, &b, &lengths, 0, &[0, 7, 0, 7], &mut vertex), 0);
/// assert_eq!(vertex, 1);
/// assert_eq!(mover_nearest_vertex(4, &a, &b, &lengths, 0, &[0; 4], &mut vertex), 0);
/// assert_eq!(vertex, 64);
/// assert_eq!(mover_nearest_vertex(4, &a, &b, &lengths, 4, &[0, 7, 0, 7], &mut vertex), 17);
/// assert_eq!(vertex, 0);
/// ```
pub fn mover_nearest_vertex(
    n: usize,
    a: &[u32],
    b: &[u32],
    lengths: &[u32],
    start: usize,
    amounts: &[u64],
    vertex: &mut u32,
) -> u32 {
    unsafe {
        ffi::mover_nearest_vertex(
            n,
            a.as_ptr(),
            a.len(),
            b.as_ptr(),
            b.len(),
            lengths.as_ptr(),
            lengths.len(),
            start,
            amounts.as_ptr(),
            amounts.len(),
            vertex,
        )
    }
}

/// Turns weights, 32-bit floats from 0 to 1, into amounts: fills as many places of `amounts` as there are
/// weights, each with the weight times 16,777,216, exactly. Negative zero is 0.
///
/// The lists may have any length. Refuses by 2, if `amounts` is shorter than `weights`, and then by 15 and 16;
/// 15 looks at all weights before 16 looks at any.
///
/// ```
/// use weight_mover::calls::mover_to_amounts;
///
/// let mut amounts = [9; 4];
/// assert_eq!(mover_to_amounts(&[1.0, 0.25, -0.0], &mut amounts), 0);
/// assert_eq!(amounts, [16_777_216, 4_194_304, 0, 9]);
/// assert_eq!(mover_to_amounts(&[0.5; 5], &mut amounts), 2);
/// assert_eq!(mover_to_amounts(&[0.5, 0.1], &mut amounts), 16);
/// assert_eq!(mover_to_amounts(&[0.5, 0.1, f32::NAN], &mut amounts), 15);
/// assert_eq!(amounts, [16_777_216, 4_194_304, 0, 9]);
/// ```
pub fn mover_to_amounts(weights: &[f32], amounts: &mut [u64]) -> u32 {
    unsafe {
        ffi::mover_to_amounts(
            weights.as_ptr(),
            weights.len(),
            amounts.as_mut_ptr(),
            amounts.len(),
        )
    }
}

/// Turns amounts from 0 to 16,777,216 into weights: fills as many places of `weights` as there are amounts,
/// each with the amount divided by 16,777,216, exactly. [`mover_to_amounts`] gives the amounts again.
///
/// The lists may have any length. Refuses by 2, if `weights` is shorter than `amounts`, and then by 15.
///
/// ```
/// use weight_mover::calls::mover_to_weights;
///
/// let mut weights = [9.0; 4];
/// assert_eq!(mover_to_weights(&[16_777_216, 1, 0], &mut weights), 0);
/// assert_eq!(weights, [1.0, 1.0 / 16_777_216.0, 0.0, 9.0]);
/// assert_eq!(mover_to_weights(&[0; 5], &mut weights), 2);
/// assert_eq!(mover_to_weights(&[0, 16_777_217], &mut weights), 15);
/// assert_eq!(weights, [1.0, 1.0 / 16_777_216.0, 0.0, 9.0]);
/// ```
pub fn mover_to_weights(amounts: &[u64], weights: &mut [f32]) -> u32 {
    unsafe {
        ffi::mover_to_weights(
            amounts.as_ptr(),
            amounts.len(),
            weights.as_mut_ptr(),
            weights.len(),
        )
    }
}

/// Reads an image: fills m places of the three edge lists and n of `mu`, `nu` and `parents`.
///
/// `tree` becomes 1, or 0 for an image without a tree: then `root` is 0 and `parents`, which must have n
/// places all the same, stays as it was. The lists may be of unequal length. Refuses by 11, 12, 13, 1 and 2.
///
/// ```
/// use weight_mover::calls::mover_read;
/// use weight_mover::Patch;
///
/// let image = Patch::new(2).edge(0, 1, 7).mu(&[3, 1]).nu(&[0, 4]).image().expect("small numbers");
/// let (mut a, mut b, mut lengths) = ([9; 1], [9; 2], [9; 3]);
/// let (mut mu, mut nu, mut parents) = ([9; 2], [9; 3], [9; 2]);
/// let (mut n, mut m, mut root, mut tree) = (9, 9, 9, 9);
/// let number = mover_read(
///     &image, &mut a, &mut b, &mut lengths, &mut mu, &mut nu, &mut parents,
///     &mut n, &mut m, &mut root, &mut tree,
/// );
/// assert_eq!((number, n, m, root, tree), (0, 2, 1, 0, 0));
/// assert_eq!((a, b, lengths), ([0], [1, 9], [7, 9, 9]));
/// assert_eq!((mu, nu, parents), ([3, 1], [0, 4, 9], [9, 9]));
/// ```
pub fn mover_read(
    image: &[u8],
    a: &mut [u32],
    b: &mut [u32],
    lengths: &mut [u32],
    mu: &mut [u64],
    nu: &mut [u64],
    parents: &mut [u32],
    n: &mut usize,
    m: &mut usize,
    root: &mut usize,
    tree: &mut u32,
) -> u32 {
    unsafe {
        ffi::mover_read(
            image.as_ptr(),
            image.len(),
            a.as_mut_ptr(),
            a.len(),
            b.as_mut_ptr(),
            b.len(),
            lengths.as_mut_ptr(),
            lengths.len(),
            mu.as_mut_ptr(),
            mu.len(),
            nu.as_mut_ptr(),
            nu.len(),
            parents.as_mut_ptr(),
            parents.len(),
            n,
            m,
            root,
            tree,
        )
    }
}

/// Writes an image into the start of `buffer`: the graph, the measures and, if `tree` is true, the tree, in
/// sections back to back from byte 36. `length` becomes the image's length,
/// [`image_size`](crate::image_size); the buffer's other bytes stay as they were.
///
/// Without a tree the image ends with an empty section for it, and `root` and `parents` are not looked at. Two
/// patches with their measures and trees get equal bytes exactly if they are equal.
///
/// Refuses by 1, by 2, also for a buffer that is shorter than the image, and then by 13: an end, the root or a
/// parent above 255, a length above 65,535, an amount above 4,294,967,295. Nothing else is examined: edges out
/// of order, totals that differ or parents that are no tree are written as they are.
///
/// ```
/// use weight_mover::calls::mover_write_image;
///
/// let (mut buffer, mut length) = ([9; 60], 9);
/// let number = mover_write_image(
///     2, &[0], &[1], &[7], &[3, 1], &[0, 4], true, 1, &[1, 1], &mut buffer, &mut length,
/// );
/// assert_eq!((number, length), (0, 36 + 4 + 16 + 3));
/// // n, 0 and m; the places and lengths of the sections; the edge, mu, nu and the tree; a byte that stays.
/// assert_eq!(buffer[..4], [2, 0, 1, 0]);
/// assert_eq!(buffer[4..36].chunks(4).map(|b| b[0]).collect::<Vec<u8>>(), [36, 4, 40, 8, 48, 8, 56, 3]);
/// assert_eq!(buffer[36..40], [0, 1, 7, 0]);
/// assert_eq!(buffer[40..56], [3, 0, 0, 0, 1, 0, 0, 0, 0, 0, 0, 0, 4, 0, 0, 0]);
/// assert_eq!(buffer[56..], [1, 1, 1, 9]);
///
/// let before = buffer;
/// let number = mover_write_image(
///     2, &[0], &[256], &[7], &[3, 1], &[0, 4], false, 0, &[], &mut buffer, &mut length,
/// );
/// assert_eq!((number, length, buffer), (13, 0, before));
/// ```
pub fn mover_write_image(
    n: usize,
    a: &[u32],
    b: &[u32],
    lengths: &[u32],
    mu: &[u64],
    nu: &[u64],
    tree: bool,
    root: usize,
    parents: &[u32],
    buffer: &mut [u8],
    length: &mut usize,
) -> u32 {
    unsafe {
        ffi::mover_write_image(
            n,
            a.as_ptr(),
            a.len(),
            b.as_ptr(),
            b.len(),
            lengths.as_ptr(),
            lengths.len(),
            mu.as_ptr(),
            mu.len(),
            nu.as_ptr(),
            nu.len(),
            tree,
            root,
            parents.as_ptr(),
            parents.len(),
            buffer.as_mut_ptr(),
            buffer.len(),
            length,
        )
    }
}

/// Writes a tree as a page of text into the start of `buffer`: a line of 96 bytes for each vertex, every vertex
/// before its children, these by rising number, and each with its whole subtree before the following one.
/// `length` becomes 96 × n, [`page_size`](crate::page_size); the buffer's other bytes stay as they were.
///
/// | columns, from 0 | content |
/// |---|---|
/// | 0 to 67 | as many spaces as the vertex is deep, its number in two digits, spaces |
/// | 68 to 78 | its imbalance, to the right |
/// | 79 to 89 | its potential, to the right |
/// | 90 to 94 | spaces |
/// | 95 | a newline |
///
/// Both figures are those of [`mover_evaluate`], a minus straight before the digits. All bytes are ASCII. Refuses by
/// 1 to 10, as that call does; a buffer under 96 × n bytes is 2.
///
/// ```
/// use weight_mover::calls::mover_write_page;
///
/// let (mut buffer, mut length) = ([b'.'; 200], 9);
/// let number = mover_write_page(
///     2, &[0], &[1], &[7], &[3, 1], &[0, 4], 0, &[0, 0], &mut buffer, &mut length,
/// );
/// assert_eq!((number, length), (0, 2 * 96));
/// let root = format!("{:68}{:>11}{:>11}     \n", "00", "0", "0");
/// let child = format!("{:68}{:>11}{:>11}     \n", " 01", "-3", "-7");
/// assert_eq!(buffer[..96], *root.as_bytes());
/// assert_eq!(buffer[96..192], *child.as_bytes());
/// assert_eq!(buffer[192..], [b'.'; 8]);
///
/// let before = buffer;
/// let number = mover_write_page(
///     2, &[0], &[1], &[7], &[3, 1], &[0, 4], 0, &[0, 0], &mut buffer[..191], &mut length,
/// );
/// assert_eq!((number, length, buffer), (2, 0, before));
/// ```
pub fn mover_write_page(
    n: usize,
    a: &[u32],
    b: &[u32],
    lengths: &[u32],
    mu: &[u64],
    nu: &[u64],
    root: usize,
    parents: &[u32],
    buffer: &mut [u8],
    length: &mut usize,
) -> u32 {
    unsafe {
        ffi::mover_write_page(
            n,
            a.as_ptr(),
            a.len(),
            b.as_ptr(),
            b.len(),
            lengths.as_ptr(),
            lengths.len(),
            mu.as_ptr(),
            mu.len(),
            nu.as_ptr(),
            nu.len(),
            root,
            parents.as_ptr(),
            parents.len(),
            buffer.as_mut_ptr(),
            buffer.len(),
            length,
        )
    }
}

/// Writes an image anew: what `image` holds, as [`mover_write_image`] writes it, into the start of `buffer`.
/// `length` becomes the length of what is written; the buffer's other bytes stay as they were.
///
/// Gaps and a tail are gone, and reading gives what it gave. What is written is never longer than `image`, and
/// writing it anew changes no byte. Refuses by 11, 12, 13, 1 and 2, as [`mover_read`] does, a buffer that is too
/// short coming last under 2.
///
/// ```
/// use weight_mover::calls::mover_rewrite;
/// use weight_mover::Patch;
///
/// let image = Patch::new(2).edge(0, 1, 7).mu(&[3, 1]).nu(&[0, 4]).image().expect("small numbers");
/// let mut longer = image.clone();
/// longer.extend([5, 5, 5]);
/// let (mut buffer, mut length) = ([9; 57], 9);
/// assert_eq!(mover_rewrite(&longer, &mut buffer, &mut length), 0);
/// assert_eq!((&buffer[..length], &buffer[length..]), (&image[..], &[9][..]));
/// assert_eq!(mover_rewrite(&longer, &mut buffer[..55], &mut length), 2);
/// assert_eq!((&buffer[..56], length), (&image[..], 0));
/// ```
pub fn mover_rewrite(image: &[u8], buffer: &mut [u8], length: &mut usize) -> u32 {
    unsafe {
        ffi::mover_rewrite(
            image.as_ptr(),
            image.len(),
            buffer.as_mut_ptr(),
            buffer.len(),
            length,
        )
    }
}

/// Evaluates the tree of an image, or finds the best answer for one without a tree.
///
/// Fills the first [`record_size`](crate::record_size) bytes of `record`, which
/// [`Answer::from_record`](crate::Answer::from_record) reads. Checks run in the order 11, 12, 13 and then 1
/// to 10, without a tree to 7.
///
/// ```
/// use weight_mover::{calls::mover_run, record_size, Answer, Patch};
///
/// let image = Patch::new(2).edge(0, 1, 7).mu(&[3, 1]).nu(&[0, 4]).image().expect("small numbers");
/// let mut record = [0; record_size(2)];
/// assert_eq!(mover_run(&image, &mut record), 0);
/// assert_eq!(Answer::from_record(2, &record).cost, 21);
/// ```
pub fn mover_run(image: &[u8], record: &mut [u8]) -> u32 {
    unsafe { ffi::mover_run(image.as_ptr(), image.len(), record.as_mut_ptr(), record.len()) }
}

/// Reports on an image sequence: fills the first 24 places of `tally`, place k with how many images have the
/// number k, and tells how many were `accepted`, which is place 0, the `sum` of their costs, the `greatest` cost
/// and the `first` image that has it, counted from 0.
///
/// A reel is a count of two bytes, then for each image its offset and length, four bytes each, and then the images
/// in this order; all is little-endian, and offsets count from the reel's first byte. There may be anything between
/// the images and behind them, and the reel may have any size. An image's number is what [`mover_run`] returns for
/// it with room enough for its record, and its cost is the one there: the tree's, or the best. If no image was
/// accepted, `sum` and `greatest` are 0 and `first` is the count.
///
/// Refuses by 14, if the reel ends before its count or directory does, or an image starts inside the directory or
/// before its forerunner's end, or ends past the reel; and then by 2, if `tally` has under 24 places.
///
/// ```
/// use weight_mover::{calls::mover_report, pack, Patch};
///
/// let patch = Patch::new(2).edge(0, 1, 7).mu(&[3, 1]).nu(&[0, 4]);
/// let image = patch.image().expect("small numbers");
/// // Byte 1 of an image is 0.
/// let mut damaged = image.clone();
/// damaged[1] = 1;
/// let reel = pack([&damaged, &image, &image]).expect("three small images");
/// let (mut tally, mut accepted, mut sum, mut greatest, mut first) = ([9; 25], 9, 9, 9, 9);
/// let number = mover_report(&reel, &mut tally, &mut accepted, &mut sum, &mut greatest, &mut first);
/// assert_eq!((number, accepted, sum, greatest, first), (0, 2, 42, 21, 1));
/// assert_eq!((tally[0], tally[13], tally[24]), (2, 1, 9));
///
/// let number = mover_report(&reel[1..], &mut [], &mut accepted, &mut sum, &mut greatest, &mut first);
/// assert_eq!((number, accepted, sum, greatest, first), (14, 0, 0, 0, 0));
/// ```
pub fn mover_report(
    reel: &[u8],
    tally: &mut [u32],
    accepted: &mut u32,
    sum: &mut u64,
    greatest: &mut u64,
    first: &mut usize,
) -> u32 {
    unsafe {
        ffi::mover_report(
            reel.as_ptr(),
            reel.len(),
            tally.as_mut_ptr(),
            tally.len(),
            accepted,
            sum,
            greatest,
            first,
        )
    }
}

/// The tree with a root and a list of parents, of which nothing is examined: the first n places are taken
/// (64 at most, and no more than there are), and every other place holds 0.
///
/// ```
/// use weight_mover::calls::mover_tree_new;
///
/// let tree = mover_tree_new(3, 1, &[1, 1, 0, 7]);
/// assert_eq!((tree.n, tree.root, &tree.parents[..4]), (3, 1, &[1, 1, 0, 0][..]));
/// ```
pub fn mover_tree_new(n: usize, root: usize, parents: &[u32]) -> Tree {
    unsafe { ffi::mover_tree_new(n, root, parents.as_ptr(), parents.len()) }
}

/// The number of edges from v up to the root; 0 if v is no vertex or this is no tree.
///
/// ```
/// use weight_mover::calls::{mover_tree_depth, mover_tree_new};
///
/// let tree = mover_tree_new(3, 1, &[1, 1, 0]);
/// assert_eq!([0, 1, 2, 3].map(|v| mover_tree_depth(tree, v)), [1, 0, 2, 0]);
/// ```
pub fn mover_tree_depth(tree: Tree, v: usize) -> u32 {
    unsafe { ffi::mover_tree_depth(tree, v) }
}

/// The parent of v, the root's being the root; 64 if v is no vertex or this is no tree.
///
/// ```
/// use weight_mover::calls::{mover_tree_new, mover_tree_parent};
///
/// let tree = mover_tree_new(3, 1, &[1, 1, 0]);
/// assert_eq!([0, 1, 2, 3].map(|v| mover_tree_parent(tree, v)), [1, 1, 0, 64]);
/// ```
pub fn mover_tree_parent(tree: Tree, v: usize) -> u32 {
    unsafe { ffi::mover_tree_parent(tree, v) }
}

/// The vertices that are v or below it, bit y for vertex y; 0 if v is no vertex or this is no tree.
///
/// ```
/// use weight_mover::calls::{mover_tree_new, mover_tree_subtree};
///
/// let tree = mover_tree_new(3, 1, &[1, 1, 0]);
/// assert_eq!([0, 1, 2, 3].map(|v| mover_tree_subtree(tree, v)), [0b101, 0b111, 0b100, 0]);
/// ```
pub fn mover_tree_subtree(tree: Tree, v: usize) -> u64 {
    unsafe { ffi::mover_tree_subtree(tree, v) }
}
