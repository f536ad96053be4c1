//! The refusal numbers: the checks of the specification in their order.

use crate::problem::{Edge, Problem, Tree, HEADER};

/// The greatest total of a measure.
pub const MAX_TOTAL: u64 = 16_777_216;

/// Bytes of the record for n vertices.
pub fn record_size(n: usize) -> usize {
    4 * n * n + 5 * n + 13
}

/// The accepted problem in an image, or the number of its refusal.
pub fn accept(image: &[u8], record_len: usize) -> Result<Problem, u32> {
    let problem = read(image, |n, _| record_len >= record_size(n))?;
    check_graph(&problem)?;
    check_measures(&problem)?;
    check_tree(&problem)?;
    Ok(problem)
}

pub(crate) fn refuse_if(number: u32, condition: bool) -> Result<(), u32> {
    if condition {
        Err(number)
    } else {
        Ok(())
    }
}

pub(crate) fn number(bytes: &[u8]) -> u64 {
    bytes.iter().rev().fold(0, |value, &b| value * 256 + b as u64)
}

/// Checks 11, 12, 13, 1 and 2, and the numbers of the image.
///
/// `room` says for n and m whether the answer fits into what is lent.
pub fn read(image: &[u8], room: impl Fn(usize, usize) -> bool) -> Result<Problem, u32> {
    refuse_if(11, image.len() < HEADER || image.len() > 65_536)?;

    let n = image[0] as usize;
    let m = number(&image[2..4]) as usize;
    let mut sections: Vec<(u64, u64)> = Vec::new();
    for pair in image[4..HEADER].chunks(8) {
        sections.push((number(&pair[..4]), number(&pair[4..])));
    }
    let mut end = HEADER as u64;
    for &(offset, length) in &sections {
        refuse_if(12, offset < end || offset + length > image.len() as u64)?;
        end = offset + length;
    }

    let lengths: Vec<usize> = sections.iter().map(|s| s.1 as usize).collect();
    refuse_if(13, image[1] != 0)?;
    refuse_if(13, lengths[0] != 4 * m)?;
    refuse_if(13, lengths[1] != 4 * n || lengths[2] != 4 * n)?;
    refuse_if(13, lengths[3] != 0 && lengths[3] != n + 1)?;

    refuse_if(1, n == 0 || n > 64)?;
    refuse_if(2, m > 512 || !room(n, m))?;

    let section = |k: usize| &image[sections[k].0 as usize..][..lengths[k]];
    let edges = section(0).chunks(4).map(|e| Edge {
        a: e[0] as usize,
        b: e[1] as usize,
        length: number(&e[2..4]),
    });
    let tree = section(3).split_first().map(|(&root, parents)| Tree {
        root: root as usize,
        parents: parents.iter().map(|&p| p as usize).collect(),
    });
    Ok(Problem {
        n,
        edges: edges.collect(),
        mu: section(1).chunks(4).map(number).collect(),
        nu: section(2).chunks(4).map(number).collect(),
        tree,
    })
}

/// Checks 3, 4 and 5.
pub fn check_graph(problem: &Problem) -> Result<(), u32> {
    let Problem { n, edges, .. } = problem;
    refuse_if(3, edges.iter().any(|e| e.b >= *n || e.a >= e.b))?;
    let rising = |pair: &[Edge]| (pair[0].a, pair[0].b) < (pair[1].a, pair[1].b);
    refuse_if(3, !edges.windows(2).all(rising))?;
    refuse_if(4, edges.iter().any(|e| e.length > 65_535))?;

    let mut component: Vec<usize> = (0..*n).collect();
    for e in edges {
        let (old, new) = (component[e.a], component[e.b]);
        for c in &mut component {
            if *c == old {
                *c = new;
            }
        }
    }
    refuse_if(5, component.iter().any(|&c| c != component[0]))
}

fn total(list: &[u64]) -> u128 {
    list.iter().map(|&x| u128::from(x)).sum()
}

/// Checks 6 and 7.
pub fn check_measures(problem: &Problem) -> Result<(), u32> {
    let (mu, nu) = (total(&problem.mu), total(&problem.nu));
    refuse_if(6, mu.max(nu) > u128::from(MAX_TOTAL))?;
    refuse_if(7, mu != nu)
}

/// Check 6, of one measure.
pub fn check_painting(amounts: &[u64]) -> Result<(), u32> {
    refuse_if(6, total(amounts) > u128::from(MAX_TOTAL))
}

/// Check 17.
pub fn check_start(n: usize, start: usize) -> Result<(), u32> {
    refuse_if(17, start >= n)
}

/// Checks 8, 9 and 10, where there is a tree.
pub fn check_tree(problem: &Problem) -> Result<(), u32> {
    let Some(tree) = &problem.tree else {
        return Ok(());
    };
    check_parents(problem.n, tree)?;
    let on_edge = |x: usize| x == tree.root || problem.length(x, tree.parents[x]).is_some();
    refuse_if(9, !(0..problem.n).all(on_edge))?;
    check_chains(problem.n, tree)
}

/// Check 8, of n parents.
pub fn check_parents(n: usize, Tree { root, parents }: &Tree) -> Result<(), u32> {
    refuse_if(8, *root >= n || parents.iter().any(|&p| p >= n))?;
    refuse_if(8, parents[*root] != *root)?;
    refuse_if(8, (0..n).any(|x| x != *root && parents[x] == x))
}

/// Check 10, of parents that pass check 8.
pub fn check_chains(n: usize, Tree { root, parents }: &Tree) -> Result<(), u32> {
    // A chain that has not met the root after n steps runs in a cycle.
    let reaches = |x: usize| (0..n).fold(x, |y, _| parents[y]) == *root;
    refuse_if(10, !(0..n).all(reaches))
}
