//! The tree by value and its methods, on trees and on what is none.

use crate::{ensure, pass};
use reference::random::{self, Lengths, Random};
use reference::runs::{cases, seed};
use reference::tree::told;
use weight_mover::calls::{mover_tree_depth, mover_tree_new, mover_tree_parent, mover_tree_subtree};
use weight_mover::Tree;

/// The three methods, or ones made wrong on purpose.
type Methods<'a> = &'a dyn Fn(Tree, usize) -> (u32, u32, u64);

fn library(tree: Tree, v: usize) -> (u32, u32, u64) {
    (
        mover_tree_depth(tree, v),
        mover_tree_parent(tree, v),
        mover_tree_subtree(tree, v),
    )
}

/// Vertices to ask for: all there can be, and some that there cannot.
pub fn asked(n: usize) -> impl Iterator<Item = usize> {
    let beyond = [n, 63, 64, 65, 1 << 8, 1 << 32, 1 << 63, usize::MAX];
    (0..n.min(66)).chain(beyond)
}

/// Asks a tree for every vertex; says how many it knew.
fn try_tree(methods: Methods, tree: Tree) -> Result<u64, String> {
    let mut known = 0;
    for v in asked(tree.n) {
        let expected = told(tree.n, tree.root, &tree.parents, v);
        let got = methods(tree, v);
        ensure(got == expected, || {
            format!("vertex {v} of {tree:?}: expected {expected:?}, but got {got:?}")
        })?;
        known += u64::from(got.1 < 64);
    }
    Ok(known)
}

/// A tree as one comes out of the calls.
pub fn sound_tree(random: &mut Random) -> Tree {
    let n = random.between(1, 64) as usize;
    let edges = random::connected(random, n, 2 * n, Lengths::Unit);
    let tree = random::spanning_tree(random, n, &edges);
    let parents: Vec<u32> = tree.parents.iter().map(|&p| p as u32).collect();
    mover_tree_new(n, tree.root, &parents)
}

/// How a tree may be damaged.
#[derive(Clone, Copy, Debug, PartialEq, Eq)]
pub enum Damage {
    None,
    /// Places from n on, which do not count.
    Rest,
    Cycle,
    SecondRoot,
    RootHasParent,
    RootOutside,
    ParentOutside,
    /// More than sixty-four vertices.
    TooMany,
    /// No vertices.
    Empty,
    /// One vertex less: there are still parents, and perhaps the root, beyond.
    Shorter,
    /// Any parents whatever.
    Arbitrary,
}

pub const DAMAGES: [Damage; 11] = [
    Damage::None,
    Damage::Rest,
    Damage::Cycle,
    Damage::SecondRoot,
    Damage::RootHasParent,
    Damage::RootOutside,
    Damage::ParentOutside,
    Damage::TooMany,
    Damage::Empty,
    Damage::Shorter,
    Damage::Arbitrary,
];

/// A tree with this damage, or none if the drawn one has no room for it.
pub fn damaged(random: &mut Random, damage: Damage) -> Option<Tree> {
    let mut tree = sound_tree(random);
    let n = tree.n;
    let x = random.index(n);
    let is_root = x == tree.root;
    match damage {
        Damage::None => {}
        Damage::Rest => tree.parents[n..]
            .iter_mut()
            .for_each(|p| *p = random.word() as u32),
        Damage::Cycle => {
            // Some vertex above x, not the root, hangs on x.
            let mut above = x;
            while random.chance(2) && tree.parents[above] as usize != tree.root {
                above = tree.parents[above] as usize;
            }
            if is_root || above == x {
                return None;
            }
            tree.parents[above] = x as u32;
        }
        Damage::SecondRoot if !is_root => tree.parents[x] = x as u32,
        Damage::RootHasParent if !is_root => tree.parents[tree.root] = x as u32,
        Damage::RootOutside => {
            tree.root = random.pick(&[n, 64, tree.root | 1 << 8, tree.root | 1 << 32, usize::MAX]);
        }
        Damage::ParentOutside => {
            let parent = tree.parents[x];
            tree.parents[x] = random.pick(&[n as u32, 64, parent | 1 << 8, parent | 1 << 16, u32::MAX]);
        }
        Damage::TooMany => tree.n = random.pick(&[65, 128, n | 1 << 8, n | 1 << 32, usize::MAX]),
        Damage::Empty => tree.n = 0,
        Damage::Shorter => tree.n -= 1,
        Damage::Arbitrary => tree.parents[..n]
            .iter_mut()
            .for_each(|p| *p = random.below(n as u64 + 1) as u32),
        _ => return None,
    }
    Some(tree)
}

/// Every damage, and what is left of the methods: nothing, unless it did no harm.
#[test]
fn damaged_trees() {
    let seed = seed();
    let count = cases(3_000);
    for damage in DAMAGES {
        let (mut tried, mut known) = (0, 0);
        for index in 0..count {
            let random = &mut Random::for_case(seed, index);
            if let Some(tree) = damaged(random, damage) {
                tried += 1;
                known += pass(try_tree(&library, tree));
            }
        }
        println!("trees, {damage:?}: seed {seed}, {tried} trees, {known} vertices known");
        assert!(count < 50 || tried > 0);
        match damage {
            Damage::None | Damage::Rest => assert!(known >= tried),
            Damage::Shorter | Damage::Arbitrary => {}
            _ => assert_eq!(known, 0),
        }
    }
}

/// Every list of parents of up to four vertices under every root, one number beyond included.
#[test]
fn all_small_trees() {
    let mut known = 0;
    for n in 1..5usize {
        for code in 0..(n + 1).pow(n as u32) {
            let digit = |x: usize| (code / (n + 1).pow(x as u32) % (n + 1)) as u32;
            let parents: Vec<u32> = (0..n).map(digit).collect();
            for root in 0..=n {
                known += pass(try_tree(&library, mover_tree_new(n, root, &parents)));
            }
        }
    }
    // Cayley: there are n^(n-2) trees on n vertices, n roots for each, n vertices in each.
    assert_eq!(known, 1 + 4 + 27 + 4 * 4 * 16);
}

type New<'a> = &'a dyn Fn(usize, usize, &[u32]) -> Tree;

/// Makes a tree of any numbers. They are held as they are: the first n parents, as far as there are any, and
/// zeros.
fn try_new(new: New, random: &mut Random) -> Result<Tree, String> {
    let near = random.chance(2);
    let parents: Vec<u32> = (0..random.index(100))
        .map(|_| match near {
            true => random.below(70) as u32,
            false => random.word() as u32,
        })
        .collect();
    let mut number = || match random.below(4) {
        0 => random.word() as usize,
        _ => random.index(80),
    };
    let (n, root) = (number(), number());
    let tree = new(n, root, &parents);
    let taken = n.min(parents.len());
    let held = |x: usize| if x < taken { parents[x] } else { 0 };
    let right = (tree.n, tree.root) == (n, root) && (0..64).all(|x| tree.parents[x] == held(x));
    ensure(right, || {
        format!("{n} vertices, root {root}, {parents:?}: {tree:?}")
    })?;
    Ok(tree)
}

#[test]
fn trees_of_any_list() {
    let seed = seed();
    for index in 0..cases(20_000) {
        let tree = pass(try_new(&mover_tree_new, &mut Random::for_case(seed, index)));
        pass(try_tree(&library, tree));
    }
}

/// The test above can fail: trees that are made otherwise are caught.
#[test]
fn wrong_trees_are_caught() {
    let wrong: [(&str, New); 5] = [
        ("all parents taken", &|n, root, parents| {
            let mut tree = mover_tree_new(64, root, parents);
            tree.n = n;
            tree
        }),
        ("n cut to 64", &|n, root, parents| {
            mover_tree_new(n.min(64), root, parents)
        }),
        ("root cut to 32 bits", &|n, root, parents| {
            mover_tree_new(n, root as u32 as usize, parents)
        }),
        ("missing parents 64", &|n, root, parents| {
            let mut tree = mover_tree_new(n, root, parents);
            let taken = parents.len().min(n).min(64);
            tree.parents[taken..].fill(64);
            tree
        }),
        ("parents examined", &|n, root, parents| {
            let examined: Vec<u32> = parents.iter().map(|&p| p.min(64)).collect();
            mover_tree_new(n, root, &examined)
        }),
    ];
    for (name, new) in wrong {
        let caught = (0..1_000).filter(|&index| try_new(new, &mut Random::for_case(1, index)).is_err());
        let caught = caught.count();
        println!("wrong on purpose, new tree, {name}: caught {caught} times");
        assert!(caught > 0, "\"{name}\" was never caught");
    }
}

type Wrong = fn(Tree, usize) -> (u32, u32, u64);

/// Methods that are wrong.
const WRONG_METHODS: [(&str, Wrong); 9] = [
    ("nothing is ever known", |_, _| (0, 64, 0)),
    ("depth counts vertices", |tree, v| {
        let (depth, parent, word) = library(tree, v);
        (depth + u32::from(parent < 64), parent, word)
    }),
    ("the root has no parent", |tree, v| {
        let (depth, parent, word) = library(tree, v);
        (depth, if v == tree.root { 64 } else { parent }, word)
    }),
    ("a vertex is not below itself", |tree, v| {
        let (depth, parent, word) = library(tree, v);
        (depth, parent, word & !(1u64.checked_shl(v as u32).unwrap_or(0)))
    }),
    ("children alone are below", |tree, v| {
        let (depth, parent, word) = library(tree, v);
        let children = (0..tree.n.min(64)).filter(|&y| y == v || tree.parents[y] as usize == v);
        let children = children.map(|y| 1u64 << y).sum::<u64>();
        (depth, parent, word & children)
    }),
    ("parents are not examined", |tree, v| {
        let parent = tree.parents.get(v).filter(|_| v < tree.n);
        let (depth, _, word) = library(tree, v);
        (depth, parent.copied().unwrap_or(64), word)
    }),
    ("all sixty-four places count", |tree, v| {
        let sound = tree.parents.iter().all(|&p| (p as usize) < tree.n);
        if sound {
            library(tree, v)
        } else {
            (0, 64, 0)
        }
    }),
    ("vertex 64 is 0", |tree, v| library(tree, v % 64)),
    ("n above 64 is 64", |mut tree, v| {
        tree.n = tree.n.min(64);
        library(tree, v)
    }),
];

/// The tests above can fail: wrong methods are caught.
#[test]
fn wrong_methods_are_caught() {
    for (name, wrong) in WRONG_METHODS {
        let mut caught = 0;
        for index in 0..1_000 {
            let random = &mut Random::for_case(1, index);
            let damage = DAMAGES[index as usize % DAMAGES.len()];
            let tree = damaged(random, damage);
            caught += u64::from(tree.is_some_and(|tree| try_tree(&wrong, tree).is_err()));
        }
        println!("wrong on purpose, tree, {name}: caught {caught} times");
        assert!(caught > 0, "\"{name}\" was never caught");
    }
}
