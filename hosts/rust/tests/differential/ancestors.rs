//! The climb that marks a vertex in the words of its ancestors, on trees and on what is none.

use crate::lent::{Draw, Lent};
use crate::trees::{asked, damaged, sound_tree, Damage, DAMAGES};
use crate::{ensure, pass};
use reference::random::Random;
use reference::runs::{cases, seed};
use reference::tree::{marked, told};
use weight_mover::calls::{mover_mark_ancestors, mover_tree_subtree};
use weight_mover::Tree;

/// The call under test, or one made wrong on purpose.
type Mark<'a> = &'a dyn Fn(usize, usize, &[u32], usize, &mut [u64]) -> u32;

/// What a climb is given.
#[derive(Clone, Debug)]
struct Climb {
    n: usize,
    root: usize,
    parents: Vec<u32>,
    y: usize,
    words: Vec<u64>,
}

impl Climb {
    /// A climb on a tree by value, of whose parents there are 64 at most.
    fn new(tree: &Tree, y: usize, words: Vec<u64>) -> Climb {
        Climb {
            n: tree.n,
            root: tree.root,
            parents: tree.parents.iter().copied().take(tree.n).collect(),
            y,
            words,
        }
    }
}

fn words(random: &mut Random, places: usize) -> Vec<u64> {
    (0..places).map(|_| u64::draw(random)).collect()
}

/// Makes a climb; its number and the words after it.
fn try_climb(mark: Mark, random: &mut Random, climb: &Climb) -> Result<(u32, Vec<u64>), String> {
    let exact = random.chance(2);
    let parents = Lent::new(random, &climb.parents, exact);
    let mut lent = Lent::new(random, &climb.words, exact);
    let number = mark(
        climb.n,
        climb.root,
        parents.content(),
        climb.y,
        lent.content_mut(),
    );
    let expected = marked(climb.n, climb.root, &climb.parents, climb.y, &climb.words);
    let right = match &expected {
        Ok(words) => number == 0 && lent.content() == words,
        Err(refusal) => number == *refusal && lent.is_as_lent(),
    };
    ensure(right, || {
        let got = lent.content();
        format!("{climb:?}: expected {expected:?}, but got {number} and {got:?}")
    })?;
    ensure(parents.is_as_lent() && lent.guards_are_whole(), || {
        format!("{climb:?}: parents or places round a table were changed")
    })?;
    Ok((number, lent.content().to_vec()))
}

/// Climbs from all vertices in any order on words of 0, and again from some: they gather the subtrees.
fn climb_all(random: &mut Random) -> Result<Tree, String> {
    let tree = sound_tree(random);
    let mut climb = Climb::new(&tree, 0, vec![0; tree.n]);
    let rest = random.pick(&[0, 0, 1, 50]);
    climb.words.extend(words(random, rest));
    let mut order: Vec<usize> = (0..tree.n).collect();
    random.shuffle(&mut order);
    for (k, &y) in order.iter().enumerate() {
        climb.y = y;
        climb.words = try_climb(&mover_mark_ancestors, random, &climb)?.1;
        climb.y = order[random.index(k + 1)];
        let again = try_climb(&mover_mark_ancestors, random, &climb)?.1;
        ensure(again == climb.words, || format!("{climb:?}, again: {again:?}"))?;
    }
    for (x, &word) in climb.words[..tree.n].iter().enumerate() {
        let defined = told(tree.n, tree.root, &tree.parents, x).2;
        let subtree = mover_tree_subtree(tree, x);
        ensure(word == defined && word == subtree, || {
            format!("vertex {x} of {tree:?}: {word:x}, {defined:x}, {subtree:x}")
        })?;
    }
    Ok(tree)
}

#[test]
fn climbs_in_any_order() {
    let (seed, count) = (seed(), cases(3_000));
    let climb = |index: u64| pass(climb_all(&mut Random::for_case(seed, index)));
    let vertices: usize = (0..count).map(|index| climb(index).n).sum();
    println!("climbs in any order: seed {seed}, {count} trees, {vertices} vertices");
}

/// A climb on any words, from any number; the tree perhaps damaged, or a list too long or too short.
fn any_climb(index: u64, random: &mut Random) -> Option<Climb> {
    let damage = match index % 2 {
        0 => Damage::None,
        _ => DAMAGES[index as usize / 2 % DAMAGES.len()],
    };
    let tree = damaged(random, damage)?;
    let from: Vec<usize> = asked(tree.n).collect();
    let most = tree.n.min(70);
    let places = most + random.pick(&[0, 0, 1, 50]);
    let words = words(random, places);
    let mut climb = Climb::new(&tree, random.pick(&from), words);
    match random.below(12) {
        0 => climb.parents.truncate(most.saturating_sub(1)),
        1 => climb.parents.push(random.below(66) as u32),
        2 => climb.words.truncate(most.saturating_sub(1)),
        3 => {
            climb.parents.truncate(random.index(66));
            climb.words.truncate(random.index(66));
        }
        _ => {}
    }
    Some(climb)
}

/// Bits are added to what is there, from what is no vertex none, and the call's own numbers come up alone.
#[test]
fn climbs_on_any_words() {
    let (seed, count) = (seed(), cases(20_000));
    let (mut numbers, mut outside) = ([0; 14], 0);
    for index in 0..count {
        let random = &mut Random::for_case(seed, index);
        let Some(climb) = any_climb(index, random) else {
            continue;
        };
        let (number, after) = pass(try_climb(&mover_mark_ancestors, random, &climb));
        numbers[number as usize] += 1;
        if climb.y >= climb.n {
            assert_eq!(after, climb.words);
            outside += u64::from(number == 0);
        }
    }
    println!("climbs on any words: seed {seed}, numbers {numbers:?}, accepted and from no vertex {outside}");
    let own = |k: usize| [0, 1, 2, 8, 10].contains(&k);
    assert!((0..14).all(|k| own(k) || numbers[k] == 0), "{numbers:?}");
    let every = (0..14).filter(|&k| own(k)).all(|k| numbers[k] > 0);
    assert!(count < 2_000 || every && outside > 0, "{numbers:?}");
}

/// Every list of parents of up to four vertices under every root, one number beyond included, from every vertex
/// and one beyond.
#[test]
fn all_small_climbs() {
    let random = &mut Random::new(seed());
    let mut accepted = 0;
    for n in 1..5usize {
        for code in 0..(n + 1).pow(n as u32) {
            let digit = |x: usize| (code / (n + 1).pow(x as u32) % (n + 1)) as u32;
            for (root, y) in (0..=n).flat_map(|root| (0..=n).map(move |y| (root, y))) {
                let climb = Climb {
                    n,
                    root,
                    parents: (0..n).map(digit).collect(),
                    y,
                    words: words(random, n),
                };
                let (number, _) = pass(try_climb(&mover_mark_ancestors, random, &climb));
                accepted += u64::from(number == 0);
            }
        }
    }
    // Cayley: there are n^(n-2) trees on n vertices, n roots for each, n + 1 numbers to climb from.
    assert_eq!(accepted, 2 + 2 * 3 + 9 * 4 + 64 * 5);
}

/// Climbs up a line from its end, for n on both sides of its bounds; either list may be too long or too short.
#[test]
fn lists_of_other_lengths() {
    let random = &mut Random::new(seed());
    let mut accepted = 0;
    for n in (0..71).chain([1 << 8 | 4, 1 << 32 | 4, usize::MAX]) {
        let most = n.min(70);
        let lengths = [0, 1, most.saturating_sub(1), most, most + 1, 80];
        for (parents, places) in lengths.into_iter().flat_map(|p| lengths.map(|w| (p, w))) {
            let climb = Climb {
                n,
                root: 0,
                parents: (0..parents as u32).map(|x| x.saturating_sub(1)).collect(),
                y: n.saturating_sub(1),
                words: words(random, places),
            };
            let (number, _) = pass(try_climb(&mover_mark_ancestors, random, &climb));
            accepted += u64::from(number == 0);
        }
    }
    // Of one vertex eight times: 1 stands twice among the lengths.
    assert_eq!(accepted, 8 + 63 * 3);
}

/// The library, and then something else with the words as they were and as they are.
fn then(
    change: impl Fn(&Climb, u32, &mut [u64]) -> u32,
) -> impl Fn(usize, usize, &[u32], usize, &mut [u64]) -> u32 {
    move |n, root, parents, y, words| {
        let climb = Climb {
            n,
            root,
            parents: parents.to_vec(),
            y,
            words: words.to_vec(),
        };
        let number = mover_mark_ancestors(n, root, parents, y, words);
        change(&climb, number, words)
    }
}

/// The same where the library accepts and y is a vertex.
fn on_success(
    change: impl Fn(&Climb, &mut [u64]),
) -> impl Fn(usize, usize, &[u32], usize, &mut [u64]) -> u32 {
    then(move |climb, number, words| {
        if number == 0 && climb.y < climb.n {
            change(climb, words);
        }
        number
    })
}

/// The tests above can fail: climbs that go another way are caught.
#[test]
fn wrong_climbs_are_caught() {
    let wrong: [(&str, Mark); 16] = [
        (
            "nothing is marked",
            &on_success(|c, words| words.copy_from_slice(&c.words)),
        ),
        (
            "a vertex is not below itself",
            &on_success(|c, words| words[c.y] = c.words[c.y]),
        ),
        (
            "the root is left out",
            &on_success(|c, words| words[c.root] = c.words[c.root]),
        ),
        (
            "no further than the parent",
            &on_success(|c, words| {
                let kept = [c.y, c.parents[c.y] as usize].map(|x| (x, words[x]));
                words.copy_from_slice(&c.words);
                kept.into_iter().for_each(|(x, word)| words[x] = word);
            }),
        ),
        (
            "the bit of the ancestor",
            &on_success(|c, words| {
                let met: Vec<usize> = (0..c.n).filter(|&x| words[x] != c.words[x]).collect();
                words.copy_from_slice(&c.words);
                met.into_iter().for_each(|x| words[x] |= 1 << x);
            }),
        ),
        (
            "words of the bit alone",
            &on_success(|c, words| {
                words
                    .iter_mut()
                    .zip(&c.words)
                    .filter(|(word, before)| word != before)
                    .for_each(|(word, _)| *word = 1 << c.y)
            }),
        ),
        (
            "bits turned round",
            &on_success(|c, words| words[c.y] = c.words[c.y] ^ 1 << c.y),
        ),
        (
            "words from n on cleared",
            &on_success(|c, words| words[c.n..].fill(0)),
        ),
        ("vertex 64 is 0", &|n, root, parents, y, words| {
            mover_mark_ancestors(n, root, parents, y % 64, words)
        }),
        (
            "no vertex is refused 8",
            &then(|c, number, _| if number == 0 && c.y >= c.n { 8 } else { number }),
        ),
        (
            "no vertex needs no checks",
            &then(|c, number, _| if c.y < c.n { number } else { 0 }),
        ),
        ("a list longer than n is cut", &|n, root, parents, y, words| {
            mover_mark_ancestors(n, root, &parents[..parents.len().min(n)], y, words)
        }),
        (
            "words longer than n are refused",
            &then(|c, number, words| match number == 0 && words.len() > c.n {
                true => {
                    words.copy_from_slice(&c.words);
                    2
                }
                false => number,
            }),
        ),
        (
            "8 before 2",
            &then(|c, number, _| if number == 2 && c.root >= c.n { 8 } else { number }),
        ),
        (
            "10 for 8",
            &then(|_, number, _| if number == 8 { 10 } else { number }),
        ),
        (
            "a refused climb writes",
            &then(|_, number, words| {
                if let (8 | 10, Some(word)) = (number, words.first_mut()) {
                    *word ^= 1;
                }
                number
            }),
        ),
    ];
    for (name, mark) in wrong {
        let mut caught = 0;
        for index in 0..1_000 {
            let random = &mut Random::for_case(1, index);
            let climb = any_climb(index, random);
            caught += u64::from(climb.is_some_and(|climb| try_climb(mark, random, &climb).is_err()));
        }
        println!("wrong on purpose, climb, {name}: caught {caught} times");
        assert!(caught > 0, "\"{name}\" was never caught");
    }
}
