//! The page of a tree: by hand, and by the definitions.

use reference::page::{line, page, preorder, LINE};
use reference::random::Random;
use reference::random_lists::sound_problem;
use reference::random_pages::{first_number, printable, unprintable, Given, UNPRINTABLE};
use reference::tree::evaluate;
use reference::{Lists, Problem, Tree};

/// 2 is the root, 0 and 3 are below it, 4 and 1 below 3. The edge from 4 to 3 carries nothing.
fn small() -> Lists {
    let edges = [(0, 2, 10), (0, 4, 1), (1, 3, 300), (2, 3, 5), (3, 4, 7)];
    let (mu, nu) = ([12, 0, 0, 1, 6], [0, 11, 2, 0, 6]);
    Lists::of(&Problem::new(5, &edges, &mu, &nu).with_tree(2, &[2, 3, 2, 2, 3]))
}

const PAGE: &str = "\
02                                                                            0          0     \n\
\u{20}00                                                                          12         10     \n\
\u{20}03                                                                         -10         -5     \n\
\u{20} 01                                                                        -11       -305     \n\
\u{20} 04                                                                          0         -5     \n";

#[test]
fn page_by_hand() {
    assert_eq!(PAGE.len(), 5 * LINE);
    assert_eq!(page(&small(), 5 * LINE), Ok(PAGE.into()));
    assert_eq!(page(&small(), usize::MAX), Ok(PAGE.into()));
    assert_eq!(page(&small(), 5 * LINE - 1), Err(2));
    assert_eq!(page(&small(), 0), Err(2));
}

#[test]
fn lines_by_hand() {
    let spaces = |count: usize| " ".repeat(count);
    assert_eq!(
        line(7, 0, 0, 0),
        format!("07{}0{}0{}\n", spaces(76), spaces(10), spaces(5))
    );
    let (most, highest) = (16_777_216, 63 * 65_535);
    assert_eq!(
        line(63, 63, -most, -highest),
        format!(
            "{}63{}-16777216{}-4128705{}\n",
            spaces(63),
            spaces(5),
            spaces(3),
            spaces(5)
        )
    );
    assert_eq!(line(10, 1, most, highest).len(), LINE);
}

/// The number for the small tree with something changed.
fn refused(change: impl FnOnce(&mut Lists)) -> Result<String, u32> {
    let mut lists = small();
    change(&mut lists);
    page(&lists, 5 * LINE)
}

#[test]
fn refusals_by_hand() {
    assert_eq!(refused(|l| l.n = 0), Err(1));
    assert_eq!(refused(|l| l.n = 65), Err(1));
    assert_eq!(refused(|l| l.n = 6), Err(2));
    assert_eq!(refused(|l| l.parents.truncate(4)), Err(2));
    assert_eq!(refused(|l| l.a.swap(0, 3)), Err(3));
    assert_eq!(refused(|l| l.lengths[4] = 65_536), Err(4));
    assert_eq!(refused(|l| (l.a[2], l.b[2]) = (0, 5)), Err(3));
    assert_eq!(refused(|l| (l.a[2], l.b[2]) = (0, 3)), Err(3));
    let lone = |l: &mut Lists| {
        for list in [&mut l.a, &mut l.b, &mut l.lengths] {
            list.remove(2);
        }
    };
    assert_eq!(refused(lone), Err(5));
    assert_eq!(refused(|l| l.nu[2] = 16_777_217), Err(6));
    assert_eq!(refused(|l| l.nu[2] = 3), Err(7));
    assert_eq!(refused(|l| l.root = 3), Err(8));
    assert_eq!(refused(|l| l.parents[1] = 0), Err(9));
    assert_eq!(refused(|l| (l.parents[1], l.parents[3]) = (3, 1)), Err(10));
}

/// The vertices from the root down to this one.
fn way_down(tree: &Tree, x: usize) -> Vec<usize> {
    let mut way = match x == tree.root {
        true => vec![],
        false => way_down(tree, tree.parents[x]),
    };
    way.push(x);
    way
}

/// Preorder by rising number is the order of the ways down, as words are ordered; the depth is the way's length.
fn by_ways_down(tree: &Tree) -> Vec<(usize, usize)> {
    let mut ways: Vec<Vec<usize>> = (0..tree.parents.len()).map(|x| way_down(tree, x)).collect();
    ways.sort();
    let end = |way: &Vec<usize>| (*way.last().expect("a vertex"), way.len() - 1);
    ways.iter().map(end).collect()
}

#[test]
fn order_by_ways_down() {
    let random = &mut Random::new(13);
    for _ in 0..2_000 {
        let problem = sound_problem(random);
        let tree = problem.tree.as_ref().expect("a tree");
        let order = by_ways_down(tree);
        assert_eq!(preorder(tree), order);
        let evaluation = evaluate(&problem, tree);
        let page = page(&Lists::of(&problem), LINE * problem.n).expect("accepted");
        assert_eq!(page.len(), LINE * problem.n);
        for (line, &(x, depth)) in page.split_inclusive('\n').zip(&order) {
            assert_eq!(line.len(), LINE);
            assert_eq!(line[..68].trim_end(), format!("{}{x:02}", " ".repeat(depth)));
            assert_eq!(line[68..79].trim_start(), evaluation.imbalance[x].to_string());
            assert_eq!(line[79..90].trim_start(), evaluation.potential[x].to_string());
            assert_eq!(&line[90..], "     \n");
        }
    }
}

/// A child with children, before and after one without.
#[test]
fn orders_by_hand() {
    let cases = [
        ([2, 3, 2, 2, 3], [(2, 0), (0, 1), (3, 1), (1, 2), (4, 2)]),
        ([2, 0, 2, 2, 0], [(2, 0), (0, 1), (1, 2), (4, 2), (3, 1)]),
        ([4, 2, 2, 1, 1], [(2, 0), (1, 1), (3, 2), (4, 2), (0, 3)]),
    ];
    for (parents, order) in cases {
        let tree = Tree {
            root: 2,
            parents: parents.to_vec(),
        };
        assert_eq!(preorder(&tree), order);
        assert_eq!(by_ways_down(&tree), order);
    }
}

/// What is drawn has the faults that were asked for, and none besides.
#[test]
fn drawn_faults() {
    let random = &mut Random::new(14);
    for _ in 0..500 {
        let Given { lists, buffer } = printable(random);
        assert!(page(&lists, buffer).is_ok());
    }
    let mut seen = [0; 11];
    for first in UNPRINTABLE {
        for second in UNPRINTABLE {
            let faults = [first, second];
            for _ in 0..10 {
                let Given { lists, buffer } = unprintable(random, &faults);
                let number = page(&lists, buffer).expect_err("refused");
                assert_eq!(number, first_number(&faults), "{faults:?}: {lists:?}");
                seen[number as usize] += 1;
            }
        }
    }
    assert!(seen[1..].iter().all(|&count| count > 0), "{seen:?}");
}
