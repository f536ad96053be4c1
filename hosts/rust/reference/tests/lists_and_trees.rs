//! The arguments of calls over tables and the trees to be judged, against the specification and each other.

use reference::exhaustive::{least_tree_cost, spanning_trees};
use reference::flow::{least_cost, least_flow};
use reference::random::{self, forest, Lengths, Measures, Random};
use reference::random_lists::{faulty_lists, sound_problem, LIST_FAULTS, SHARED_FAULTS};
use reference::random_trees::{best_tree, cheaper_neighbour, neighbour, stalled_tree};
use reference::tree::{marked, told, tree_cost};
use reference::{checks, Lists, Problem, Tree};

const MANY: usize = usize::MAX;

/// The numbers of the four kinds of call for some lists: distances, best, judging, weighing.
fn numbers(lists: &Lists) -> [u32; 4] {
    [
        lists.accept_distances(MANY),
        lists.accept_solve(MANY, MANY, MANY),
        lists.accept_judge(),
        lists.accept_evaluate(MANY, MANY, MANY),
    ]
    .map(|accepted| accepted.err().unwrap_or(0))
}

fn changed(lists: &Lists, change: impl FnOnce(&mut Lists)) -> [u32; 4] {
    let mut lists = lists.clone();
    change(&mut lists);
    numbers(&lists)
}

/// The examples of the refusal table, and each call's last check.
#[test]
fn refusal_table() {
    let two = Problem::new(2, &[(0, 1, 1)], &[1, 0], &[0, 1]).with_tree(0, &[0, 0]);
    let two = Lists::of(&two);
    assert_eq!(numbers(&two), [0; 4]);
    assert_eq!(changed(&two, |l| l.n = 0), [1; 4]);
    assert_eq!(changed(&two, |l| l.n = 65), [1; 4]);
    assert_eq!(changed(&two, |l| l.mu.push(0)), [0, 2, 2, 2]);
    assert_eq!(changed(&two, |l| l.nu.clear()), [0, 2, 2, 2]);
    assert_eq!(changed(&two, |l| l.parents.push(0)), [0, 0, 2, 2]);
    assert_eq!(changed(&two, |l| l.b.push(1)), [2; 4]);
    assert_eq!(changed(&two, |l| l.lengths.clear()), [2; 4]);
    let crowded = |l: &mut Lists| {
        [&mut l.a, &mut l.b, &mut l.lengths]
            .into_iter()
            .for_each(|list| list.resize(513, 1))
    };
    assert_eq!(changed(&two, crowded), [2; 4]);
    assert_eq!(two.accept_distances(3), Err(2));
    assert_eq!(two.accept_solve(1, 2, 4), Err(2));
    assert_eq!(two.accept_solve(2, 1, 4), Err(2));
    assert_eq!(two.accept_solve(2, 2, 3), Err(2));
    assert_eq!(two.accept_evaluate(1, 2, 4), Err(2));
    assert_eq!(two.accept_evaluate(2, 1, 4), Err(2));
    assert_eq!(two.accept_evaluate(2, 2, 3), Err(2));
    assert!(two.accept_evaluate(2, 2, 4).is_ok());

    assert_eq!(changed(&two, |l| std::mem::swap(&mut l.a, &mut l.b)), [3; 4]);
    assert_eq!(changed(&two, |l| l.b[0] = u32::MAX), [3; 4]);
    assert_eq!(changed(&two, |l| l.lengths[0] = 0), [0; 4]);
    assert_eq!(changed(&two, |l| l.lengths[0] = 65_536), [4; 4]);
    let cut = |l: &mut Lists| {
        [&mut l.a, &mut l.b, &mut l.lengths]
            .into_iter()
            .for_each(Vec::clear)
    };
    assert_eq!(changed(&two, cut), [5; 4]);
    assert_eq!(changed(&two, |l| l.mu[0] = 16_777_217), [0, 6, 6, 6]);
    // 1 if it is cut to 64 bits.
    let wrapped = |l: &mut Lists| l.mu = vec![1 << 63, (1 << 63) + 1];
    assert_eq!(changed(&two, wrapped), [0, 6, 6, 6]);
    assert_eq!(changed(&two, |l| l.nu[0] = 7), [0, 7, 7, 7]);
    assert_eq!(changed(&two, |l| l.parents = vec![1, 0]), [0, 0, 8, 8]);
    assert_eq!(changed(&two, |l| l.root = 1 << 32), [0, 0, 8, 8]);
    let three = Problem::new(3, &[(0, 1, 1), (1, 2, 1)], &[0; 3], &[0; 3]);
    let three = |parents: &[usize]| Lists::of(&three.clone().with_tree(0, parents));
    assert_eq!(numbers(&three(&[0, 0, 0])), [0, 0, 9, 9]);
    assert_eq!(numbers(&three(&[0, 2, 1])), [0, 0, 10, 10]);
}

/// Faults give each call's own numbers and no others; sound lists give none.
#[test]
fn every_number_is_drawn() {
    let mut seen = [[0; 14]; 4];
    let random = &mut Random::new(11);
    for k in 0..6_000 {
        let (shared, others) = (SHARED_FAULTS.len(), LIST_FAULTS.len());
        let lists = match k % (shared + others) {
            fault if fault < shared => faulty_lists(random, &[SHARED_FAULTS[fault]], &[]),
            fault => faulty_lists(random, &[], &[LIST_FAULTS[fault - shared]]),
        };
        for (seen, number) in seen.iter_mut().zip(numbers(&lists)) {
            seen[number as usize] += 1;
        }
        assert_eq!(numbers(&Lists::of(&sound_problem(random))), [0; 4]);
    }
    for (seen, last) in seen.iter().zip([5, 7, 10, 10]) {
        let own = |number: usize| number <= last;
        assert!((1..14).all(|k| (seen[k] > 20) == own(k)), "{seen:?}");
    }
}

/// Lists of an image's problem are the ones that an image was made of.
#[test]
fn reading_gives_the_lists_back() {
    let random = &mut Random::new(12);
    for _ in 0..500 {
        let problem = random::problem(random);
        let image = problem.image_with(random::layout(random));
        assert_eq!(checks::read(&image, |_, _| true), Ok(problem.clone()));
        assert_eq!(checks::read(&image, |_, _| false), Err(2));
        let (n, m) = (problem.n, problem.edges.len());
        assert!(checks::read(&image, |a, b| (a, b) == (n, m)).is_ok());
    }
}

/// A tree by value, by hand: 1 is the root, 0 and 3 below it, 2 below 0.
#[test]
fn told_of_a_tree() {
    let parents = [1, 1, 0, 1, 99];
    let all = |n: usize, root: usize| [0, 1, 2, 3, 4].map(|v| told(n, root, &parents, v));
    let unknown = (0, 64, 0);
    let expected = [
        (1, 1, 0b0101),
        (0, 1, 0b1111),
        (2, 0, 0b0100),
        (1, 1, 0b1000),
        unknown,
    ];
    assert_eq!(all(4, 1), expected);
    // A parent and the root outside, another root, no tree of five.
    assert_eq!(all(5, 1), [unknown; 5]);
    assert_eq!(all(4, 4), [unknown; 5]);
    assert_eq!(all(4, 0), [unknown; 5]);
    assert_eq!(told(65, 1, &parents, 0), unknown);
    assert_eq!(told(2, 0, &[0, 1], 0), unknown);
    assert_eq!(told(3, 0, &[0, 2, 1], 0), unknown);
    let full = vec![63; 64];
    assert_eq!(told(64, 63, &full, 63), (0, 63, u64::MAX));
    assert_eq!(told(64, 63, &full, 64), unknown);
}

/// The same tree climbed by hand: a bit is added where it is not yet, from 4 none; the words from n on stay.
#[test]
fn marked_in_a_tree() {
    let climb = |y: usize, words: &[u64]| marked(4, 1, &[1, 1, 0, 1], y, words);
    assert_eq!(climb(2, &[0, 0, 0, 0]), Ok(vec![0b100, 0b100, 0b100, 0]));
    assert_eq!(climb(1, &[0, 0, 0, 0]), Ok(vec![0, 0b10, 0, 0]));
    assert_eq!(climb(3, &[5, 6, 7, 8, 9]), Ok(vec![5, 14, 7, 8, 9]));
    for y in [4, 5, 64, MANY] {
        assert_eq!(climb(y, &[1, 2, 3, 4, 5]), Ok(vec![1, 2, 3, 4, 5]));
    }
    let last = marked(64, 63, &[63; 64], 63, &[0; 64]).expect("a tree");
    assert_eq!((last[62], last[63]), (0, 1 << 63));
}

/// Checks 1, 2, 8 and 10 in this order, whichever vertex it is.
#[test]
fn marked_or_refused() {
    let refused: [(u32, usize, usize, &[u32], usize); 17] = [
        (1, 0, 0, &[], 0),
        (1, 65, 0, &[0; 65], 65),
        (1, MANY, 4, &[0], 0),
        (2, 3, 0, &[0, 0], 3),
        (2, 3, 0, &[0, 0, 0, 0], 3),
        (2, 3, 0, &[0, 0, 0], 2),
        (2, 3, 3, &[0, 2, 1], 2),
        (2, 3, 0, &[0, 2, 1, 3], 3),
        (8, 3, 3, &[0, 0, 0], 3),
        (8, 3, MANY, &[0, 0, 0], 3),
        (8, 3, 0, &[0, 0, 3], 3),
        (8, 3, 0, &[0, u32::MAX, 0], 3),
        (8, 3, 0, &[1, 1, 0], 3),
        (8, 3, 0, &[0, 1, 0], 3),
        (8, 4, 0, &[0, 2, 1, 3], 4),
        (10, 3, 0, &[0, 2, 1], 3),
        (10, 4, 0, &[0, 2, 3, 1], 5),
    ];
    for (number, n, root, parents, places) in refused {
        for y in [0, 1, 2, 64, MANY] {
            assert_eq!(marked(n, root, parents, y, &vec![7; places]), Err(number));
        }
    }
}

/// Of every tree: each vertex is below as many as its depth and one more.
#[test]
fn told_keeps_its_laws() {
    let random = &mut Random::new(13);
    for _ in 0..300 {
        let problem = sound_problem(random);
        let Tree { root, parents } = problem.tree.expect("a tree");
        let parents: Vec<u32> = parents.iter().map(|&p| p as u32).collect();
        let all: Vec<_> = (0..problem.n)
            .map(|v| told(problem.n, root, &parents, v))
            .collect();
        for (v, &(depth, parent, word)) in all.iter().enumerate() {
            let above = all.iter().filter(|t| t.2 >> v & 1 == 1).count();
            assert_eq!(above, depth as usize + 1);
            assert!(word >> v & 1 == 1 && parent == parents[v]);
            assert_eq!(all[parent as usize].2 & word, word);
        }
        let mut words = vec![0; problem.n];
        for y in (0..problem.n).rev() {
            words = marked(problem.n, root, &parents, y, &words).expect("a tree");
        }
        assert!(all.iter().map(|t| t.2).eq(words));
    }
}

fn small_problem(random: &mut Random) -> Problem {
    let n = random.between(2, 6) as usize;
    let edges = random::connected(random, n, 10, Lengths::Few);
    let kind = random.pick(&[Measures::Small, Measures::ZeroOrOne, Measures::Sparse]);
    let (mu, nu) = random::measures(random, n, kind);
    let tree = None;
    Problem {
        n,
        edges,
        mu,
        nu,
        tree,
    }
}

/// A cheapest flow carries the difference of the measures, at the least cost; some have cycles.
#[test]
fn flows() {
    let random = &mut Random::new(14);
    let mut cycles = 0;
    for _ in 0..2_000 {
        let problem = random::problem(random);
        let flow = least_flow(&problem);
        let mut carried = vec![0; problem.n];
        for (e, f) in problem.edges.iter().zip(&flow) {
            carried[e.a] += f;
            carried[e.b] -= f;
        }
        assert!((0..problem.n).all(|x| carried[x] == problem.difference(x)));
        let costs = problem.edges.iter().zip(&flow);
        let cost: u64 = costs.map(|(e, f)| e.length * f.unsigned_abs()).sum();
        assert_eq!(cost, least_cost(&problem));
        let edges = problem.edges.iter().zip(&flow).filter(|(_, &f)| f != 0);
        let carriers: Vec<_> = edges.map(|(e, _)| (e.a, e.b)).collect();
        let kept = forest(problem.n, carriers.iter().copied());
        cycles += u64::from(kept.len() < carriers.len());
    }
    assert!(cycles > 0, "no flow had a cycle to be taken away");
}

/// Best trees cost the least that there is; neighbours differ by one edge.
#[test]
fn best_trees_and_their_neighbours() {
    let random = &mut Random::new(15);
    let (mut as_good, mut worse) = (0, 0);
    for k in 0..1_500 {
        let mut problem = match k % 3 {
            0 => sound_problem(random),
            _ => small_problem(random),
        };
        let least = match k % 3 {
            0 => least_cost(&problem),
            _ => least_tree_cost(&problem),
        };
        let best = best_tree(random, &problem);
        assert_eq!(tree_cost(&problem, &best), least, "{problem:?}");
        let other = neighbour(random, &problem, &best);
        for tree in [&best, &other] {
            problem.tree = Some(tree.clone());
            assert_eq!(checks::check_tree(&problem), Ok(()));
        }
        let edges = |tree: &Tree| {
            let pairs = (0..problem.n).filter(|&x| x != tree.root).map(|x| {
                let p = tree.parents[x];
                (x.min(p), x.max(p))
            });
            pairs.collect::<Vec<_>>()
        };
        let held = edges(&best);
        let new = edges(&other).iter().filter(|p| !held.contains(p)).count();
        assert_eq!(new, usize::from(problem.edges.len() >= problem.n));
        match tree_cost(&problem, &other) == least {
            true => as_good += 1,
            false => worse += 1,
        }
    }
    assert!(as_good > 50 && worse > 50, "{as_good}, {worse}");
}

/// Where descent stalls no single exchange is cheaper, and yet some of these trees are not cheapest.
#[test]
fn stalled_trees() {
    let random = &mut Random::new(16);
    let (mut best, mut others) = (0, 0);
    for _ in 0..2_000 {
        let problem = small_problem(random);
        let tree = stalled_tree(random, &problem);
        assert_eq!(cheaper_neighbour(&problem, &tree), None);
        match tree_cost(&problem, &tree) == least_tree_cost(&problem) {
            true => best += 1,
            false => others += 1,
        }
    }
    assert!(best > 0 && others > 0, "{best}, {others}");
}

/// A tree has a cheaper neighbour exactly if some spanning tree with one other edge is cheaper.
#[test]
fn cheaper_neighbours() {
    let random = &mut Random::new(17);
    for _ in 0..200 {
        let problem = small_problem(random);
        let trees = spanning_trees(&problem, 0);
        let pairs = |tree: &Tree| {
            let others = 1..problem.n;
            let edge = |x: usize| (x.min(tree.parents[x]), x.max(tree.parents[x]));
            others.map(edge).collect::<Vec<_>>()
        };
        for tree in &trees {
            let held = pairs(tree);
            let near = |other: &&Tree| pairs(other).iter().filter(|p| !held.contains(p)).count() == 1;
            let cost = tree_cost(&problem, tree);
            let cheaper = trees
                .iter()
                .filter(near)
                .any(|other| tree_cost(&problem, other) < cost);
            assert_eq!(cheaper_neighbour(&problem, tree).is_some(), cheaper);
        }
    }
}
