//! The reference against the specification's marked cases, and against exhaustive search.

use reference::checks::{accept, check_graph, check_measures, check_tree, record_size};
use reference::exhaustive::{least_plan_cost, least_tree_cost, spanning_trees};
use reference::flow::{distances, least_cost, optimum};
use reference::random::{self, Lengths, Measures, Random};
use reference::record::{judge, judge_best, Outcome, Record};
use reference::tree::evaluate;
use reference::{Edge, Problem};

const RING: [(usize, usize, u64); 4] = [(0, 1, 1), (0, 3, 1), (1, 2, 1), (2, 3, 1)];

fn line(n: usize) -> Vec<(usize, usize, u64)> {
    (1..n).map(|x| (x - 1, x, 1)).collect()
}

fn weigh(problem: &Problem) -> reference::tree::Evaluation {
    assert_eq!(check_graph(problem), Ok(()));
    assert_eq!(check_measures(problem), Ok(()));
    assert_eq!(check_tree(problem), Ok(()));
    evaluate(problem, problem.tree.as_ref().unwrap())
}

#[test]
fn case_a() {
    let edges = [(0, 1, 2), (1, 2, 3), (2, 3, 1)];
    let a = Problem::new(4, &edges, &[5, 0, 1, 0], &[0, 2, 1, 3]).with_tree(3, &[1, 2, 3, 3]);
    let e = weigh(&a);
    assert_eq!(e.imbalance, [5, 3, 3, 0]);
    assert_eq!(e.potential, [6, 4, 1, 0]);
    assert_eq!((e.cost, e.moves), (22, 2));
    let positive: Vec<_> = (0..16)
        .filter(|&k| e.plan[k] > 0)
        .map(|k| (k / 4, k % 4, e.plan[k]))
        .collect();
    assert_eq!(positive, [(0, 1, 2), (0, 3, 3), (2, 2, 1)]);
    assert_eq!(least_cost(&a), 22);
}

#[test]
fn cases_b_and_c() {
    let b = Problem::new(4, &RING, &[4, 0, 0, 0], &[0, 0, 0, 4]).with_tree(0, &[0, 0, 1, 2]);
    assert_eq!(weigh(&b).cost, 12);
    assert_eq!(least_cost(&b), 4);
    assert_eq!(least_tree_cost(&b), 4);

    let c = Problem::new(4, &RING, &[1; 4], &[1; 4]).with_tree(0, &[0, 0, 1, 2]);
    assert_eq!(weigh(&c).potential, [0, 0, 0, 0]);
    assert_eq!(weigh(&c).cost, 0);
    assert_eq!(least_tree_cost(&c), 0);
}

/// A best tree whose own potential falls along edge (0, 2) by more than its length.
#[test]
fn own_potential() {
    let edges = [(0, 1, 2), (0, 2, 1), (1, 2, 3)];
    let given = Problem::new(3, &edges, &[1, 0, 0], &[0, 1, 0]).with_tree(0, &[0, 0, 1]);
    let e = weigh(&given);
    assert_eq!((e.imbalance, e.potential), (vec![0, -1, 0], vec![0, -2, -2]));
    assert_eq!((e.cost, least_tree_cost(&given)), (2, 2));
}

/// Equal measures give every tree a flat potential; and a good part of the drawn trees' edges carries nothing.
#[test]
fn flat_where_nothing_moves() {
    let random = &mut Random::new(1);
    let (mut edges, mut idle) = (0, 0);
    for _ in 0..300 {
        let mut problem = random::problem(random);
        let tree = random::spanning_tree(random, problem.n, &problem.edges);
        let imbalance = evaluate(&problem, &tree).imbalance;
        edges += problem.n - 1;
        idle += imbalance.iter().filter(|&&z| z == 0).count() - 1;
        problem.nu.clone_from(&problem.mu);
        assert!(evaluate(&problem, &tree).potential.iter().all(|&u| u == 0));
    }
    assert!(
        10 * idle > 3 * edges && 10 * idle < 8 * edges,
        "{idle} of {edges}"
    );
}

#[test]
fn cases_d_to_f() {
    let d = Problem::new(3, &[(0, 1, 5), (0, 2, 1), (1, 2, 1)], &[3, 0, 0], &[0, 3, 0]);
    assert_eq!(least_cost(&d), 6);
    assert_eq!(distances(&d), [0, 2, 1, 2, 0, 1, 1, 1, 0]);

    let e = Problem::new(1, &[], &[7], &[7]).with_tree(0, &[0]);
    assert_eq!((weigh(&e).cost, weigh(&e).plan), (0, vec![7]));

    let f = |grains| Problem::new(2, &[(0, 1, 65_535)], &[grains, 0], &[0, grains]);
    assert_eq!(least_cost(&f(16_777_216)), 1_099_494_850_560);
    assert_eq!(accept(&f(16_777_217).image(), 1000), Err(6));
}

#[test]
fn cases_g_and_h() {
    let (mu, nu) = ([1, 1, 0, 0, 0, 6], [0, 0, 4, 2, 2, 0]);
    let g = Problem::new(6, &line(6), &mu, &nu).with_tree(5, &[1, 2, 3, 4, 5, 5]);
    let e = weigh(&g);
    assert_eq!(e.imbalance, [1, 2, -2, -4, -6, 0]);
    assert_eq!(e.potential, [-1, -2, -3, -2, -1, 0]);
    assert_eq!((e.cost, e.moves), (15, 5));

    let h = Problem::new(6, &line(6), &mu, &nu).with_tree(0, &[0, 0, 1, 2, 3, 4]);
    let e = weigh(&h);
    assert_eq!(e.imbalance, [0, -1, -2, 2, 4, 6]);
    assert_eq!(e.cost, 15);
}

/// A welded seam: a ring of edges of length 0, and an edge that leads out of it.
#[test]
fn seam() {
    let edges = [(0, 1, 0), (0, 2, 0), (1, 2, 0), (2, 3, 5)];
    let seam = Problem::new(4, &edges, &[3, 0, 0, 0], &[0, 1, 0, 2]).with_tree(0, &[0, 0, 1, 2]);
    let e = weigh(&seam);
    assert_eq!(e.imbalance, [0, -3, -2, -2]);
    assert_eq!(e.potential, [0, 0, 0, -5]);
    assert_eq!((e.cost, e.moves), (10, 2));
    assert_eq!((least_cost(&seam), least_tree_cost(&seam)), (10, 10));
}

/// The examples of the refusal table, as images where an image can hold them.
#[test]
fn refusal_table() {
    let number = |image: &[u8]| accept(image, 100_000).map(|_| ()).unwrap_err();
    let short = [(0, 1, 1), (1, 2, 1)];
    let pair = |edges: &[(usize, usize, u64)]| Problem::new(2, edges, &[1, 0], &[0, 1]);

    assert_eq!(number(&Problem::new(0, &[], &[], &[]).image()), 1);
    assert_eq!(
        number(&Problem::new(65, &line(65), &[0; 65], &[0; 65]).image()),
        1
    );
    let crowded = vec![(0, 1, 1); 513];
    assert_eq!(number(&pair(&crowded).image()), 2);
    assert_eq!(accept(&pair(&[(0, 1, 1)]).image(), record_size(2) - 1), Err(2));
    assert_eq!(number(&pair(&[(1, 0, 1)]).image()), 3);
    assert_eq!(check_graph(&pair(&[(0, 1, 65_536)])), Err(4));
    assert_eq!(
        number(&Problem::new(3, &[(0, 1, 1)], &[0; 3], &[0; 3]).image()),
        5
    );
    assert_eq!(
        number(&Problem::new(1, &[], &[16_777_217], &[16_777_217]).image()),
        6
    );
    assert_eq!(number(&Problem::new(1, &[], &[3], &[4]).image()), 7);
    assert_eq!(number(&pair(&[(0, 1, 1)]).with_tree(0, &[1, 0]).image()), 8);
    let three = |parents| Problem::new(3, &short, &[0; 3], &[0; 3]).with_tree(0, parents);
    assert_eq!(number(&three(&[0, 0, 0]).image()), 9);
    assert_eq!(number(&three(&[0, 2, 1]).image()), 10);
    assert_eq!(number(&pair(&[(0, 1, 1)]).image()[..35]), 11);
    assert_eq!(number(&vec![0; 65_537]), 11);
    let mut image = pair(&[(0, 1, 1)]).image();
    image[4] = 35;
    assert_eq!(number(&image), 12);
    // In an image a measure that is not n long is a section that does not fit.
    assert_eq!(number(&Problem::new(2, &[(0, 1, 1)], &[1], &[1, 0]).image()), 13);
    assert_eq!(
        number(&Problem::new(2, &[(0, 1, 1)], &[1; 3], &[1; 2]).image()),
        13
    );
}

fn small_problem(random: &mut Random, most: u64) -> Problem {
    let n = random.between(1, most) as usize;
    let lengths = random.pick(&[Lengths::Few, Lengths::OftenZero, Lengths::Zero]);
    let edges = random::connected(random, n, 10, lengths);
    let kind = random.pick(&[Measures::Small, Measures::ZeroOrOne, Measures::Sparse]);
    let (mu, nu) = random::measures(random, n, kind);
    Problem {
        n,
        edges,
        mu,
        nu,
        tree: None,
    }
}

/// Successive shortest paths agree with the least of all spanning trees.
#[test]
fn flow_against_all_trees() {
    let mut random = Random::new(1);
    for case in 0..5_000 {
        let problem = small_problem(&mut random, 5);
        assert_eq!(
            least_cost(&problem),
            least_tree_cost(&problem),
            "case {case}: {problem:?}"
        );
    }
}

/// Successive shortest paths agree with the least of all plans, costed by distance.
#[test]
fn flow_against_all_plans() {
    let mut random = Random::new(2);
    let mut tried = 0;
    while tried < 2_000 {
        let problem = small_problem(&mut random, 4);
        if problem.mu.iter().sum::<u64>() > 6 {
            continue;
        }
        tried += 1;
        let all = least_plan_cost(&problem, &distances(&problem));
        assert_eq!(least_cost(&problem), all, "{problem:?}");
    }
}

/// Distances agree with relaxing every edge until nothing changes.
#[test]
fn distances_by_relaxation() {
    let mut random = Random::new(3);
    for _ in 0..500 {
        let Problem { n, edges, mu, nu, .. } = random::problem(&mut random);
        let problem = Problem {
            n,
            edges,
            mu,
            nu,
            tree: None,
        };
        let d = distances(&problem);
        for i in 0..n {
            let mut row = vec![u64::MAX / 2; n];
            row[i] = 0;
            for _ in 0..n {
                for &Edge { a, b, length } in &problem.edges {
                    row[a] = row[a].min(row[b] + length);
                    row[b] = row[b].min(row[a] + length);
                }
            }
            assert_eq!(row, d[i * n..][..n]);
        }
    }
}

/// For every tree: rows and columns are exact, and the potential weighs the difference to the cost.
#[test]
fn evaluation_keeps_its_laws() {
    let mut random = Random::new(4);
    for _ in 0..2_000 {
        let mut problem = random::problem(&mut random);
        let tree = random::spanning_tree(&mut random, problem.n, &problem.edges);
        problem.tree = Some(tree);
        let (n, e) = (problem.n, weigh(&problem));
        for i in 0..n {
            assert_eq!((0..n).map(|j| e.plan[i * n + j]).sum::<u64>(), problem.mu[i]);
            assert_eq!((0..n).map(|j| e.plan[j * n + i]).sum::<u64>(), problem.nu[i]);
        }
        let weight: i64 = (0..n).map(|y| e.potential[y] * problem.difference(y)).sum();
        assert_eq!(weight, e.cost as i64);
        assert!(e.cost >= least_cost(&problem));
    }
}

/// Every answer that `judge_best` accepts among all trees of a small problem is a cheapest tree, every
/// cheapest tree is accepted with some potential, and others are not.
#[test]
fn judge_accepts_exactly_the_best_trees() {
    let mut random = Random::new(5);
    for _ in 0..500 {
        let problem = small_problem(&mut random, 5);
        let least = least_tree_cost(&problem);
        let trees = spanning_trees(&problem, 0);
        let evaluations: Vec<_> = trees.iter().map(|t| evaluate(&problem, t)).collect();
        let (_, potential) = optimum(&problem);
        for (tree, evaluation) in trees.iter().zip(&evaluations) {
            let mut record = Record::of_evaluation(tree, evaluation);
            record.potential = potential.clone();
            assert_eq!(judge_best(&problem, &record).is_ok(), evaluation.cost == least);
        }
    }
}

/// Faults and damage give every refusal number but 4, and a judge that is told a wrong number complains.
#[test]
fn every_number_is_drawn() {
    let mut count = [0; 14];
    let mut random = Random::new(6);
    for k in 0..20_000 {
        let case = match k % 2 {
            0 => random::damaged_case(&mut random),
            _ => random::faulty_case(&mut random, &[random::FAULTS[k / 2 % random::FAULTS.len()]]),
        };
        let number = accept(&case.image, case.record_len).err().unwrap_or(0);
        count[number as usize] += 1;
        if number > 0 {
            let buffer = vec![0; case.record_len];
            assert_eq!(
                judge(&case.image, &buffer, &buffer, number),
                Ok(Outcome::Refused(number))
            );
            assert!(judge(&case.image, &buffer, &buffer, number % 13 + 1).is_err());
        }
    }
    assert!((0..14).all(|k| (count[k] > 50) == (k != 4)), "{count:?}");
}
