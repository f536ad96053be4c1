//! Questions from a start vertex: on patches worked out by hand, and against every path of small ones.

use reference::exhaustive::least_paths;
use reference::flow::distances_from;
use reference::queries::{nearest, within};
use reference::random::{self, Lengths, Random};
use reference::random_queries::{faulty_query, first_number, painting, sound_query, Query, UNASKABLE};
use reference::{Lists, Problem};

const MANY: usize = usize::MAX;
const TOTAL: u64 = 16_777_216;

/// A path 0 - 1 = 2 - 3 - 5 with a seam from 1 to 2, and a longer one 0 - 4 - 5 beside it.
fn patch(amounts: &[u64]) -> Lists {
    let edges = [(0, 1, 3), (0, 4, 3), (1, 2, 0), (2, 3, 2), (3, 5, 1), (4, 5, 9)];
    Lists::of(&Problem::new(6, &edges, amounts, &[]))
}

/// From 0 the vertices are 0, 3, 3, 5, 3 and 6 away, from 5 they are 6, 3, 3, 1, 9 and 0 away.
#[test]
fn within_by_hand() {
    let patch = patch(&[]);
    let all = |start: usize, reaches: &[u32]| -> Vec<u64> {
        let word = |&reach| within(&patch, start, reach).expect("accepted");
        reaches.iter().map(word).collect()
    };
    assert_eq!(all(0, &[0, 1, 2]), [0b000001; 3]);
    assert_eq!(all(0, &[3, 4]), [0b010111; 2]);
    assert_eq!(all(0, &[5]), [0b011111]);
    assert_eq!(all(0, &[6, 7, 65_536, u32::MAX]), [0b111111; 4]);
    assert_eq!(all(1, &[0, 1]), [0b000110; 2]);
    assert_eq!(all(2, &[0, 1, 2]), [0b000110, 0b000110, 0b001110]);
    assert_eq!(all(5, &[0, 1, 3, 6]), [0b100000, 0b101000, 0b101110, 0b101111]);
    assert_eq!(all(5, &[8, 9]), [0b101111, 0b111111]);
    // A triangle whose long edge is longer than the way round.
    let triangle = Lists::of(&Problem::new(3, &[(0, 1, 5), (0, 2, 1), (1, 2, 1)], &[], &[]));
    let words = [0, 1, 2, 4, 5].map(|reach| within(&triangle, 0, reach));
    assert_eq!(words, [Ok(0b001), Ok(0b101), Ok(0b111), Ok(0b111), Ok(0b111)]);
}

#[test]
fn nearest_by_hand() {
    let from = |start: usize, amounts: [u64; 6]| nearest(&patch(&amounts), start);
    assert_eq!(from(0, [0; 6]), Ok(64));
    assert_eq!(from(0, [1, 9, 9, 9, 9, 9]), Ok(0));
    assert_eq!(from(0, [0, 0, 1, 0, 9, 0]), Ok(2));
    assert_eq!(from(0, [0, 0, 0, 1, 1, 1]), Ok(4));
    assert_eq!(from(0, [0, 0, 0, 1, 0, TOTAL - 1]), Ok(3));
    assert_eq!(from(0, [0, 0, 0, 0, 0, TOTAL]), Ok(5));
    assert_eq!(from(5, [0, 1, 1, 0, 0, 0]), Ok(1));
    assert_eq!(from(5, [1, 0, 0, 0, 1, 0]), Ok(0));
    assert_eq!(from(5, [0, 0, 0, 0, 1, 0]), Ok(4));
    // What is welded to the start is as near as the start itself.
    assert_eq!(from(2, [0, 1, 1, 0, 0, 0]), Ok(1));
    assert_eq!(from(1, [0, 1, 1, 0, 0, 0]), Ok(1));
    assert_eq!(from(1, [0, 0, 1, 0, 0, 0]), Ok(2));
}

/// The least patch and the longest: one vertex, and 64 in a line of the longest edges.
#[test]
fn one_vertex_and_all() {
    let one = |amount: u64| Lists::of(&Problem::new(1, &[], &[amount], &[]));
    assert_eq!(within(&one(0), 0, 0), Ok(1));
    assert_eq!((nearest(&one(0), 0), nearest(&one(5), 0)), (Ok(64), Ok(0)));
    let edges: Vec<_> = (1..64).map(|x| (x - 1, x, 65_535)).collect();
    let mut amounts = [0; 64];
    amounts[63] = 1;
    let line = Lists::of(&Problem::new(64, &edges, &amounts, &[]));
    let farthest = 63 * 65_535;
    assert_eq!(within(&line, 0, farthest), Ok(u64::MAX));
    assert_eq!(within(&line, 0, farthest - 1), Ok(u64::MAX >> 1));
    assert_eq!(within(&line, 63, 0), Ok(1 << 63));
    assert_eq!(nearest(&line, 0), Ok(63));
}

/// The numbers of both questions, 0 if they are answered.
fn numbers(lists: &Lists, start: usize) -> [u32; 2] {
    let within = within(lists, start, 0).map(|_| ());
    let nearest = nearest(lists, start).map(|_| ());
    [within, nearest].map(|answer| answer.err().unwrap_or(0))
}

/// The checks in their order: 17 is the last, after 5, and after 6 where there is a painting.
#[test]
fn refusal_table() {
    let two = |amounts: &[u64]| Lists::of(&Problem::new(2, &[(0, 1, 1)], amounts, &[]));
    let apart = |amounts: &[u64]| Lists::of(&Problem::new(2, &[], amounts, &[]));
    let sized = |n: usize, lists: Lists| Lists { n, ..lists };
    assert_eq!(numbers(&two(&[0, TOTAL]), 1), [0, 0]);
    for start in [2, 63, 64, 256, 1 << 32, MANY] {
        assert_eq!(numbers(&two(&[0, TOTAL]), start), [17, 17]);
        assert_eq!(numbers(&two(&[1, TOTAL]), start), [17, 6]);
        assert_eq!(numbers(&apart(&[1, TOTAL]), start), [5, 5]);
    }
    for start in [0, 1, 2, MANY] {
        for n in [0, 65, 256 + 2, MANY] {
            assert_eq!(numbers(&sized(n, two(&[1, TOTAL])), start), [1, 1]);
        }
        assert_eq!(numbers(&apart(&[0, 0]), start), [5, 5]);
        let long = Problem::new(2, &[(0, 1, 65_536)], &[1, TOTAL], &[]);
        assert_eq!(numbers(&Lists::of(&long), start), [4, 4]);
        let long_and_out_of_order = Problem::new(3, &[(1, 0, 65_536)], &[1, TOTAL, 0], &[]);
        assert_eq!(numbers(&Lists::of(&long_and_out_of_order), start), [3, 3]);
        let crowded = Problem::new(2, &[(1, 0, 65_536); 513], &[1, TOTAL], &[]);
        assert_eq!(numbers(&Lists::of(&crowded), start), [2, 2]);
    }
    // The painting is of no account for the vertices within reach.
    assert_eq!(numbers(&two(&[0]), 0), [0, 2]);
    assert_eq!(numbers(&two(&[0, 0, 0]), 2), [17, 2]);
    assert_eq!(numbers(&apart(&[]), 2), [5, 2]);
    // 1 if it is cut to 64 bits.
    assert_eq!(numbers(&two(&[1 << 63, (1 << 63) + 1]), 0), [0, 6]);
    assert_eq!(numbers(&two(&[u64::MAX, 2]), 2), [17, 6]);
}

fn small_problem(random: &mut Random) -> Problem {
    let n = random.between(1, 6) as usize;
    let m = random.between(0, 15) as usize;
    let lengths = random.pick(&[
        Lengths::Unit,
        Lengths::Few,
        Lengths::Any,
        Lengths::OftenZero,
        Lengths::Zero,
    ]);
    let edges = random::connected(random, n, m, lengths);
    let mu = painting(random, n);
    let (nu, tree) = (Vec::new(), None);
    Problem {
        n,
        edges,
        mu,
        nu,
        tree,
    }
}

/// Both answers by the definitions, with the least of all paths for the distance.
#[test]
fn by_all_paths() {
    let random = &mut Random::new(31);
    let (mut ties, mut seams) = (0, 0);
    for _ in 0..1_000 {
        let problem = small_problem(random);
        let (n, lists) = (problem.n, Lists::of(&problem));
        for start in 0..n {
            let paths = least_paths(&problem, start);
            let least: Vec<u64> = paths.into_iter().map(|l| l.expect("connected")).collect();
            assert_eq!(distances_from(&problem, start), least);
            for &d in &least {
                for reach in [d.saturating_sub(1), d, d + 1, u32::MAX.into()] {
                    let word = within(&lists, start, reach as u32).expect("accepted");
                    assert!((0..64).all(|v| (word >> v & 1 == 1) == (v < n && least[v] <= reach)));
                }
            }
            let found = nearest(&lists, start).expect("accepted") as usize;
            let mut painted = (0..n).filter(|&v| problem.mu[v] > 0);
            let before = |v: usize| (least[found], found) <= (least[v], v);
            match found {
                64 => assert_eq!(painted.next(), None),
                _ => assert!(problem.mu[found] > 0 && painted.all(before)),
            }
            let as_near = |&v: &usize| problem.mu[v] > 0 && least[v] == least[found];
            ties += u64::from(found < 64 && (0..n).filter(as_near).count() > 1);
            seams += u64::from((0..n).any(|v| v != start && least[v] == 0));
        }
    }
    assert!(ties > 100 && seams > 100, "{ties}, {seams}");
}

/// Where edges are missing, there is no path to some vertices; elsewhere the direct edge may not be the shortest.
#[test]
fn all_paths_by_hand() {
    let apart = Problem::new(4, &[(0, 1, 5), (0, 2, 1), (1, 2, 1)], &[], &[]);
    assert_eq!(least_paths(&apart, 0), [Some(0), Some(2), Some(1), None]);
    assert_eq!(least_paths(&apart, 3), [None, None, None, Some(0)]);
}

/// What is drawn sound is answered; one fault, and each two together, give their number, and all of them come up.
#[test]
fn faults_give_their_numbers() {
    let random = &mut Random::new(32);
    let mut seen = [[0; 18]; 2];
    for first in UNASKABLE {
        for second in UNASKABLE {
            for _ in 0..30 {
                let Query { lists, start, .. } = sound_query(random);
                assert_eq!(numbers(&lists, start), [0, 0]);
                let faults = [first, second];
                let Query { lists, start, .. } = faulty_query(random, &faults);
                let got = numbers(&lists, start);
                let expected = [false, true].map(|painting| first_number(&faults, painting));
                assert_eq!(got, expected, "{faults:?}: {lists:?} from {start}");
                seen.iter_mut()
                    .zip(got)
                    .for_each(|(seen, k)| seen[k as usize] += 1);
            }
        }
    }
    for (seen, own) in seen
        .iter()
        .zip([&[0, 1, 2, 3, 4, 5, 17][..], &[1, 2, 3, 4, 5, 6, 17]])
    {
        assert!((0..18).all(|k| (seen[k] > 20) == own.contains(&k)), "{seen:?}");
    }
}
