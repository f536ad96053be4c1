//! Random problems and images: valid ones of many shapes, faulty ones, damaged ones.
//!
//! Everything follows from a seed, so that a failing case can be made again.

use crate::checks::{record_size, MAX_TOTAL};
use crate::exhaustive::hang;
use crate::problem::{Edge, Layout, Problem, Tree, HEADER};

/// A small generator of random numbers (SplitMix64).
pub struct Random(u64);

impl Random {
    pub fn new(seed: u64) -> Random {
        Random(seed)
    }

    /// The generator of one case of a run.
    pub fn for_case(seed: u64, case: u64) -> Random {
        let mut random = Random(seed ^ case.wrapping_mul(0xD134_2543_DE82_EF95));
        Random(random.word())
    }

    pub fn word(&mut self) -> u64 {
        self.0 = self.0.wrapping_add(0x9E37_79B9_7F4A_7C15);
        let z = (self.0 ^ (self.0 >> 30)).wrapping_mul(0xBF58_476D_1CE4_E5B9);
        let z = (z ^ (z >> 27)).wrapping_mul(0x94D0_49BB_1331_11EB);
        z ^ (z >> 31)
    }

    /// A number from 0 to `bound` − 1.
    pub fn below(&mut self, bound: u64) -> u64 {
        ((self.word() as u128 * bound as u128) >> 64) as u64
    }

    pub fn index(&mut self, bound: usize) -> usize {
        self.below(bound as u64) as usize
    }

    /// A number from `low` to `high`, both included.
    pub fn between(&mut self, low: u64, high: u64) -> u64 {
        low + self.below(high - low + 1)
    }

    pub fn chance(&mut self, one_in: u64) -> bool {
        self.below(one_in) == 0
    }

    pub fn pick<T: Copy>(&mut self, list: &[T]) -> T {
        list[self.index(list.len())]
    }

    pub fn shuffle<T>(&mut self, list: &mut [T]) {
        for i in (1..list.len()).rev() {
            list.swap(i, self.index(i + 1));
        }
    }
}

/// How lengths are drawn.
#[derive(Clone, Copy, Debug)]
pub enum Lengths {
    Unit,
    Few,
    Any,
    Extreme,
    Longest,
    /// 0 or a few more, more often 0.
    OftenZero,
    Zero,
}

/// How the two measures are drawn.
#[derive(Clone, Copy, Debug)]
pub enum Measures {
    Empty,
    Equal,
    PointToPoint,
    ZeroOrOne,
    Small,
    Sparse,
    Halves,
    Large,
    Permuted,
}

const LENGTHS: [Lengths; 7] = [
    Lengths::Unit,
    Lengths::Few,
    Lengths::Any,
    Lengths::Extreme,
    Lengths::Longest,
    Lengths::OftenZero,
    Lengths::Zero,
];

const MEASURES: [Measures; 9] = [
    Measures::Empty,
    Measures::Equal,
    Measures::PointToPoint,
    Measures::ZeroOrOne,
    Measures::Small,
    Measures::Sparse,
    Measures::Halves,
    Measures::Large,
    Measures::Permuted,
];

fn length(random: &mut Random, lengths: Lengths) -> u64 {
    match lengths {
        Lengths::Unit => 1,
        Lengths::Few => random.between(1, 3),
        Lengths::Any => random.between(1, 65_535),
        Lengths::Extreme => random.pick(&[0, 1, 2, 65_534, 65_535]),
        Lengths::Longest => 65_535,
        Lengths::OftenZero => random.pick(&[0, 0, 0, 1, 2, 65_535]),
        Lengths::Zero => 0,
    }
}

/// Edges in their order, each pair once.
fn with_lengths(random: &mut Random, mut pairs: Vec<(usize, usize)>, lengths: Lengths) -> Vec<Edge> {
    pairs.sort_unstable();
    pairs.dedup();
    pairs
        .into_iter()
        .map(|(a, b)| Edge {
            a,
            b,
            length: length(random, lengths),
        })
        .collect()
}

fn pair(x: usize, y: usize) -> (usize, usize) {
    (x.min(y), x.max(y))
}

/// A connected graph with about m edges (at most 512 and at least n − 1).
pub fn connected(random: &mut Random, n: usize, m: usize, lengths: Lengths) -> Vec<Edge> {
    let mut names: Vec<usize> = (0..n).collect();
    random.shuffle(&mut names);
    let shape = random.below(4);
    let mut pairs: Vec<(usize, usize)> = (1..n)
        .map(|i| {
            let other = match shape {
                0 => i - 1,
                1 => 0,
                _ => random.index(i),
            };
            pair(names[i], names[other])
        })
        .collect();
    let most = m.min(512).min(n * (n - 1) / 2);
    let mut others: Vec<(usize, usize)> = (0..n)
        .flat_map(|a| (a + 1..n).map(move |b| (a, b)))
        .filter(|p| !pairs.contains(p))
        .collect();
    random.shuffle(&mut others);
    others.truncate(most.saturating_sub(pairs.len()));
    pairs.extend(others);
    with_lengths(random, pairs, lengths)
}

/// A grid of the given width, the last row perhaps incomplete.
pub fn grid(random: &mut Random, n: usize, width: usize, lengths: Lengths) -> Vec<Edge> {
    let right = (0..n).filter(|x| (x + 1) % width != 0 && x + 1 < n);
    let down = (0..n).filter(|x| x + width < n);
    let pairs = right
        .map(|x| (x, x + 1))
        .chain(down.map(|x| (x, x + width)))
        .collect();
    with_lengths(random, pairs, lengths)
}

/// A ring through all vertices.
pub fn ring(random: &mut Random, n: usize, lengths: Lengths) -> Vec<Edge> {
    let steps = (0..n).map(|x| pair(x, (x + 1) % n));
    let pairs = steps.filter(|p| p.0 != p.1).collect();
    with_lengths(random, pairs, lengths)
}

/// Two grids of the given width, sewn together by edges of length 0 from the last row of the one to the first row of the
/// other: a grid with its seam between two rows, about the middle.
pub fn seam(random: &mut Random, n: usize, width: usize, lengths: Lengths) -> Vec<Edge> {
    let border = n / (2 * width) * width;
    let mut edges = grid(random, n, width, lengths);
    let welded = |e: &&mut Edge| e.a < border && e.b >= border;
    edges.iter_mut().filter(welded).for_each(|e| e.length = 0);
    edges
}

/// Rings or cliques of edges of length 0, of up to five vertices each, and edges of the drawn lengths between them.
pub fn welds(random: &mut Random, n: usize, lengths: Lengths) -> Vec<Edge> {
    let size = 2 + random.index(4);
    let whole = random.chance(2);
    let m = random.between(n as u64, 4 * n as u64) as usize;
    let mut edges = connected(random, n, m, lengths);
    let group = |x: usize| x / size;
    let mut welded = Vec::new();
    for (a, b) in (0..n).flat_map(|a| (a + 1..n).map(move |b| (a, b))) {
        let closes = a % size == 0 && (b % size == size - 1 || b == n - 1);
        if group(a) == group(b) && (whole || b == a + 1 || closes) {
            welded.push(Edge { a, b, length: 0 });
        }
    }
    edges.retain(|e| group(e.a) != group(e.b));
    edges.extend(welded);
    edges.sort_unstable_by_key(|e| (e.a, e.b));
    edges
}

/// Adds `total` to random places of a list, in a few heaps or many.
fn scatter(random: &mut Random, list: &mut [u64], places: &[usize], mut total: u64) {
    while total > 0 {
        let least = (total / 8).max(1);
        let amount = random.between(least.min(total), total);
        list[random.pick(places)] += amount;
        total -= amount;
    }
}

/// Two measures of equal total.
pub fn measures(random: &mut Random, n: usize, kind: Measures) -> (Vec<u64>, Vec<u64>) {
    let (mut mu, mut nu) = (vec![0; n], vec![0; n]);
    let all: Vec<usize> = (0..n).collect();
    let heavy = if random.chance(2) {
        MAX_TOTAL
    } else {
        random.between(1, MAX_TOTAL)
    };
    match kind {
        Measures::Empty => {}
        Measures::Equal => {
            scatter(random, &mut mu, &all, heavy);
            nu.clone_from(&mu);
        }
        Measures::PointToPoint => {
            mu[random.index(n)] = heavy;
            nu[random.index(n)] = heavy;
        }
        Measures::ZeroOrOne => {
            mu.iter_mut().for_each(|x| *x = random.below(2));
            nu.clone_from(&mu);
            random.shuffle(&mut nu);
        }
        Measures::Small => {
            mu.iter_mut().for_each(|x| *x = random.below(6));
            for _ in 0..mu.iter().sum::<u64>() {
                nu[random.index(n)] += 1;
            }
        }
        Measures::Sparse => {
            let few: Vec<usize> = (0..3).map(|_| random.index(n)).collect();
            let others: Vec<usize> = (0..3).map(|_| random.index(n)).collect();
            let total = random.between(1, 100);
            scatter(random, &mut mu, &few, total);
            scatter(random, &mut nu, &others, total);
        }
        Measures::Halves => {
            let (left, right) = all.split_at(n / 2);
            let amount = random.between(0, 9);
            left.iter().for_each(|&x| mu[x] = amount);
            right.iter().take(left.len()).for_each(|&x| nu[x] = amount);
        }
        Measures::Large => {
            let most = heavy / n as u64;
            mu.iter_mut().for_each(|x| *x = random.between(0, most));
            nu.iter_mut().for_each(|x| *x = random.between(0, most));
            let (a, b) = (mu.iter().sum::<u64>(), nu.iter().sum::<u64>());
            mu[random.index(n)] += b.saturating_sub(a);
            nu[random.index(n)] += a.saturating_sub(b);
        }
        Measures::Permuted => {
            let most = heavy / n as u64;
            mu.iter_mut().for_each(|x| *x = random.between(0, most));
            nu.clone_from(&mu);
            random.shuffle(&mut nu);
        }
    }
    (mu, nu)
}

/// A random spanning tree of a connected graph, under a random root.
pub fn spanning_tree(random: &mut Random, n: usize, edges: &[Edge]) -> Tree {
    let mut order: Vec<Edge> = edges.to_vec();
    random.shuffle(&mut order);
    let chosen = forest(n, order.iter().map(|e| (e.a, e.b)));
    hang(n, &chosen, random.index(n)).expect("a connected graph")
}

/// Of the pairs, in their order, those that close no cycle with the ones before.
pub fn forest(n: usize, order: impl Iterator<Item = (usize, usize)>) -> Vec<(usize, usize)> {
    let mut component: Vec<usize> = (0..n).collect();
    order
        .filter(|&(a, b)| {
            let (old, new) = (component[a], component[b]);
            component.iter_mut().filter(|c| **c == old).for_each(|c| *c = new);
            old != new
        })
        .collect()
}

/// A problem that is accepted.
pub fn problem(random: &mut Random) -> Problem {
    let n = match random.below(4) {
        0 => random.between(1, 6),
        1 => random.between(32, 64),
        _ => random.between(1, 64),
    } as usize;
    let lengths = random.pick(&LENGTHS);
    let edges = match random.below(10) {
        0 => grid(random, n, 1 + n / 8, lengths),
        1 => ring(random, n, lengths),
        2 => connected(random, n, n, lengths),
        3 => connected(random, n, 512, lengths),
        4 => seam(random, n, 1 + n / 8, lengths),
        5 => welds(random, n, lengths),
        _ => {
            let m = random.between(0, 512) as usize;
            connected(random, n, m, lengths)
        }
    };
    let kind = random.pick(&MEASURES);
    let (mu, nu) = measures(random, n, kind);
    let tree = random.chance(2).then(|| spanning_tree(random, n, &edges));
    Problem {
        n,
        edges,
        mu,
        nu,
        tree,
    }
}

/// Gaps between the sections and a tail, often none.
pub fn layout(random: &mut Random) -> Layout {
    let mut gaps = [0; 5];
    if random.chance(2) {
        let most = random.pick(&[1, 7, 200]);
        gaps = gaps.map(|_| random.between(0, most) as usize);
    }
    Layout {
        gaps,
        filler: random.word() as u8,
    }
}

/// One fault for each way to be refused; several of them may meet in one image.
#[derive(Clone, Copy, Debug)]
pub enum Fault {
    VertexCount,
    TooManyEdges,
    ShortRecord,
    EdgeEnds,
    EdgeOrder,
    Disconnected,
    TotalTooLarge,
    TotalsDiffer,
    RootOutside,
    ParentOutside,
    RootHasParent,
    SecondRoot,
    NoTreeEdge,
    ParentCycle,
    ImageTooShort,
    ImageTooLong,
    SectionPlace,
    SectionLength,
    SecondByte,
}

pub const FAULTS: [Fault; 19] = [
    Fault::VertexCount,
    Fault::TooManyEdges,
    Fault::ShortRecord,
    Fault::EdgeEnds,
    Fault::EdgeOrder,
    Fault::Disconnected,
    Fault::TotalTooLarge,
    Fault::TotalsDiffer,
    Fault::RootOutside,
    Fault::ParentOutside,
    Fault::RootHasParent,
    Fault::SecondRoot,
    Fault::NoTreeEdge,
    Fault::ParentCycle,
    Fault::ImageTooShort,
    Fault::ImageTooLong,
    Fault::SectionPlace,
    Fault::SectionLength,
    Fault::SecondByte,
];

impl Fault {
    fn is_in_tree(self) -> bool {
        use Fault::*;
        matches!(
            self,
            RootOutside | ParentOutside | RootHasParent | SecondRoot | NoTreeEdge | ParentCycle
        )
    }
}

/// An image and the length of the buffer to lend with it.
#[derive(Clone, Debug)]
pub struct Case {
    pub image: Vec<u8>,
    pub record_len: usize,
}

/// The image of an accepted problem and a buffer that is long enough.
pub fn valid_case(random: &mut Random) -> Case {
    let problem = problem(random);
    let spare = random.pick(&[0, 0, 1, 50]);
    Case {
        image: problem.image_with(layout(random)),
        record_len: record_size(problem.n) + spare,
    }
}

/// The problem with the faults asked for, where it has room for them.
pub fn spoiled(random: &mut Random, mut problem: Problem, faults: &[Fault]) -> Problem {
    if problem.tree.is_none() && faults.iter().any(|fault| fault.is_in_tree()) {
        problem.tree = Some(spanning_tree(random, problem.n, &problem.edges));
    }
    for &fault in faults {
        spoil_problem(random, &mut problem, fault);
    }
    problem
}

/// An image with the faults asked for, where the drawn problem has room for them.
pub fn faulty_case(random: &mut Random, faults: &[Fault]) -> Case {
    let drawn = problem(random);
    let problem = spoiled(random, drawn, faults);
    let mut case = Case {
        image: problem.image_with(layout(random)),
        record_len: record_size(problem.n),
    };
    for &fault in faults {
        spoil_image(random, &mut case, fault);
    }
    case
}

fn spoil_problem(random: &mut Random, problem: &mut Problem, fault: Fault) {
    use Fault::*;
    let n = problem.n;
    let m = problem.edges.len();
    match fault {
        VertexCount => {
            let wrong = random.pick(&[0, 65, 66, 128, 255]);
            problem.n = wrong;
            problem.mu.resize(wrong, 1);
            problem.nu.resize(wrong, 1);
            if let Some(tree) = &mut problem.tree {
                tree.parents.resize(wrong, 0);
            }
        }
        TooManyEdges => {
            let edge = Edge {
                a: 0,
                b: 1,
                length: 1,
            };
            let wrong = random.pick(&[513, 514, 1024, 8000]);
            problem.edges.resize(wrong, edge);
        }
        EdgeEnds if m > 0 => {
            let k = random.index(m);
            let edge = &mut problem.edges[k];
            match random.below(4) {
                0 => std::mem::swap(&mut edge.a, &mut edge.b),
                1 => edge.b = edge.a,
                2 => edge.b = n,
                _ => edge.b = random.between(n as u64, 255) as usize,
            }
        }
        EdgeOrder if m > 1 => {
            let k = random.index(m - 1);
            if random.chance(2) {
                problem.edges.swap(k, k + 1);
            } else {
                problem.edges[k + 1] = problem.edges[k];
            }
        }
        Disconnected if n > 1 && m > 0 => {
            let lone = random.index(n);
            problem.edges.retain(|e| e.a != lone && e.b != lone);
        }
        TotalTooLarge => {
            let list = if random.chance(2) {
                &mut problem.mu
            } else {
                &mut problem.nu
            };
            if random.chance(3) {
                list.iter_mut().for_each(|x| *x = u32::MAX as u64);
            } else if !list.is_empty() {
                let at = random.index(list.len());
                let total: u64 = list.iter().sum();
                list[at] += MAX_TOTAL + 1 - total.min(MAX_TOTAL);
            }
        }
        TotalsDiffer if !problem.mu.is_empty() => {
            let at = random.index(problem.mu.len());
            match problem.mu[at] {
                0 => problem.mu[at] = 1,
                _ => problem.mu[at] -= 1,
            }
        }
        _ => {}
    }
    if let Some(tree) = &mut problem.tree {
        let n = tree.parents.len();
        if n == 0 {
            return;
        }
        let x = random.index(n);
        match fault {
            RootOutside => tree.root = random.between(n as u64, 255) as usize,
            ParentOutside => tree.parents[x] = random.between(n as u64, 255) as usize,
            RootHasParent if tree.root < n => tree.parents[tree.root] = x,
            SecondRoot => tree.parents[x] = x,
            NoTreeEdge => tree.parents[x] = random.index(n),
            ParentCycle if !problem.edges.is_empty() => {
                // An edge whose ends are each other's parents, away from the root.
                let edge = problem.edges[random.index(problem.edges.len())];
                if edge.a != tree.root && edge.b != tree.root && edge.a < n && edge.b < n {
                    tree.parents[edge.a] = edge.b;
                    tree.parents[edge.b] = edge.a;
                }
            }
            _ => {}
        }
    }
}

fn spoil_image(random: &mut Random, case: &mut Case, fault: Fault) {
    let image = &mut case.image;
    if image.len() < HEADER {
        return;
    }
    match fault {
        Fault::ShortRecord => case.record_len = random.index(case.record_len),
        Fault::ImageTooShort => image.truncate(random.index(HEADER)),
        Fault::ImageTooLong => {
            let filler = random.word() as u8;
            image.resize(random.pick(&[65_536, 65_537, 65_540, 70_000]), filler);
        }
        Fault::SectionPlace => {
            let field = 4 + 8 * random.index(4) + 4 * random.index(2);
            let end = image.len() as u32;
            let wild = [0, 1, 35, 36, end - 1, end, end + 1, 0x7FFF_FFFF, 0x8000_0000];
            let wild = match random.below(3) {
                0 => random.pick(&wild),
                1 => u32::MAX - random.below(9) as u32,
                _ => random.word() as u32,
            };
            image[field..field + 4].copy_from_slice(&wild.to_le_bytes());
        }
        Fault::SectionLength => {
            let field = 8 + 8 * random.index(4);
            let by = random.pick(&[1, 4, 252, 255]);
            image[field] = image[field].wrapping_add(by);
        }
        Fault::SecondByte => image[1] = random.between(1, 255) as u8,
        _ => {}
    }
}

/// A valid image with some of its bytes spoiled, or no image at all.
pub fn damaged_case(random: &mut Random) -> Case {
    let mut case = valid_case(random);
    let image = &mut case.image;
    match random.below(8) {
        // A few flipped bits, anywhere or in the fixed part.
        kind @ 0..=2 => {
            let places = if kind == 2 { HEADER } else { image.len() };
            for _ in 0..random.between(1, 8) {
                image[random.index(places)] ^= 1 << random.below(8);
            }
        }
        // Cut short.
        3 => image.truncate(random.index(image.len() + 1)),
        // Bytes taken out or put in, which moves all that follow.
        4 => {
            let at = random.index(image.len());
            if random.chance(2) {
                image.remove(at);
            } else {
                image.insert(at, random.word() as u8);
            }
        }
        // Wild offsets and lengths.
        5 => {
            for _ in 0..random.between(1, 3) {
                spoil_image(random, &mut case, Fault::SectionPlace);
            }
        }
        // Two sections' pairs exchanged.
        6 => {
            let (i, j) = (4 + 8 * random.index(4), 4 + 8 * random.index(4));
            for k in 0..8 {
                image.swap(i + k, j + k);
            }
        }
        // Bytes without any meaning.
        _ => {
            let length = random.pick(&[0, 1, 36, 40, 300]);
            *image = (0..length).map(|_| random.word() as u8).collect();
        }
    }
    case
}
