//! Times what a brush asks, `mover_vertices_within` and `mover_nearest_vertex`, beside LEMON's Dijkstra.
//!
//! Both sides start from the three edge lists, as a host holds them. The weight mover checks them; LEMON builds its graph of them,
//! runs Dijkstra from the start and takes the answer from the distances. Its run alone, on a graph that was built before, is timed too.

use crate::{median, timed, Class, CLASSES, ROUNDS};
use reference::flow::distances;
use reference::random::{measures, Measures, Random};
use reference::{Edge, Lists, Problem};
use std::hint::black_box;
use weight_mover::calls::{mover_nearest_vertex, mover_vertices_within};

mod ffi {
    #[repr(C)]
    pub struct Lists {
        pub n: usize,
        pub m: usize,
        pub a: *const u32,
        pub b: *const u32,
        pub lengths: *const u32,
    }

    #[repr(C)]
    pub struct Patch {
        _opaque: [u8; 0],
    }

    extern "C" {
        pub fn lemon_vertices_within(lists: *const Lists, start: usize, reach: u32) -> u64;
        pub fn lemon_nearest_vertex(lists: *const Lists, start: usize, amounts: *const u64) -> u32;
        pub fn lemon_patch_new(lists: *const Lists) -> *mut Patch;
        pub fn lemon_patch_run(patch: *mut Patch, start: usize);
        pub fn lemon_patch_within(patch: *const Patch, reach: u32) -> u64;
        pub fn lemon_patch_nearest(patch: *const Patch, amounts: *const u64) -> u32;
        pub fn lemon_patch_free(patch: *mut Patch);
    }
}

/// The pairs of a path through all vertices, from the lowest number to the highest, the second lowest and so on: sweeps over the
/// edges by rising and by falling number, in turn, come one edge further each.
fn zigzag_pairs(n: usize) -> Vec<(usize, usize)> {
    let path: Vec<usize> = (0..n)
        .map(|k| if k % 2 == 0 { k / 2 } else { n - 1 - k / 2 })
        .collect();
    path.windows(2)
        .map(|ends| (ends[0].min(ends[1]), ends[0].max(ends[1])))
        .collect()
}

/// That path, and other edges up to m in all, of which none is shorter than the way along the path.
fn zigzag(random: &mut Random, n: usize, m: usize) -> Vec<Edge> {
    let path = zigzag_pairs(n);
    let mut others: Vec<(usize, usize)> = (0..n)
        .flat_map(|a| (a + 1..n).map(move |b| (a, b)))
        .filter(|ends| !path.contains(ends))
        .collect();
    random.shuffle(&mut others);
    others.truncate(m - path.len());
    let short = path.into_iter().map(|ends| (ends, random.between(1, 1_000)));
    let long = others.into_iter().map(|ends| (ends, 65_535));
    let mut edges: Vec<Edge> = short
        .chain(long)
        .map(|((a, b), length)| Edge { a, b, length })
        .collect();
    edges.sort_unstable_by_key(|e| (e.a, e.b));
    edges
}

/// What is hard where labels are corrected in sweeps.
const ZIGZAGS: [Class; 2] = [
    Class {
        name: "zigzag path 64/63, random lengths",
        vertices: 64,
        edges: |random| zigzag(random, 64, 63),
        measures: Measures::Sparse,
    },
    Class {
        name: "zigzag path and long edges 64/512",
        vertices: 64,
        edges: |random| zigzag(random, 64, 512),
        measures: Measures::Sparse,
    },
];

/// A patch, what is asked on it, and the answers.
struct Brush {
    lists: Lists,
    start: usize,
    reach: u32,
    mask: u64,
    vertex: u64,
}

impl Brush {
    /// Any start, the median distance as the reach, paint on up to three vertices.
    fn draw(random: &mut Random, class: &Class) -> Brush {
        let n = class.vertices;
        let edges = (class.edges)(random);
        let (mu, nu) = measures(random, n, Measures::Sparse);
        let problem = Problem {
            n,
            edges,
            mu,
            nu,
            tree: None,
        };
        let start = random.index(n);
        let apart = &distances(&problem)[n * start..][..n];
        let mut sorted = apart.to_vec();
        sorted.sort_unstable();
        let reach = sorted[n / 2];
        let painted = (0..n).filter(|&x| problem.mu[x] > 0);
        Brush {
            lists: Lists::of(&problem),
            start,
            reach: u32::try_from(reach).expect("a 32-bit number"),
            mask: (0..n)
                .filter(|&x| apart[x] <= reach)
                .fold(0, |mask, x| mask | 1 << x),
            vertex: painted.min_by_key(|&x| apart[x]).map_or(64, |x| x as u64),
        }
    }

    fn within(&self) -> u64 {
        let Lists { n, a, b, lengths, .. } = black_box(&self.lists);
        let mut mask = 0;
        let number = mover_vertices_within(*n, a, b, lengths, self.start, self.reach, &mut mask);
        assert_eq!(number, 0, "the query is accepted");
        mask
    }

    fn nearest(&self) -> u64 {
        let Lists {
            n, a, b, lengths, mu, ..
        } = black_box(&self.lists);
        let mut vertex = 0;
        let number = mover_nearest_vertex(*n, a, b, lengths, self.start, mu, &mut vertex);
        assert_eq!(number, 0, "the query is accepted");
        vertex.into()
    }

    fn lemon_lists(&self) -> ffi::Lists {
        let lists = black_box(&self.lists);
        ffi::Lists {
            n: lists.n,
            m: lists.a.len(),
            a: lists.a.as_ptr(),
            b: lists.b.as_ptr(),
            lengths: lists.lengths.as_ptr(),
        }
    }

    // SAFETY of the calls of LEMON: the lists are those of a connected graph, and the painting is n long.

    fn lemon_within(&self) -> u64 {
        unsafe { ffi::lemon_vertices_within(&self.lemon_lists(), self.start, self.reach) }
    }

    fn lemon_nearest(&self) -> u64 {
        let amounts = self.lists.mu.as_ptr();
        unsafe { ffi::lemon_nearest_vertex(&self.lemon_lists(), self.start, amounts) }.into()
    }
}

/// LEMON's graph of a patch, with its Dijkstra.
struct Built<'a> {
    brush: &'a Brush,
    patch: *mut ffi::Patch,
}

impl<'a> Built<'a> {
    // SAFETY of the calls: the patch is there until it is dropped, and has been run before it is asked.

    fn new(brush: &'a Brush) -> Built<'a> {
        let patch = unsafe { ffi::lemon_patch_new(&brush.lemon_lists()) };
        Built { brush, patch }
    }

    /// Runs Dijkstra and takes no answer.
    fn run(&mut self) -> u64 {
        unsafe { ffi::lemon_patch_run(black_box(self.patch), self.brush.start) };
        0
    }

    fn answers(&self) -> (u64, u64) {
        let amounts = self.brush.lists.mu.as_ptr();
        let mask = unsafe { ffi::lemon_patch_within(self.patch, self.brush.reach) };
        let vertex = unsafe { ffi::lemon_patch_nearest(self.patch, amounts) };
        (mask, vertex.into())
    }
}

impl Drop for Built<'_> {
    fn drop(&mut self) {
        unsafe { ffi::lemon_patch_free(self.patch) }
    }
}

/// The calls that are timed.
const CALLS: usize = 5;

/// Microseconds of one call on a patch: within and nearest by the weight mover, both by LEMON, and LEMON's run alone.
fn once(built: &mut Built, call: usize) -> f64 {
    let brush = built.brush;
    let answers = [brush.mask, brush.vertex, brush.mask, brush.vertex, 0];
    let (time, answer) = match call {
        0 => timed(|| brush.within()),
        1 => timed(|| brush.nearest()),
        2 => timed(|| brush.lemon_within()),
        3 => timed(|| brush.lemon_nearest()),
        _ => timed(|| built.run()),
    };
    assert_eq!(answer, answers[call], "the answers agree");
    time
}

/// Of each call the median of its rounds on each patch. In a row, all rounds are on one patch before the next; in turn, a call goes over all
/// patches before the next call and the next round, so that none follows one of its kind on the same patch.
fn measure(patches: &mut [Built], in_turn: bool) -> Vec<[f64; CALLS]> {
    let count = patches.len();
    let mut times = vec![[const { Vec::new() }; CALLS]; count];
    let mut time = |x: usize, call: usize| times[x][call].push(once(&mut patches[x], call));
    if in_turn {
        let turns = (0..ROUNDS * CALLS).flat_map(|k| (0..count).map(move |x| (x, k % CALLS)));
        turns.for_each(|(x, call)| time(x, call));
    } else {
        let turns = (0..count).flat_map(|x| (0..ROUNDS * CALLS).map(move |k| (x, k % CALLS)));
        turns.for_each(|(x, call)| time(x, call));
    }
    for built in patches {
        assert_eq!(
            built.answers(),
            (built.brush.mask, built.brush.vertex),
            "the answers agree"
        );
    }
    times.into_iter().map(|lists| lists.map(median)).collect()
}

/// The row of a class.
fn row(class: &Class, times: &[[f64; CALLS]]) -> String {
    let columns: Vec<f64> = (0..CALLS)
        .map(|k| median(times.iter().map(|t| t[k]).collect()))
        .collect();
    let ratios = [(0, 2), (1, 3), (0, 4), (1, 4)]
        .map(|(mover, lemon)| median(times.iter().map(|t| t[mover] / t[lemon]).collect()));
    let cells: String = columns
        .iter()
        .chain(&ratios)
        .map(|x| format!(" {x:.2} |"))
        .collect();
    format!("| {} |{cells}", class.name)
}

/// Prints two tables: calls in a row on each patch, and in turn over the patches. The last class of the other table differs from
/// its first in the measures alone.
pub fn table(patches: u64, seed: u64) {
    println!("{patches} patches of each class, seed {seed}. Of each call the median of {ROUNDS} on each patch, then the median");
    println!("over the patches, in microseconds: mover_vertices_within, mover_nearest_vertex, both by LEMON's Dijkstra with the");
    println!("building of its graph, and Dijkstra's run alone on a graph that was built before. A ratio below 1: the weight mover");
    println!("is the faster. All answers agree. First with all calls on a patch in a row, then in turn over the patches.");
    let mut rows = [Vec::new(), Vec::new()];
    for class in CLASSES[..6].iter().chain(&ZIGZAGS) {
        let random = &mut Random::new(seed);
        let brushes: Vec<Brush> = (0..patches).map(|_| Brush::draw(random, class)).collect();
        let mut built: Vec<Built> = brushes.iter().map(Built::new).collect();
        rows[0].push(row(class, &measure(&mut built, false)));
        rows[1].push(row(class, &measure(&mut built, true)));
    }
    for rows in rows {
        println!();
        println!("| patches | within | nearest | LEMON within | LEMON nearest | LEMON's run | within / LEMON | nearest / LEMON | within / run | nearest / run |");
        println!("|---|---:|---:|---:|---:|---:|---:|---:|---:|---:|");
        rows.iter().for_each(|row| println!("{row}"));
    }
}
