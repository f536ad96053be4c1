//! `mover_write_page` on sound patches with any trees, on paths, stars and the largest figures, and on faulty ones.

use crate::lent::Lent;
use crate::writer::judge_buffer;
use crate::{ensure, pass};
use reference::checks::MAX_TOTAL;
use reference::exhaustive::{hang, spanning_trees};
use reference::page::{page, LINE};
use reference::random::{self, Lengths, Measures, Random};
use reference::random_pages::{first_number, printable, unprintable, Given, Unprintable, UNPRINTABLE};
use reference::runs::{cases, seed};
use reference::{Lists, Problem, Tree};
use weight_mover::calls::{mover_evaluate, mover_write_page};

/// All that the call is lent.
pub struct Job {
    pub n: usize,
    pub root: usize,
    /// Lower ends, upper ends and lengths.
    pub edges: [Lent<u32>; 3],
    pub measures: [Lent<u64>; 2],
    pub parents: Lent<u32>,
    pub buffer: Lent<u8>,
    pub length: Lent<usize>,
}

impl Job {
    pub fn new(random: &mut Random, Given { lists, buffer }: &Given) -> Job {
        let exact = random.chance(2);
        Job {
            n: lists.n,
            root: lists.root,
            edges: [&lists.a, &lists.b, &lists.lengths].map(|list| Lent::new(random, list, exact)),
            measures: [&lists.mu, &lists.nu].map(|list| Lent::new(random, list, exact)),
            parents: Lent::new(random, &lists.parents, exact),
            buffer: Lent::filled(random, *buffer, exact),
            length: Lent::single(random),
        }
    }

    /// The call of the library.
    pub fn make(&mut self) -> u32 {
        let [a, b, lengths] = &self.edges;
        let [mu, nu] = &self.measures;
        mover_write_page(
            self.n,
            a.content(),
            b.content(),
            lengths.content(),
            mu.content(),
            nu.content(),
            self.root,
            self.parents.content(),
            self.buffer.content_mut(),
            self.length.one(),
        )
    }

    fn lists_are_as_lent(&self) -> bool {
        self.edges.iter().all(Lent::is_as_lent)
            && self.measures.iter().all(Lent::is_as_lent)
            && self.parents.is_as_lent()
    }

    /// What stands in the buffer up to the length that was told.
    pub fn page(&self) -> &[u8] {
        &self.buffer.content()[..self.length.content()[0]]
    }
}

/// Judges all that a call did. The lines come first: a complaint about one of them can be read.
pub fn judge(given: &Given, job: &Job, number: u32) -> Result<(), String> {
    ensure(job.lists_are_as_lent(), || "a list was changed".into())?;
    let expected = page(&given.lists, given.buffer).map(String::into_bytes);
    if let (Ok(expected), 0) = (&expected, number) {
        let lines = expected.chunks(LINE).zip(job.buffer.content().chunks(LINE));
        for (index, (line, got)) in lines.enumerate() {
            let got = &got[..LINE];
            ensure(got == line, || {
                let [line, got] = [line, got].map(|line| line.escape_ascii());
                format!("line {index}: expected \"{line}\", but got \"{got}\"")
            })?;
        }
    }
    judge_buffer(&expected, number, &job.length, &job.buffer)
}

/// The call under test, or one made wrong on purpose.
pub type Make<'a> = &'a dyn Fn(&mut Job) -> u32;

/// Makes a call and judges it; its number, and the page.
pub fn try_case(make: Make, random: &mut Random, given: &Given) -> Result<(u32, Vec<u8>), String> {
    let mut job = Job::new(random, given);
    let number = make(&mut job);
    judge(given, &job, number).map_err(|complaint| format!("{complaint}\n{given:?}"))?;
    Ok((number, job.page().to_vec()))
}

/// A line taken apart: the vertex, its depth, its imbalance and its potential.
fn parse(line: &str) -> Option<(usize, usize, i32, i32)> {
    let (name, imbalance, potential) = (line.get(..68)?, line.get(68..79)?, line.get(79..90)?);
    let depth = name.len() - name.trim_start_matches(' ').len();
    let (digits, rest) = name[depth..].split_at_checked(2)?;
    let is_blank = |text: &str| text.bytes().all(|byte| byte == b' ');
    let number = |field: &str| -> Option<i32> {
        let number = field.trim_start_matches(' ').parse().ok()?;
        (field == format!("{number:11}")).then_some(number)
    };
    let whole =
        is_blank(rest) && digits.bytes().all(|byte| byte.is_ascii_digit()) && &line[90..] == "     \n";
    let figures = (
        digits.parse().ok()?,
        depth,
        number(imbalance)?,
        number(potential)?,
    );
    whole.then_some(figures)
}

/// Reads a page without the reference: it has the lists' tree, children by rising number, and the figures that the
/// library's evaluation has.
pub fn reads_back(lists: &Lists, page: &[u8]) -> Result<(), String> {
    let n = lists.n;
    let text = std::str::from_utf8(page).map_err(|e| e.to_string())?;
    ensure(page.len() == LINE * n, || format!("{} bytes", page.len()))?;
    let (mut imbalance, mut potential, mut plan) = (vec![0; n], vec![0; n], vec![0; n * n]);
    let (mut cost, mut moves) = (0, 0);
    let number = mover_evaluate(
        n,
        &lists.a,
        &lists.b,
        &lists.lengths,
        &lists.mu,
        &lists.nu,
        lists.root,
        &lists.parents,
        &mut imbalance,
        &mut potential,
        &mut plan,
        &mut cost,
        &mut moves,
    );
    ensure(number == 0, || format!("evaluating is refused {number}"))?;
    // From the root to the vertex of the line before; and each vertex's last child so far.
    let mut way: Vec<usize> = Vec::new();
    let (mut last, mut seen) = (vec![None; n], vec![false; n]);
    for line in text.split_inclusive('\n') {
        let bad = |what: &str| format!("{what}: \"{}\"", line.escape_default());
        let (x, depth, of_line, potential_of_line) = parse(line).ok_or_else(|| bad("no line"))?;
        ensure(x < n && !seen[x], || bad("no vertex, or one that was there"))?;
        ensure(depth <= way.len() && (depth > 0) == (x != lists.root), || {
            bad("too deep or not deep enough")
        })?;
        way.truncate(depth);
        if let Some(&parent) = way.last() {
            ensure(lists.parents[x] as usize == parent, || bad("another parent's"))?;
            ensure(last[parent] < Some(x), || bad("children do not rise"))?;
            last[parent] = Some(x);
        }
        ensure(of_line == imbalance[x], || bad("another imbalance"))?;
        ensure(potential_of_line == potential[x], || bad("another potential"))?;
        seen[x] = true;
        way.push(x);
    }
    ensure(seen.iter().all(|&seen| seen), || "a vertex is missing".into())
}

/// Prints what is accepted, into a buffer that just fits and one that is longer; the page.
fn printed(random: &mut Random, lists: &Lists) -> String {
    let mut given = Given::fitted(lists.clone());
    let (number, page) = pass(try_case(&Job::make, random, &given));
    assert_eq!(number, 0, "{lists:?}");
    pass(reads_back(lists, &page));
    given.buffer += 1 + random.index(200);
    let longer = pass(try_case(&Job::make, random, &given));
    assert_eq!(longer, (0, page.clone()));
    String::from_utf8(page).expect("ASCII")
}

/// Sound patches of every kind, with random trees and roots.
#[test]
fn sound_patches() {
    let (seed, count) = (seed(), cases(10_000));
    let (mut deepest, mut negative, mut flat) = (0, 0, 0);
    for index in 0..count {
        let random = &mut Random::for_case(seed, index);
        let given = printable(random);
        let place = |complaint| format!("seed {seed}, case {index}: {complaint}");
        let (number, page) = pass(try_case(&Job::make, random, &given).map_err(place));
        assert_eq!(number, 0, "seed {seed}, case {index}");
        pass(reads_back(&given.lists, &page).map_err(place));
        let lines = page.chunks(LINE);
        let depth = |line: &[u8]| line.iter().take_while(|&&byte| byte == b' ').count();
        deepest = lines.clone().map(depth).max().max(Some(deepest)).expect("a line");
        negative += lines.clone().filter(|line| line.contains(&b'-')).count();
        flat += lines.filter(|line| line[77..79] == *b" 0").count();
    }
    println!(
        "pages of sound patches: seed {seed}, {count} cases, depth up to {deepest}, lines with a minus {negative}, \
         with no imbalance {flat}"
    );
    assert!(count < 1_000 || deepest > 50 && negative > 1_000 && flat > 1_000);
}

/// One fault in its turn, often with others.
fn some_faults(random: &mut Random, index: u64) -> Vec<Unprintable> {
    let mut faults = UNPRINTABLE.to_vec();
    random.shuffle(&mut faults);
    let first = UNPRINTABLE[index as usize % UNPRINTABLE.len()];
    faults.retain(|&fault| fault != first);
    faults.truncate(random.index(4).saturating_sub(1));
    faults.push(first);
    faults
}

/// What is printed, or has some faults.
pub fn any_case(random: &mut Random, index: u64) -> Given {
    match index % 3 {
        0 => printable(random),
        _ => {
            let faults = some_faults(random, index);
            unprintable(random, &faults)
        }
    }
}

/// Each fault in its turn, alone and with others: just the numbers 1 to 10 come up, the least first.
#[test]
fn refusals() {
    let (seed, count) = (seed(), cases(10_000));
    let mut numbers = [0; 11];
    for index in 0..count {
        let random = &mut Random::for_case(seed, index);
        let faults = some_faults(random, index);
        let given = unprintable(random, &faults);
        let place = |complaint| format!("seed {seed}, case {index}, {faults:?}: {complaint}");
        let (number, page) = pass(try_case(&Job::make, random, &given).map_err(place));
        assert_eq!(
            number,
            first_number(&faults),
            "seed {seed}, case {index}: {faults:?}"
        );
        assert!(page.is_empty());
        numbers[number as usize] += 1;
    }
    println!("printing what is faulty: seed {seed}, {count} cases, by number {numbers:?}");
    assert!(
        count < 300 || numbers[0] == 0 && numbers[1..].iter().all(|&times| times > 0),
        "{numbers:?}"
    );
}

/// Every two faults together: the order of the checks.
#[test]
fn order_of_checks() {
    let random = &mut Random::new(seed());
    for (index, first) in UNPRINTABLE.into_iter().enumerate() {
        for &second in &UNPRINTABLE[index + 1..] {
            for _ in 0..cases(50) {
                let faults = [first, second];
                let given = unprintable(random, &faults);
                let (number, _) = pass(try_case(&Job::make, random, &given));
                assert_eq!(number, first_number(&faults), "{faults:?}: {given:?}");
            }
        }
    }
}

/// The lists of a tree alone, hung on this root: these pairs, each with a length, and two measures.
fn lists_of_tree(
    pairs: &[(usize, usize)],
    root: usize,
    length: impl FnMut() -> u64,
    (mu, nu): (Vec<u64>, Vec<u64>),
) -> Lists {
    let n = pairs.len() + 1;
    let Tree { root, parents } = hang(n, pairs, root).expect("a tree");
    let mut edges: Vec<(usize, usize)> = pairs.iter().map(|&(x, y)| (x.min(y), x.max(y))).collect();
    edges.sort_unstable();
    let edges: Vec<(usize, usize, u64)> = edges
        .into_iter()
        .zip(std::iter::repeat_with(length))
        .map(|((a, b), length)| (a, b, length))
        .collect();
    Lists::of(&Problem::new(n, &edges, &mu, &nu).with_tree(root, &parents))
}

/// Two measures of 64 vertices that carry all there is from one vertex to another.
fn point_to_point(from: usize, to: usize) -> (Vec<u64>, Vec<u64>) {
    let (mut mu, mut nu) = (vec![0; 64], vec![0; 64]);
    (mu[from], nu[to]) = (MAX_TOTAL, MAX_TOTAL);
    (mu, nu)
}

/// The 64 vertices by rising number, by falling number, and shuffled.
fn numberings(random: &mut Random) -> [Vec<usize>; 3] {
    let rising: Vec<usize> = (0..64).collect();
    let falling = rising.iter().rev().copied().collect();
    let mut shuffled = rising.clone();
    random.shuffle(&mut shuffled);
    [rising, falling, shuffled]
}

/// A path through all 64 vertices under each of its vertices, with figures of every kind.
#[test]
fn paths() {
    let seed = seed();
    let random = &mut Random::new(seed);
    let kinds = [
        Measures::Small,
        Measures::PointToPoint,
        Measures::Large,
        Measures::Equal,
    ];
    for names in numberings(random) {
        let pairs: Vec<_> = names.windows(2).map(|pair| (pair[0], pair[1])).collect();
        for &root in &names {
            let kind = random.pick(&kinds);
            let measures = random::measures(random, 64, kind);
            let most = random.pick(&[0, 1, 65_535]);
            let lists = lists_of_tree(&pairs, root, || random.between(0, most), measures);
            let page = printed(&mut Random::new(seed), &lists);
            if root == names[0] {
                for (depth, line) in page.lines().enumerate() {
                    let name = format!("{}{:02}", " ".repeat(depth), names[depth]);
                    assert_eq!(line[..68].trim_end(), name, "seed {seed}");
                }
            }
        }
    }
}

/// The largest figures of both signs, at every depth of a path: columns that are full, and no more.
#[test]
fn largest_figures() {
    let random = &mut Random::new(seed());
    for names in numberings(random) {
        let pairs: Vec<_> = names.windows(2).map(|pair| (pair[0], pair[1])).collect();
        let (first, last) = (names[0], names[63]);
        for (from, to, sign) in [(first, last, -1), (last, first, 1)] {
            let lists = lists_of_tree(&pairs, first, || 65_535, point_to_point(from, to));
            let page = printed(random, &lists);
            for (depth, (&x, line)) in names.iter().zip(page.lines()).enumerate() {
                let imbalance = if depth == 0 { 0 } else { sign * 16_777_216 };
                let name = format!("{}{x:02}", " ".repeat(depth));
                let expected = format!("{name:68}{imbalance:11}{:11}     ", sign * 65_535 * depth as i64);
                assert_eq!(line, expected);
            }
        }
    }
    let rising: Vec<_> = (1..64).map(|x| (x - 1, x)).collect();
    let lists = lists_of_tree(&rising, 0, || 65_535, point_to_point(0, 63));
    let page = printed(random, &lists);
    let last = "                                                               63     \
                -16777216   -4128705     \n";
    assert_eq!(&page[63 * LINE..], last);
}

/// A star of 64 vertices round each of them, hung on its centre and on its leaves.
#[test]
fn stars() {
    let seed = seed();
    let random = &mut Random::new(seed);
    for centre in 0..64 {
        let leaves = (0..64).filter(|&x| x != centre);
        let pairs: Vec<_> = leaves.clone().map(|x| (centre, x)).collect();
        let order: Vec<usize> = leaves.collect();
        for root in [centre, random.pick(&order)] {
            let measures = random::measures(random, 64, Measures::Large);
            let lists = lists_of_tree(&pairs, root, || random.between(0, 65_535), measures);
            let page = printed(&mut Random::new(seed), &lists);
            let names: Vec<&str> = page.lines().map(|line| line[..68].trim_end()).collect();
            let top = if root == centre { 1 } else { 2 };
            assert_eq!(names[0], format!("{root:02}"));
            assert!(top == 1 || names[1] == format!(" {centre:02}"));
            let below = order.iter().filter(|&&x| x != root);
            let below: Vec<String> = below.map(|x| format!("{}{x:02}", " ".repeat(top))).collect();
            assert_eq!(names[top..], below, "seed {seed}");
        }
    }
}

/// Every spanning tree of every complete graph of up to five vertices, under every root.
#[test]
fn all_small_trees() {
    let random = &mut Random::new(seed());
    let mut trees = 0;
    for n in 1..6 {
        let edges = random::connected(random, n, 10, Lengths::Any);
        let (mu, nu) = random::measures(random, n, Measures::Small);
        let mut problem = Problem {
            n,
            edges,
            mu,
            nu,
            tree: None,
        };
        for root in 0..n {
            for tree in spanning_trees(&problem, root) {
                problem.tree = Some(tree);
                printed(random, &Lists::of(&problem));
                trees += 1;
            }
        }
    }
    // Cayley: there are n^(n-2) trees on n vertices, and n roots for each.
    assert_eq!(trees, 1 + 2 + 3 * 3 + 4 * 16 + 5 * 125);
}

/// The lists of a tree with branches; the edge of 4 and 3 carries nothing.
pub fn branches() -> Lists {
    let edges = [(0, 2, 10), (0, 4, 1), (1, 3, 300), (2, 3, 5), (3, 4, 7)];
    let (mu, nu) = ([12, 0, 0, 1, 6], [0, 11, 2, 0, 6]);
    Lists::of(&Problem::new(5, &edges, &mu, &nu).with_tree(2, &[2, 3, 2, 2, 3]))
}

fn set_length(given: &mut Given, which: usize, length: usize) {
    let lists = &mut given.lists;
    match which {
        0 => lists.a.resize(length, 1),
        1 => lists.b.resize(length, 2),
        2 => lists.lengths.resize(length, 7),
        3 => lists.mu.resize(length, 0),
        4 => lists.nu.resize(length, 0),
        5 => lists.parents.resize(length, 3),
        _ => given.buffer = length,
    }
}

/// Every length of every list and of the buffer, and all of them mixed.
#[test]
fn every_length() {
    let random = &mut Random::new(seed());
    let right = Given::fitted(branches());
    let size = right.buffer;
    assert_eq!(size, 480);
    for which in 0..7 {
        for length in 0..size + 100 {
            let mut given = right.clone();
            set_length(&mut given, which, length);
            let accepted = if which == 6 { length >= size } else { length == 5 };
            let (number, _) = pass(try_case(&Job::make, random, &given));
            assert_eq!(number, if accepted { 0 } else { 2 }, "list {which}, {length}");
        }
    }
    for _ in 0..cases(2_000) {
        let mut given = right.clone();
        for _ in 0..random.between(1, 3) {
            set_length(&mut given, random.index(6), random.between(3, 7) as usize);
        }
        given.buffer = random.between(470, 490) as usize;
        pass(try_case(&Job::make, random, &given));
    }
}

/// Both sides of the bounds of n, with buffers from a line too short to a line too long, and of m; and counts that would
/// be sound if they were cut to fewer bits.
#[test]
fn sizes_at_their_bounds() {
    let random = &mut Random::new(seed());
    for n in 0..71usize {
        let edges: Vec<_> = (1..n).map(|x| (x - 1, x, 1)).collect();
        let parents: Vec<usize> = (0..n).map(|x| x.saturating_sub(1)).collect();
        let line = Problem::new(n, &edges, &vec![1; n], &vec![1; n]).with_tree(0, &parents);
        let mut given = Given::fitted(Lists::of(&line));
        let size = LINE * n;
        for buffer in [
            size.saturating_sub(LINE),
            size.saturating_sub(1),
            size,
            size + 1,
            size + LINE,
        ] {
            given.buffer = buffer;
            let (number, _) = pass(try_case(&Job::make, random, &given));
            let expected = match n {
                0 | 65.. => 1,
                _ if buffer < size => 2,
                _ => 0,
            };
            assert_eq!(number, expected, "{n} vertices, {buffer} bytes");
        }
    }
    for n in [256 + 5, 65_536 + 5, 1 << 32 | 5, 1 << 59 | 5, 1 << 63, usize::MAX] {
        let mut given = Given::fitted(branches());
        given.lists.n = n;
        assert_eq!(pass(try_case(&Job::make, random, &given)).0, 1, "{n} vertices");
    }
    let all = (0..64).flat_map(|a| (a + 1..64).map(move |b| (a, b, 5)));
    let all: Vec<(usize, usize, u64)> = all.collect();
    for m in 510..515 {
        let crowded = Problem::new(64, &all[..m], &[1; 64], &[1; 64]).with_tree(0, &[0; 64]);
        let given = Given::fitted(Lists::of(&crowded));
        let (number, _) = pass(try_case(&Job::make, random, &given));
        assert_eq!(number, if m > 512 { 2 } else { 0 }, "{m} edges");
    }
}

/// From several threads at once.
#[test]
fn several_threads() {
    let (seed, count) = (seed(), cases(500));
    std::thread::scope(|scope| {
        for thread in 0..4 {
            scope.spawn(move || {
                for index in 0..count {
                    let random = &mut Random::for_case(seed + thread, index);
                    let given = any_case(random, index);
                    pass(try_case(&Job::make, random, &given));
                }
            });
        }
    });
    println!("several threads, pages: seed {seed}, 4 times {count} cases");
}
