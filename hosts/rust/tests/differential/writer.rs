//! `mover_write_image` on patches of any numbers: those that an image can hold, sound or not, and others.

use crate::lent::Lent;
use crate::{ensure, pass};
use reference::random::Random;
use reference::random_writer::{accepted, refused, Given, Unwritable, AMOUNT, UNWRITABLE};
use reference::runs::{cases, seed};
use reference::writer::write;
use reference::{Lists, Problem};
use weight_mover::calls::{mover_read, mover_write_image};
use weight_mover::image_size;

/// All that the writer is lent.
pub struct Job {
    pub n: usize,
    pub tree: bool,
    pub root: usize,
    /// Lower ends, upper ends and lengths.
    pub edges: [Lent<u32>; 3],
    pub measures: [Lent<u64>; 2],
    pub parents: Lent<u32>,
    pub buffer: Lent<u8>,
    pub length: Lent<usize>,
}

impl Job {
    pub fn new(random: &mut Random, given: &Given) -> Job {
        let exact = random.chance(2);
        let lists = &given.lists;
        Job {
            n: lists.n,
            tree: given.tree,
            root: lists.root,
            edges: [&lists.a, &lists.b, &lists.lengths].map(|list| Lent::new(random, list, exact)),
            measures: [&lists.mu, &lists.nu].map(|list| Lent::new(random, list, exact)),
            parents: Lent::new(random, &lists.parents, exact),
            buffer: Lent::filled(random, given.buffer, exact),
            length: Lent::single(random),
        }
    }

    /// The call of the library.
    pub fn make(&mut self) -> u32 {
        let [a, b, lengths] = &self.edges;
        let [mu, nu] = &self.measures;
        mover_write_image(
            self.n,
            a.content(),
            b.content(),
            lengths.content(),
            mu.content(),
            nu.content(),
            self.tree,
            self.root,
            self.parents.content(),
            self.buffer.content_mut(),
            self.length.one(),
        )
    }

    fn lists_are_as_lent(&self) -> bool {
        self.edges.iter().all(Lent::is_as_lent)
            && self.measures.iter().all(Lent::is_as_lent)
            && self.parents.is_as_lent()
    }

    /// What stands in the buffer up to the length that was told.
    pub fn image(&self) -> &[u8] {
        &self.buffer.content()[..self.length.content()[0]]
    }
}

/// Tests a number, a length and every byte of a buffer by what is to be written, or by the refusal.
pub fn judge_buffer(
    expected: &Result<Vec<u8>, u32>,
    number: u32,
    length: &Lent<usize>,
    buffer: &Lent<u8>,
) -> Result<(), String> {
    ensure(length.guards_are_whole() && buffer.guards_are_whole(), || {
        "places round the buffer or the length were changed".into()
    })?;
    let told = length.content()[0];
    match expected {
        Ok(image) => {
            ensure(number == 0, || format!("accepted, but got {number}"))?;
            ensure(told == image.len(), || {
                format!("length {told}, not {}", image.len())
            })?;
            let got = &buffer.content()[..told];
            ensure(got == image, || {
                let at = (0..told).find(|&k| got[k] != image[k]).expect("a byte");
                format!("byte {at} of the image: expected {image:?}, but got {got:?}")
            })?;
            ensure(buffer.rest_is_as_lent(told), || {
                "bytes past what is written were changed".into()
            })
        }
        Err(expected) => {
            ensure(number == *expected, || {
                format!("refused {expected}, but got {number}")
            })?;
            ensure(told == 0, || format!("a refusal told the length {told}"))?;
            ensure(buffer.is_as_lent(), || "a refusal changed the buffer".into())
        }
    }
}

/// Judges all that a call did.
pub fn judge(given: &Given, job: &Job, number: u32) -> Result<(), String> {
    ensure(job.lists_are_as_lent(), || "a list was changed".into())?;
    let expected = write(&given.lists, given.tree, given.buffer);
    judge_buffer(&expected, number, &job.length, &job.buffer)
}

/// The call under test, or one made wrong on purpose.
pub type Make<'a> = &'a dyn Fn(&mut Job) -> u32;

/// Makes a call and judges it; its number, and the image.
pub fn try_case(make: Make, random: &mut Random, given: &Given) -> Result<(u32, Vec<u8>), String> {
    let mut job = Job::new(random, given);
    let number = make(&mut job);
    judge(given, &job, number).map_err(|complaint| format!("{complaint}\n{given:?}"))?;
    Ok((number, job.image().to_vec()))
}

/// What reading an image into these lists gives: the number, m, the tree's mark, and all that the lists hold.
pub fn read(image: &[u8], mut lists: Lists) -> (u32, usize, u32, Lists) {
    let (mut m, mut tree) = (9, 9);
    let number = mover_read(
        image,
        &mut lists.a,
        &mut lists.b,
        &mut lists.lengths,
        &mut lists.mu,
        &mut lists.nu,
        &mut lists.parents,
        &mut lists.n,
        &mut m,
        &mut lists.root,
        &mut tree,
    );
    (number, m, tree, lists)
}

/// Reading gives back what was written; without a tree the root is 0 and the parents stay.
pub fn reads_back(given: &Given, image: &[u8]) -> Result<(), String> {
    let Given { lists, tree, .. } = given;
    let (n, m) = (lists.n, lists.a.len());
    let places = Lists {
        n: 9,
        a: vec![9; m],
        b: vec![9; m],
        lengths: vec![9; m],
        mu: vec![9; n],
        nu: vec![9; n],
        root: 9,
        parents: vec![9; n],
    };
    let mut expected = lists.clone();
    if !tree {
        (expected.root, expected.parents) = (0, vec![9; n]);
    }
    let got = read(image, places);
    ensure(got == (0, m, u32::from(*tree), expected), || {
        format!("{given:?} is read as {got:?}")
    })
}

/// How often each number came up.
pub type Numbers = [u64; 14];

pub fn came_up(numbers: &Numbers, own: &[usize]) -> bool {
    (0..14).all(|k| (numbers[k] > 0) == own.contains(&k))
}

/// What is written, or has some faults.
pub fn any_case(random: &mut Random, index: u64) -> Given {
    match index % 3 {
        0 => accepted(random),
        _ => {
            let faults = some_faults(random, index);
            refused(random, &faults)
        }
    }
}

/// Whatever an image can hold is written, and read back.
#[test]
fn holdable_patches() {
    let (seed, count) = (seed(), cases(10_000));
    let mut trees = 0;
    for index in 0..count {
        let random = &mut Random::for_case(seed, index);
        let given = accepted(random);
        let place = |complaint| format!("seed {seed}, case {index}: {complaint}");
        let (number, image) = pass(try_case(&Job::make, random, &given).map_err(place));
        assert_eq!(number, 0, "seed {seed}, case {index}");
        pass(reads_back(&given, &image).map_err(place));
        trees += u64::from(given.tree);
    }
    println!("holdable patches: seed {seed}, {count} cases, {trees} with a tree");
    assert!(count < 100 || trees > 0 && trees < count);
}

/// One fault in its turn, often with others.
fn some_faults(random: &mut Random, index: u64) -> Vec<Unwritable> {
    let mut faults = UNWRITABLE.to_vec();
    random.shuffle(&mut faults);
    let first = UNWRITABLE[index as usize % UNWRITABLE.len()];
    faults.retain(|&fault| fault != first);
    faults.truncate(random.index(4).saturating_sub(1));
    faults.push(first);
    faults
}

/// The number of these faults that comes first: 1 before 2 and 2 before 13. 0 if none of them is looked at.
fn first_number(faults: &[Unwritable], tree: bool) -> u32 {
    let numbers = faults.iter().filter_map(|fault| fault.number(tree));
    numbers.min().unwrap_or(0)
}

/// Each fault in its turn, alone and with others: just the writer's own numbers come up, in their order.
#[test]
fn refusals() {
    let (seed, count) = (seed(), cases(20_000));
    let mut numbers = Numbers::default();
    for index in 0..count {
        let random = &mut Random::for_case(seed, index);
        let faults = some_faults(random, index);
        let given = refused(random, &faults);
        let place = |complaint| format!("seed {seed}, case {index}, {faults:?}: {complaint}");
        let (number, _) = pass(try_case(&Job::make, random, &given).map_err(place));
        assert_eq!(
            number,
            first_number(&faults, given.tree),
            "seed {seed}, case {index}"
        );
        numbers[number as usize] += 1;
    }
    println!("writing what is faulty: seed {seed}, {count} cases, by number {numbers:?}");
    assert!(count < 200 || came_up(&numbers, &[0, 1, 2, 13]), "{numbers:?}");
}

/// Every two faults together, with a tree and without: the order of the checks.
#[test]
fn order_of_checks() {
    let random = &mut Random::new(seed());
    for first in UNWRITABLE {
        for second in UNWRITABLE.into_iter().filter(|&second| second != first) {
            for _ in 0..cases(100) {
                let faults = [first, second];
                let given = refused(random, &faults);
                let (number, _) = pass(try_case(&Job::make, random, &given));
                assert_eq!(number, first_number(&faults, given.tree), "{faults:?}: {given:?}");
            }
        }
    }
}

/// The lists of case A.
pub fn case_a() -> Lists {
    let edges = [(0, 1, 2), (1, 2, 3), (2, 3, 1)];
    Lists::of(&Problem::new(4, &edges, &[5, 0, 1, 0], &[0, 2, 1, 3]).with_tree(3, &[1, 2, 3, 3]))
}

fn set_length(given: &mut Given, which: usize, length: usize) {
    let lists = &mut given.lists;
    match which {
        0 => lists.a.resize(length, 7),
        1 => lists.b.resize(length, 7),
        2 => lists.lengths.resize(length, 7),
        3 => lists.mu.resize(length, 7),
        4 => lists.nu.resize(length, 7),
        5 => lists.parents.resize(length, 7),
        _ => given.buffer = length,
    }
}

/// Every length of every list and of the buffer, and all of them mixed.
#[test]
fn every_length() {
    let random = &mut Random::new(seed());
    for tree in [true, false] {
        let right = Given::fitted(case_a(), tree);
        let size = right.buffer;
        assert_eq!(size, if tree { 85 } else { 80 });
        for (which, exact) in [3, 3, 3, 4, 4, 4, size].into_iter().enumerate() {
            for length in 0..size + 20 {
                let mut given = right.clone();
                set_length(&mut given, which, length);
                let accepted = match which {
                    5 if !tree => true,
                    6 => length >= size,
                    _ => length == exact,
                };
                let (number, _) = pass(try_case(&Job::make, random, &given));
                assert_eq!(
                    number,
                    if accepted { 0 } else { 2 },
                    "{tree}, list {which}, {length}"
                );
            }
        }
        for _ in 0..cases(2_000) {
            let mut given = right.clone();
            for _ in 0..random.between(1, 3) {
                set_length(&mut given, random.index(6), random.index(8));
            }
            pass(try_case(&Job::make, random, &given));
        }
    }
}

/// Both sides of the bounds of n and m, and counts that would be sound if they were cut to fewer bits.
#[test]
fn sizes_at_their_bounds() {
    let random = &mut Random::new(seed());
    let wide = [255, 256, 256 + 4, 65_536 + 4, 1 << 32 | 4, 1 << 63, usize::MAX];
    let few = (0..=66).chain(wide);
    let counts = few.flat_map(|n| [0, 1, 511, 512, 513].map(|m| (n, m)));
    for (n, m) in counts.chain([600, 65_535, 65_536, 65_537].map(|m| (4, m))) {
        let places = n.min(300);
        let lists = Lists {
            n,
            a: vec![200; m],
            b: vec![100; m],
            lengths: vec![0; m],
            mu: vec![AMOUNT; places],
            nu: vec![7; places],
            root: 255,
            parents: vec![254; places],
        };
        let expected = match (n, m) {
            (0 | 65.., _) => 1,
            (_, 513..) => 2,
            _ => 0,
        };
        for tree in [true, false] {
            let given = Given::fitted(lists.clone(), tree);
            let (number, image) = pass(try_case(&Job::make, random, &given));
            assert_eq!(number, expected, "{n} vertices, {m} edges");
            assert!(number > 0 || image.len() == image_size(n, m, tree));
        }
    }
}
