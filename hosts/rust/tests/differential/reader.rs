//! `mover_read` into lists of any length.

use crate::lent::Lent;
use crate::{brief, ensure, pass};
use reference::checks;
use reference::random::{self, Random, FAULTS};
use reference::runs::{cases, seed};
use reference::{Lists, Problem};
use std::fmt::Debug;
use weight_mover::calls::mover_read;

/// The lengths of the six lists: a, b, lengths, mu, nu, parents.
type Room = [usize; 6];

/// How many places an answer takes of each list.
fn needed(n: usize, m: usize) -> Room {
    [m, m, m, n, n, n]
}

/// All that the reader is lent.
struct Job {
    image: Lent<u8>,
    edges: [Lent<u32>; 3],
    measures: [Lent<u64>; 2],
    parents: Lent<u32>,
    /// n, m and the root.
    counts: [Lent<usize>; 3],
    tree: Lent<u32>,
}

impl Job {
    fn new(random: &mut Random, image: &[u8], room: Room) -> Job {
        let exact = random.chance(2);
        Job {
            image: Lent::new(random, image, exact),
            edges: [0, 1, 2].map(|k| Lent::filled(random, room[k], exact)),
            measures: [3, 4].map(|k| Lent::filled(random, room[k], exact)),
            parents: Lent::filled(random, room[5], exact),
            counts: [0; 3].map(|_| Lent::single(random)),
            tree: Lent::single(random),
        }
    }

    /// The call of the library.
    fn make(&mut self) -> u32 {
        let [a, b, lengths] = &mut self.edges;
        let [mu, nu] = &mut self.measures;
        let [n, m, root] = &mut self.counts;
        mover_read(
            self.image.content(),
            a.content_mut(),
            b.content_mut(),
            lengths.content_mut(),
            mu.content_mut(),
            nu.content_mut(),
            self.parents.content_mut(),
            n.one(),
            m.one(),
            root.one(),
            self.tree.one(),
        )
    }

    fn guards_are_whole(&self) -> bool {
        self.edges.iter().all(Lent::guards_are_whole)
            && self.measures.iter().all(Lent::guards_are_whole)
            && self.parents.guards_are_whole()
            && self.counts.iter().all(Lent::guards_are_whole)
            && self.tree.guards_are_whole()
    }

    fn lists_are_as_lent(&self) -> bool {
        self.edges.iter().all(Lent::is_as_lent)
            && self.measures.iter().all(Lent::is_as_lent)
            && self.parents.is_as_lent()
    }

    /// n, m, root and the tree's mark.
    fn single_results(&self) -> [usize; 4] {
        let [n, m, root] = &self.counts;
        [n, m, root]
            .map(|count| count.content()[0])
            .into_iter()
            .chain([self.tree.content()[0] as usize])
            .collect::<Vec<_>>()
            .try_into()
            .expect("four")
    }
}

/// The refusal number of a right call, 0 for none.
fn judge(image: &[u8], room: Room, job: &Job, number: u32) -> Result<u32, String> {
    ensure(job.image.is_as_lent(), || "the image was changed".into())?;
    ensure(job.guards_are_whole(), || {
        "places round a list were changed".into()
    })?;
    let fits = |n: usize, m: usize| needed(n, m).iter().zip(room).all(|(&need, have)| have >= need);
    let problem = match checks::read(image, fits) {
        Ok(problem) => problem,
        Err(expected) => {
            ensure(number == expected, || {
                format!("refused {expected}, but got {number}")
            })?;
            ensure(job.lists_are_as_lent(), || "a refusal changed a list".into())?;
            let singles = job.single_results();
            ensure(singles == [0; 4], || format!("a refusal returned {singles:?}"))?;
            return Ok(number);
        }
    };
    ensure(number == 0, || format!("accepted, but got {number}"))?;
    let Lists {
        n,
        a,
        b,
        lengths,
        mu,
        nu,
        root,
        parents,
    } = Lists::of(&problem);
    for (list, expected) in job.edges.iter().zip([a, b, lengths]) {
        holds("an edge list", list, &expected)?;
    }
    for (list, expected) in job.measures.iter().zip([mu, nu]) {
        holds("a measure", list, &expected)?;
    }
    // No parents at all without a tree.
    holds("parents", &job.parents, &parents)?;
    let expected = [n, problem.edges.len(), root, usize::from(problem.tree.is_some())];
    let singles = job.single_results();
    ensure(singles == expected, || {
        format!("returned {singles:?}, not {expected:?}")
    })?;
    Ok(0)
}

fn holds<T: crate::lent::Draw + Debug>(name: &str, list: &Lent<T>, expected: &[T]) -> Result<(), String> {
    let got = &list.content()[..expected.len()];
    ensure(got == expected, || {
        format!("{name}: expected {expected:?}, but got {got:?}")
    })?;
    ensure(list.rest_is_as_lent(expected.len()), || {
        format!("places past the answer in {name} were changed")
    })
}

type Make<'a> = &'a dyn Fn(&mut Job) -> u32;
type DrawCase<'a> = &'a dyn Fn(u64, &mut Random) -> (Vec<u8>, Room);

fn try_case(make: Make, random: &mut Random, image: &[u8], room: Room) -> Result<u32, String> {
    let mut job = Job::new(random, image, room);
    let number = make(&mut job);
    judge(image, room, &job, number).map_err(|complaint| {
        let image: String = image.iter().map(|b| format!("{b:02x}")).collect();
        format!("{complaint}\n{room:?}, image {image}")
    })
}

/// Runs many cases, and counts them by their numbers.
fn run(make: Make, seed: u64, count: u64, draw: DrawCase) -> Result<[u64; 14], String> {
    let mut tally = [0; 14];
    for index in 0..count {
        let random = &mut Random::for_case(seed, index);
        let (image, room) = draw(index, random);
        let number = try_case(make, random, &image, room);
        let number = number.map_err(|c| format!("{c}\nseed {seed}, case {index}"))?;
        tally[number as usize] += 1;
    }
    Ok(tally)
}

/// A sound image, and lists with different numbers of spare places.
fn sound_case(random: &mut Random) -> (Vec<u8>, Room) {
    let problem = random::problem(random);
    let image = problem.image_with(random::layout(random));
    let room = needed(problem.n, problem.edges.len());
    (image, room.map(|need| need + random.pick(&[0, 0, 1, 7, 600])))
}

/// A faulty or damaged image, or a sound one and a list that is too short.
fn faulty_case(index: u64, random: &mut Random) -> (Vec<u8>, Room) {
    let long = [600, 513, 512, 64, 65, 100];
    match index % 3 {
        0 => {
            let fault = FAULTS[index as usize / 3 % FAULTS.len()];
            (random::faulty_case(random, &[fault]).image, long)
        }
        1 => (random::damaged_case(random).image, long),
        _ => {
            let (image, mut room) = sound_case(random);
            let which = random.index(6);
            room[which] = random.index(room[which] + 1);
            (image, room)
        }
    }
}

/// Sound images into lists that are long enough, of unequal length.
#[test]
fn long_and_unequal_lists() {
    let (seed, count) = (seed(), cases(10_000));
    let tally = pass(run(&Job::make, seed, count, &|_, r| sound_case(r)));
    println!("reading into long and unequal lists: seed {seed}, {count} cases");
    assert_eq!(tally[0], count);
}

/// The reader's own numbers come up, and no others: what it does not judge it reads.
#[test]
fn refusals() {
    let (seed, count) = (seed(), cases(12_000));
    let tally = pass(run(&Job::make, seed, count, &faulty_case));
    println!("reading what is faulty: seed {seed}, {count} cases, by number {tally:?}");
    for (number, &times) in tally.iter().enumerate() {
        let own = [0, 1, 2, 11, 12, 13].contains(&number);
        assert!(count < 1_000 || (times > 0) == own, "{number}: {times} times");
    }
}

/// Every length of every list, with a tree and without.
#[test]
fn every_length() {
    let edges = [(0, 1, 2), (1, 2, 3), (2, 3, 1)];
    let plain = Problem::new(4, &edges, &[5, 0, 1, 0], &[0, 2, 1, 3]);
    let with_tree = plain.clone().with_tree(3, &[1, 2, 3, 3]);
    let random = &mut Random::new(seed());
    for problem in [plain, with_tree] {
        let image = problem.image();
        for which in 0..6 {
            for length in 0..20 {
                let mut room = needed(4, 3);
                let need = std::mem::replace(&mut room[which], length);
                let number = pass(try_case(&Job::make, random, &image, room));
                assert_eq!(
                    number,
                    if length < need { 2 } else { 0 },
                    "list {which}, {length}"
                );
            }
        }
        for _ in 0..cases(2_000) {
            let room = [0; 6].map(|_| random.index(8));
            pass(try_case(&Job::make, random, &image, room));
        }
        for length in 0..image.len() {
            let number = pass(try_case(&Job::make, random, &image[..length], [9; 6]));
            assert!(number == 11 || number == 12);
        }
    }
}

/// From the most that can be read to what cannot: 64 vertices and 512 edges, and one more of each.
#[test]
fn sizes_at_their_bounds() {
    let random = &mut Random::new(seed());
    for n in [1, 63, 64, 65, 255] {
        for m in [0, 511, 512, 513, 2000] {
            let edges = vec![(200, 100, 0); m];
            let problem = Problem::new(n, &edges, &vec![u32::MAX as u64; n], &vec![7; n]);
            let expected = match (n, m) {
                (65.., _) => 1,
                (_, 513..) => 2,
                _ => 0,
            };
            for problem in [problem.clone(), problem.with_tree(255, &vec![254; n])] {
                let number = pass(try_case(&Job::make, random, &problem.image(), [2000; 6]));
                assert_eq!(number, expected, "{n} vertices, {m} edges");
            }
        }
    }
}

type Wrong = fn(&mut Job) -> u32;

/// Makes the call, and then something wrong if it was accepted.
fn after(job: &mut Job, wrong: impl FnOnce(&mut Job, [usize; 4])) -> u32 {
    let number = job.make();
    if number == 0 {
        let results = job.single_results();
        wrong(job, results);
    }
    number
}

/// Readers that are wrong.
const WRONG_READERS: [(&str, Wrong); 14] = [
    ("accepts everything", |job| {
        job.make();
        0
    }),
    ("2 for everybody", |_| 2),
    ("wants no room for parents without a tree", |job| {
        match job.make() {
            2 if job.parents.content().is_empty() => 0,
            number => number,
        }
    }),
    ("fills parents without a tree", |job| {
        after(job, |job, [n, .., tree]| {
            if tree == 0 {
                job.parents.content_mut()[..n].fill(0);
            }
        })
    }),
    ("marks every tree", |job| after(job, |job, _| *job.tree.one() = 1)),
    ("marks no tree", |job| after(job, |job, _| *job.tree.one() = 0)),
    ("a root without a tree", |job| {
        after(job, |job, [.., root, _]| *job.counts[2].one() = root.max(1))
    }),
    ("one edge too many", |job| {
        after(job, |job, [_, m, ..]| *job.counts[1].one() = m + 1)
    }),
    ("bytes of a length exchanged", |job| {
        after(job, |job, [_, m, ..]| {
            let lengths = &mut job.edges[2].content_mut()[..m];
            lengths
                .iter_mut()
                .for_each(|l| *l = (*l as u16).swap_bytes().into());
        })
    }),
    ("nu from the section of mu", |job| {
        after(job, |job, [n, ..]| {
            let [mu, nu] = &mut job.measures;
            nu.content_mut()[..n].copy_from_slice(&mu.content()[..n]);
        })
    }),
    ("ends exchanged", |job| after(job, |job, _| job.edges.swap(0, 1))),
    ("fills a list to its end", |job| {
        after(job, |job, [n, ..]| job.measures[0].content_mut()[n..].fill(0))
    }),
    ("refuses, and tells n all the same", |job| {
        let number = job.make();
        if let (1.., Some(&n)) = (number, job.image.content().first()) {
            *job.counts[0].one() = n.into();
        }
        number
    }),
    ("refuses, and has begun to fill", |job| {
        let number = job.make();
        if let (1.., Some(first)) = (number, job.edges[0].content_mut().first_mut()) {
            *first ^= 1;
        }
        number
    }),
];

/// The tests above can fail: wrong readers are caught.
#[test]
fn wrong_readers_are_caught() {
    let (seed, count) = (1, 1_000);
    let draw = |index: u64, random: &mut Random| match index % 4 {
        0 | 1 => sound_case(random),
        2 => {
            let (image, mut room) = sound_case(random);
            room[5] = 0;
            (image, room)
        }
        _ => faulty_case(index / 4, random),
    };
    pass(run(&Job::make, seed, count, &draw));
    for (name, wrong) in WRONG_READERS {
        match run(&wrong, seed, count, &draw) {
            Ok(_) => panic!("\"{name}\" was not caught: seed {seed}"),
            Err(complaint) => println!("wrong on purpose, reader, {name}: {}", brief(&complaint)),
        }
    }
}

/// Every list and single result stands between guards that are looked at.
#[test]
fn wrong_places_are_watched() {
    let mut seeds = 0..;
    let guarded = seeds.find(|&s| !Random::new(s).chance(2)).expect("a seed");
    let (image, room) = sound_case(&mut Random::new(1));
    for which in 0..10 {
        for after in [false, true] {
            let mut job = Job::new(&mut Random::new(guarded), &image, room);
            let number = job.make();
            let random = &mut Random::new(2);
            match which {
                0..=2 => job.edges[which].break_guard(random, after),
                3..=4 => job.measures[which - 3].break_guard(random, after),
                5 => job.parents.break_guard(random, after),
                6..=8 => job.counts[which - 6].break_guard(random, after),
                _ => job.tree.break_guard(random, after),
            }
            let complaint = judge(&image, room, &job, number);
            assert_eq!(complaint, Err("places round a list were changed".into()));
        }
    }
}
