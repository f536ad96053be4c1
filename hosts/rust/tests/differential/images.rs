//! `mover_run` on random, faulty and damaged images.

use crate::lent::Lent;
use crate::spoils::{FIGURES, TREES};
use crate::{brief, pass};
use reference::checks::{accept, record_size};
use reference::random::{self, Case, Random, FAULTS};
use reference::record::{judge, Outcome, Record};
use reference::runs::{images, seed};
use reference::Problem;
use std::fmt;
use weight_mover::mover_run;

/// The call under test, or one made wrong on purpose.
type Call<'a> = &'a dyn Fn(&[u8], &mut [u8]) -> u32;

/// Makes one call and judges all that it did.
fn try_case(call: Call, random: &mut Random, case: &Case) -> Result<Outcome, String> {
    let exact = random.chance(2);
    let image = Lent::new(random, &case.image, exact);
    let mut record = Lent::filled(random, case.record_len, exact);

    let number = call(image.content(), record.content_mut());

    if !image.is_as_lent() {
        return Err("the image was changed".into());
    }
    if !record.guards_are_whole() {
        return Err("bytes round the record were changed".into());
    }
    judge(&case.image, record.before(), record.content(), number)
}

/// What the calls of a run did.
#[derive(Default)]
struct Tally {
    evaluated: u64,
    solved: u64,
    refused: [u64; 14],
}

impl Tally {
    fn add(&mut self, outcome: Outcome) {
        match outcome {
            Outcome::Evaluated => self.evaluated += 1,
            Outcome::Solved => self.solved += 1,
            Outcome::Refused(number) => self.refused[number as usize] += 1,
        }
    }
}

impl fmt::Display for Tally {
    fn fmt(&self, f: &mut fmt::Formatter) -> fmt::Result {
        write!(f, "evaluated {}, solved {}", self.evaluated, self.solved)?;
        for number in (1..14).filter(|&k| self.refused[k] > 0) {
            write!(f, ", refused {number}: {}", self.refused[number])?;
        }
        Ok(())
    }
}

/// Runs many cases. On the first wrong answer the complaint has all that is needed to see it again.
fn run(
    name: &str,
    seed: u64,
    count: u64,
    call: Call,
    draw: &dyn Fn(u64, &mut Random) -> Case,
) -> Result<Tally, String> {
    let mut tally = Tally::default();
    for index in 0..count {
        let random = &mut Random::for_case(seed, index);
        let case = draw(index, random);
        match try_case(call, random, &case) {
            Ok(outcome) => tally.add(outcome),
            Err(complaint) => {
                let image: String = case.image.iter().map(|b| format!("{b:02x}")).collect();
                return Err(format!(
                    "{name}: seed {seed}, case {index}: {complaint}\nrecord length {}, image {image}",
                    case.record_len
                ));
            }
        }
    }
    Ok(tally)
}

/// Problems that are accepted: evaluated where they have a tree, otherwise solved.
#[test]
fn valid_images() {
    let (seed, count) = (seed(), images());
    let draw = |_, random: &mut Random| random::valid_case(random);
    let tally = pass(run("valid", seed, count, &mover_run, &draw));
    println!("valid images: seed {seed}, {count} cases: {tally}");
    assert_eq!(tally.evaluated + tally.solved, count);
    assert!(count < 100 || tally.evaluated > count / 4 && tally.solved > count / 4);
}

/// Each fault in its turn, alone and with others: every refusal number comes up but 4, since an image holds no length above 65,535.
#[test]
fn faulty_images() {
    let (seed, count) = (seed(), images());
    let draw = |index: u64, random: &mut Random| {
        let mut faults = vec![FAULTS[index as usize % FAULTS.len()]];
        while random.chance(4) {
            faults.push(random.pick(&FAULTS));
        }
        random::faulty_case(random, &faults)
    };
    let tally = pass(run("faulty", seed, count, &mover_run, &draw));
    println!("faulty images: seed {seed}, {count} cases: {tally}");
    assert_eq!(tally.refused[4], 0);
    for number in (1..14).filter(|&k| k != 4) {
        assert!(
            count < 200 || tally.refused[number] > 0,
            "no case was refused {number}"
        );
    }
}

/// Flipped bits, cuts, wild offsets, bytes without meaning.
#[test]
fn damaged_images() {
    let (seed, count) = (seed(), 2 * images());
    let draw = |_, random: &mut Random| random::damaged_case(random);
    let tally = pass(run("damaged", seed, count, &mover_run, &draw));
    println!("damaged images: seed {seed}, {count} cases: {tally}");
}

/// Every length of the image and of the buffer, from nothing to more than enough.
#[test]
fn every_length() {
    let edges = [(0, 1, 2), (1, 2, 3), (2, 3, 1)];
    let solve = Problem::new(4, &edges, &[5, 0, 1, 0], &[0, 2, 1, 3]);
    let evaluate = solve.clone().with_tree(3, &[1, 2, 3, 3]);
    let mut random = Random::new(7);
    for problem in [solve, evaluate] {
        let image = problem.image();
        for length in 0..=image.len() {
            let case = Case {
                image: image[..length].to_vec(),
                record_len: 200,
            };
            pass(try_case(&mover_run, &mut random, &case));
        }
        for record_len in 0..record_size(4) + 20 {
            let case = Case {
                image: image.clone(),
                record_len,
            };
            let outcome = pass(try_case(&mover_run, &mut random, &case));
            assert_eq!(outcome == Outcome::Refused(2), record_len < record_size(4));
        }
        for length in [65_535, 65_536, 65_537] {
            let mut image = image.clone();
            image.resize(length, 0xFF);
            let outcome = pass(try_case(
                &mover_run,
                &mut random,
                &Case {
                    image,
                    record_len: 200,
                },
            ));
            assert_eq!(outcome == Outcome::Refused(11), length > 65_536);
        }
    }
}

/// Calls from several threads at once, some of them on one shared image.
#[test]
fn several_threads() {
    let (seed, count) = (seed(), images() / 20);
    let shared = random::valid_case(&mut Random::new(seed));
    let worker = |index: u64| {
        let draw = |case: u64, random: &mut Random| match case % 2 {
            0 => shared.clone(),
            _ => random::valid_case(random),
        };
        pass(run("threads", seed + index, count, &mover_run, &draw));
    };
    std::thread::scope(|scope| {
        for index in 0..4 {
            let worker = &worker;
            scope.spawn(move || worker(index));
        }
    });
    println!("several threads: seed {seed}, 4 times {count} cases");
}

/// The same image gives the same record: nothing is kept from one call to the next.
#[test]
fn calls_keep_nothing() {
    let seed = seed();
    let mut random = Random::new(seed);
    for _ in 0..images() / 100 {
        let cases: Vec<Case> = (0..8).map(|_| random::valid_case(&mut random)).collect();
        let answer = |case: &Case| {
            let mut record = vec![0xA5; case.record_len];
            (mover_run(&case.image, &mut record), record)
        };
        let forward: Vec<_> = cases.iter().map(answer).collect();
        let mut backward: Vec<_> = cases.iter().rev().map(answer).collect();
        backward.reverse();
        assert!(forward == backward, "seed {seed}");
    }
}

/// Every sentence of a best answer, by the start of the complaint about it.
const SENTENCES: [&str; 12] = [
    "cost ",
    "row ",
    "column ",
    "the plan costs ",
    "moves ",
    "the root is not 0",
    "no spanning tree",
    "the tree costs ",
    "the plan is not its tree's",
    "potential ",
    "the potential changes",
    "the potential weighs",
];

/// The tests above can fail: wrong records are caught, and each sentence of a best answer catches some.
#[test]
fn wrong_records_are_caught() {
    let (seed, count) = (1, 200);
    let mut heard = [0; SENTENCES.len()];
    for with_tree in [true, false] {
        for &(name, spoil) in FIGURES.iter().chain(&TREES) {
            let wrong = |image: &[u8], record: &mut [u8]| {
                let number = mover_run(image, record);
                let problem = accept(image, record.len()).expect("accepted");
                let mut answer = Record::from_bytes(problem.n, record);
                spoil(&problem, &mut answer);
                record[..record_size(problem.n)].copy_from_slice(&answer.to_bytes());
                number
            };
            let mut caught = 0;
            for index in 0..count {
                let random = &mut Random::for_case(seed, index);
                let mut problem = random::problem(random);
                let tree = random::spanning_tree(random, problem.n, &problem.edges);
                problem.tree = with_tree.then_some(tree);
                let case = Case {
                    image: problem.image(),
                    record_len: record_size(problem.n),
                };
                if let Err(complaint) = try_case(&wrong, random, &case) {
                    caught += 1;
                    let sentence = SENTENCES.iter().position(|s| complaint.starts_with(s));
                    sentence.into_iter().for_each(|k| heard[k] += 1);
                    assert!(with_tree || sentence.is_some(), "{complaint}");
                }
            }
            let kind = if with_tree { "given" } else { "best" };
            println!("wrong on purpose, {kind} tree, {name}: caught {caught} of {count}");
            assert!(caught > 0, "\"{name}\" was never caught: seed {seed}");
        }
    }
    for (sentence, count) in SENTENCES.iter().zip(heard) {
        println!("wrong on purpose: \"{sentence}\" said {count} times");
        assert!(count > 0, "never said: {sentence:?}, seed {seed}");
    }
}

type PlainCall = fn(&[u8], &mut [u8]) -> u32;

/// Calls that are wrong as calls: in their number, or in what they write.
const WRONG_CALLS: [(&str, PlainCall); 7] = [
    ("writes nothing", |i, r| mover_run(i, &mut r.to_vec())),
    ("writes past the record", |i, r| {
        let number = mover_run(i, r);
        let size = record_size(i.first().map_or(0, |&n| n as usize));
        if number == 0 && r.len() > size {
            r[size] ^= 1;
        }
        number
    }),
    ("writes, then refuses", |i, r| {
        let number = mover_run(i, r);
        if let (1.., Some(first)) = (number, r.first_mut()) {
            *first ^= 1;
        }
        number
    }),
    ("7 for everybody", |_, _| 7),
    ("accepts everything", |i, r| {
        mover_run(i, r);
        0
    }),
    ("the number after", |i, r| match mover_run(i, r) {
        0 => 0,
        number => number + 1,
    }),
    ("tests the counts before the sections", |i, r| match i.first() {
        Some(0 | 65..) => 1,
        _ => mover_run(i, r),
    }),
];

#[test]
fn wrong_calls_are_caught() {
    let (seed, count) = (1, 1_000);
    let draw = |index: u64, random: &mut Random| match index % 3 {
        0 => random::valid_case(random),
        1 => random::damaged_case(random),
        _ => random::faulty_case(random, &[FAULTS[index as usize / 3 % FAULTS.len()]]),
    };
    pass(run("the library itself", seed, count, &mover_run, &draw));
    for (name, wrong) in WRONG_CALLS {
        match run(name, seed, count, &wrong, &draw) {
            Ok(_) => panic!("\"{name}\" was not caught: seed {seed}"),
            Err(complaint) => {
                println!("wrong on purpose, {}", brief(&complaint));
            }
        }
    }
}

/// A byte written past the lent buffer is seen.
#[test]
fn wrong_places_are_watched() {
    let overrun = |image: &[u8], record: &mut [u8]| {
        let number = mover_run(image, record);
        // SAFETY: the turn below is one with guard bytes round the buffer.
        unsafe { *record.as_mut_ptr().add(record.len()) ^= 1 };
        number
    };
    let guarded = (0..)
        .find(|&s| !Random::new(s).chance(2))
        .expect("a guarded turn");
    let case = random::valid_case(&mut Random::new(1));
    assert_eq!(
        try_case(&overrun, &mut Random::new(guarded), &case),
        Err("bytes round the record were changed".into())
    );
}
