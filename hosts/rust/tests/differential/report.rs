//! `mover_report` on image sequences of every kind, and on directories at their bounds and past them.

use crate::lent::Lent;
use crate::{ensure, pass};
use reference::random::Random;
use reference::report::{answer, images, report_by, summary, Answer, Report, NUMBERS};
use reference::runs::{cases, seed};
use reference::sequences::{
    any_image, misplace, of_size, one_of_each, pair, pool, set_pair, some_of, transport, Sequence, MISPLACED,
};
use reference::Problem;
use std::collections::HashMap;
use std::fmt::{self, Debug};
use weight_mover::calls::mover_report;

/// All that the call is lent.
pub struct Job {
    pub reel: Lent<u8>,
    pub tally: Lent<u32>,
    pub accepted: Lent<u32>,
    pub sum: Lent<u64>,
    pub greatest: Lent<u64>,
    pub first: Lent<usize>,
}

impl Job {
    /// With single results that are not 0.
    pub fn new(random: &mut Random, reel: &[u8], places: usize) -> Job {
        let exact = random.chance(2);
        let [accepted, sum, greatest, first] = [0; 4].map(|_| random.word() | 1);
        Job {
            reel: Lent::new(random, reel, exact),
            tally: Lent::filled(random, places, exact),
            accepted: Lent::new(random, &[accepted as u32], false),
            sum: Lent::new(random, &[sum], false),
            greatest: Lent::new(random, &[greatest], false),
            first: Lent::new(random, &[first as usize], false),
        }
    }

    /// The call of the library.
    pub fn make(&mut self) -> u32 {
        mover_report(
            self.reel.content(),
            self.tally.content_mut(),
            self.accepted.one(),
            self.sum.one(),
            self.greatest.one(),
            self.first.one(),
        )
    }

    /// The single results by their names.
    pub fn singles(&self) -> [(&'static str, u64); 4] {
        [
            ("accepted", self.accepted.content()[0].into()),
            ("sum", self.sum.content()[0]),
            ("greatest", self.greatest.content()[0]),
            ("first", self.first.content()[0] as u64),
        ]
    }

    /// Puts other single results in their places.
    pub fn set_singles(&mut self, [accepted, sum, greatest, first]: [u64; 4]) {
        *self.accepted.one() = accepted as u32;
        *self.sum.one() = sum;
        *self.greatest.one() = greatest;
        *self.first.one() = first as usize;
    }

    fn guards_are_whole(&self) -> bool {
        self.tally.guards_are_whole()
            && self.accepted.guards_are_whole()
            && self.sum.guards_are_whole()
            && self.greatest.guards_are_whole()
            && self.first.guards_are_whole()
    }
}

/// The reference's answers to images, each found once.
#[derive(Default)]
pub struct Known(HashMap<Vec<u8>, Answer>);

impl Known {
    pub fn answer(&mut self, image: &[u8]) -> Answer {
        if let Some(&known) = self.0.get(image) {
            return known;
        }
        let found = answer(image);
        self.0.insert(image.to_vec(), found);
        found
    }
}

/// A reel, the places of the tally that is lent with it, and what is to be told.
pub struct Case {
    pub reel: Vec<u8>,
    pub places: usize,
    pub expected: Result<Report, u32>,
}

impl Case {
    pub fn new(known: &mut Known, reel: Vec<u8>, places: usize) -> Case {
        let expected = report_by(&mut |image| known.answer(image), &reel, places);
        Case {
            reel,
            places,
            expected,
        }
    }
}

fn is<T: PartialEq + Debug>(name: &str, got: T, expected: T) -> Result<(), String> {
    ensure(got == expected, || {
        format!("{name}: expected {expected:?}, but got {got:?}")
    })
}

/// Judges all that a call did.
pub fn judge(expected: &Result<Report, u32>, job: &Job, number: u32) -> Result<(), String> {
    ensure(job.reel.is_as_lent(), || "the reel was changed".into())?;
    ensure(job.guards_are_whole(), || {
        "places round a result were changed".into()
    })?;
    match expected {
        Ok(report) => {
            ensure(number == 0, || format!("reported, but got {number}"))?;
            is("tally", &job.tally.content()[..NUMBERS], &report.tally)?;
            ensure(job.tally.rest_is_as_lent(NUMBERS), || {
                "places past the tally were changed".into()
            })?;
            let Report {
                accepted,
                sum,
                greatest,
                first,
                ..
            } = *report;
            let singles = [accepted.into(), sum, greatest, first as u64];
            let mut told = job.singles().into_iter().zip(singles);
            told.try_for_each(|((name, got), expected)| is(name, got, expected))
        }
        Err(refusal) => {
            ensure(number == *refusal, || {
                format!("refused {refusal}, but got {number}")
            })?;
            ensure(job.tally.is_as_lent(), || "a refusal changed the tally".into())?;
            let mut singles = job.singles().into_iter();
            singles.try_for_each(|(name, got)| ensure(got == 0, || format!("a refusal told {name} {got}")))
        }
    }
}

/// The call under test, or one made wrong on purpose.
pub type Make<'a> = &'a dyn Fn(&mut Job) -> u32;

/// Makes a call and judges it; its number.
pub fn try_case(make: Make, random: &mut Random, case: &Case) -> Result<u32, String> {
    let mut job = Job::new(random, &case.reel, case.places);
    let number = make(&mut job);
    judge(&case.expected, &job, number).map_err(|complaint| {
        let start: String = case.reel.iter().take(2_000).map(|b| format!("{b:02x}")).collect();
        let (places, bytes) = (case.places, case.reel.len());
        format!("{complaint}\n{places} places, {bytes} bytes that begin {start}")
    })?;
    Ok(number)
}

/// Tries a reel with the library; its number.
fn try_reel(known: &mut Known, random: &mut Random, reel: Vec<u8>, places: usize) -> u32 {
    pass(try_case(&Job::make, random, &Case::new(known, reel, places)))
}

type IsSuch = fn(&[Answer], &Report) -> bool;

/// What must come up among the reports.
const KINDS: [(&str, IsSuch); 9] = [
    ("no images", |answers, _| answers.is_empty()),
    ("none accepted", |answers, r| {
        !answers.is_empty() && r.accepted == 0
    }),
    ("all accepted", |answers, r| {
        r.accepted as usize == answers.len() && r.accepted > 1
    }),
    ("all cost 0", |_, r| r.accepted > 1 && r.sum == 0),
    ("refused before the first accepted", |answers, r| {
        r.accepted > 0 && answers[0].is_err()
    }),
    ("refused before the greatest", |answers, r| {
        r.accepted > 0 && answers[..r.first].iter().any(Result::is_err)
    }),
    ("tie of the greatest", |answers, r| {
        r.greatest > 0 && answers.iter().filter(|&&a| a == Ok(r.greatest)).count() > 1
    }),
    ("greatest not the first accepted", |answers, r| {
        r.accepted > 0 && answers[..r.first].iter().any(Result::is_ok)
    }),
    ("sum of 2^32 or more", |_, r| r.sum >> 32 > 0),
];

/// What the reports of a run were.
#[derive(Default)]
struct Seen {
    images: u64,
    numbers: [u64; NUMBERS],
    kinds: [u64; KINDS.len()],
}

impl Seen {
    fn add(&mut self, known: &mut Known, case: &Case) {
        let (Ok(images), Ok(report)) = (images(&case.reel), &case.expected) else {
            return;
        };
        let answers: Vec<Answer> = images.into_iter().map(|image| known.answer(image)).collect();
        self.images += answers.len() as u64;
        for (count, images) in self.numbers.iter_mut().zip(report.tally) {
            *count += u64::from(images);
        }
        for (count, (_, is_such)) in self.kinds.iter_mut().zip(KINDS) {
            *count += u64::from(is_such(&answers, report));
        }
    }

    /// Whether every kind came up, and just the numbers that an image can have: no image has a length above 65,535.
    fn has_all(&self) -> bool {
        let own = |k: usize| k < 14 && k != 4;
        self.kinds.iter().all(|&count| count > 0) && (0..NUMBERS).all(|k| (self.numbers[k] > 0) == own(k))
    }
}

impl fmt::Display for Seen {
    fn fmt(&self, f: &mut fmt::Formatter) -> fmt::Result {
        write!(f, "{} images", self.images)?;
        for (count, (name, _)) in self.kinds.iter().zip(KINDS) {
            write!(f, ", {name} {count}")?;
        }
        for number in (0..NUMBERS).filter(|&k| self.numbers[k] > 0) {
            write!(f, ", number {number}: {}", self.numbers[number])?;
        }
        Ok(())
    }
}

/// Images that are drawn for each sequence anew, of the kinds that are run one by one elsewhere.
#[test]
fn random_sequences() {
    let (seed, count) = (seed(), cases(6_000));
    let mut seen = Seen::default();
    for index in 0..count {
        let random = &mut Random::for_case(seed, index);
        let fresh: Vec<Vec<u8>> = (0..1 + random.index(8)).map(|_| any_image(random)).collect();
        let reel = some_of(random, &fresh, 9).reel();
        let places = random.pick(&[24, 24, 25, 60]);
        let known = &mut Known::default();
        let case = Case::new(known, reel, places);
        let tried = try_case(&Job::make, random, &case);
        pass(tried.map_err(|complaint| format!("seed {seed}, case {index}: {complaint}")));
        seen.add(known, &case);
    }
    println!("random sequences: seed {seed}, {count} cases: {seen}");
    assert!(count < 2_000 || seen.has_all(), "{seen}");
}

/// Every number in one sequence: in any order, with anything between the images, and up to 600 images.
#[test]
fn mixed_sequences() {
    let (seed, count) = (seed(), cases(200));
    let random = &mut Random::new(seed);
    let (known, mut seen) = (&mut Known::default(), Seen::default());
    let mut each = one_of_each();
    for _ in 0..count {
        random.shuffle(&mut each);
        let sequence = Sequence::of(each.iter().map(|(_, image)| image));
        let mut case = Case::new(known, sequence.spread(random).reel(), NUMBERS);
        pass(try_case(&Job::make, random, &case));
        let tally = case.expected.as_ref().expect("in order").tally;
        let images = |k: usize| each.iter().filter(|(number, _)| *number as usize == k).count();
        assert!((0..NUMBERS).all(|k| tally[k] as usize == images(k)), "{tally:?}");
        case.places = random.pick(&[24, 25, 1_000]);
        pass(try_case(&Job::make, random, &case));
    }
    let pool = pool(random, cases(300) as usize);
    for _ in 0..count {
        let most = random.pick(&[5, 50, 600]);
        let case = Case::new(known, some_of(random, &pool, most).reel(), NUMBERS);
        pass(try_case(&Job::make, random, &case).map_err(|complaint| format!("seed {seed}: {complaint}")));
        seen.add(known, &case);
    }
    println!("mixed sequences: seed {seed}, {count} cases: {seen}");
    assert!(count < 200 || seen.has_all(), "{seen}");
}

/// Each way to be refused by 14, whatever the places of the tally: they come after it.
#[test]
fn misplaced_images() {
    let (seed, count) = (seed(), cases(7_000));
    let random = &mut Random::new(seed);
    let (known, pool) = (&mut Known::default(), pool(random, 20));
    let mut seen = [[0; 2]; MISPLACED.len()];
    for index in 0..count {
        let random = &mut Random::for_case(seed, index);
        let mut reel = some_of(random, &pool, 8).reel();
        let fault = index as usize % MISPLACED.len();
        let is_faulty = misplace(random, &mut reel, MISPLACED[fault]);
        let places = random.pick(&[0, 1, 23, 24, 40]);
        let number = try_reel(known, random, reel, places);
        let expected = if is_faulty { 14 } else { by_places(places) };
        assert_eq!(number, expected, "seed {seed}, case {index}");
        seen[fault][usize::from(places < NUMBERS)] += u64::from(is_faulty);
    }
    println!("misplaced images: seed {seed}, {count} cases, with a tally and a short one {seen:?}");
    assert!(
        count < 2_000 || seen.iter().flatten().all(|&times| times > 0),
        "{seen:?}"
    );
}

/// Cost 22 with its tree and without: 85 bytes and 80.
fn case_a() -> Problem {
    let edges = [(0, 1, 2), (1, 2, 3), (2, 3, 1)];
    Problem::new(4, &edges, &[5, 0, 1, 0], &[0, 2, 1, 3])
}

/// Six images with gaps before all but the third and fifth, two of them empty, and a tail.
pub fn small_sequence() -> Sequence {
    let tree = case_a().with_tree(3, &[1, 2, 3, 3]).image();
    let none = Vec::new();
    let images = [
        tree,
        none.clone(),
        case_a().image(),
        vec![7; 10],
        none,
        transport(2, 8).image(),
    ];
    let gaps = [1, 2, 0, 3, 0, 2];
    let with_gaps = gaps.into_iter().map(|gap| vec![9; gap]).zip(images);
    Sequence {
        images: with_gaps.collect(),
        tail: vec![9; 4],
    }
}

/// The number of a reel in order, by the places of its tally.
fn by_places(places: usize) -> u32 {
    if places < 24 {
        2
    } else {
        0
    }
}

/// Every length of a small reel: it is refused until its last image is there.
#[test]
fn every_length() {
    let (random, known) = (&mut Random::new(seed()), &mut Known::default());
    let reel = small_sequence().reel();
    let end = reel.len() - 4;
    for length in 0..=reel.len() {
        for places in [0, 23, 24, 30] {
            let number = try_reel(known, random, reel[..length].to_vec(), places);
            let expected = if length < end { 14 } else { by_places(places) };
            assert_eq!(number, expected, "{length} bytes, {places} places");
        }
    }
}

/// Empty images alone: the reel is its directory, and refused if that is cut short.
#[test]
fn every_length_of_a_directory() {
    let (random, known) = (&mut Random::new(seed()), &mut Known::default());
    for count in [0, 1, 2, 255, 256, 257, 300, 65_535] {
        let reel = Sequence::of(vec![[0; 0]; count]).reel();
        let size = reel.len();
        let lengths = [
            0,
            1,
            2,
            9,
            10,
            18,
            254,
            255,
            256,
            257,
            size / 2,
            size - 2,
            size - 1,
            size,
        ];
        for length in lengths.into_iter().filter(|&length| length <= size) {
            let number = try_reel(known, random, reel[..length].to_vec(), 24);
            let expected = if length < size { 14 } else { 0 };
            assert_eq!(number, expected, "{count} images, {length} bytes");
        }
    }
}

/// Numbers about each bound of a small reel: its start, the directory's end, the images' ends, its own end.
fn bounds(reel: &[u8]) -> Vec<u32> {
    let pairs: Vec<(u32, u32)> = (0..reel[0].into()).map(|k| pair(reel, k)).collect();
    let directory = 2 + 8 * pairs.len() as u32;
    let ends = pairs.iter().flat_map(|&(start, length)| [start, start + length]);
    let marks = ends.chain([2, directory, reel.len() as u32]);
    let near = marks.flat_map(|mark| [mark - 1, mark, mark + 1]);
    let far = [0, 1 << 31, u32::MAX - 1, u32::MAX];
    let mut all: Vec<u32> = near.chain(far).collect();
    all.sort_unstable();
    all.dedup();
    all
}

/// A small reel in which one pair has another start and another end, each at a bound; the end is cut to 32 bits.
pub fn at_bounds(random: &mut Random) -> Vec<u8> {
    let mut reel = small_sequence().reel();
    let bounds = bounds(&reel);
    let (start, end) = (random.pick(&bounds), random.pick(&bounds));
    set_pair(&mut reel, random.index(6), (start, end.wrapping_sub(start)));
    reel
}

/// Where an image may be: from its forerunner's end or the directory's to the next start or the reel's end.
fn free(reel: &[u8], index: usize) -> (u32, u32) {
    let count = usize::from(reel[0]);
    let from = match index {
        0 => 2 + 8 * count as u32,
        _ => {
            let (start, length) = pair(reel, index - 1);
            start + length
        }
    };
    let is_last = index + 1 == count;
    let to = if is_last {
        reel.len() as u32
    } else {
        pair(reel, index + 1).0
    };
    (from, to)
}

/// One pair at a time with its start and its end at every bound, and on both sides of it. Where the end is before the
/// start, the length is such that the end is right if it is cut to 32 bits.
#[test]
fn every_pair_at_its_bounds() {
    let (random, known) = (&mut Random::new(seed()), &mut Known::default());
    let whole = small_sequence().reel();
    let bounds = bounds(&whole);
    for index in 0..6 {
        let (from, to) = free(&whole, index);
        let (mut in_order, mut refused) = (0, 0);
        for (&start, &end) in bounds.iter().flat_map(|s| bounds.iter().map(move |e| (s, e))) {
            let mut reel = whole.clone();
            set_pair(&mut reel, index, (start, end.wrapping_sub(start)));
            let is_right = from <= start && start <= end && end <= to;
            for places in [23, 24] {
                let expected = if is_right { by_places(places) } else { 14 };
                let number = try_reel(known, random, reel.clone(), places);
                assert_eq!(number, expected, "image {index} from {start} to {end}");
            }
            *if is_right { &mut in_order } else { &mut refused } += 1;
        }
        println!("image {index} of a small reel at its bounds: in order {in_order}, refused {refused}");
        assert!(in_order > 0 && refused > 0);
    }
}

/// Tallies of every length about 24, and long ones, between guard places; the order of the checks with each.
#[test]
fn every_tally() {
    let (random, known) = (&mut Random::new(seed()), &mut Known::default());
    let whole = small_sequence().reel();
    let mut overlap = whole.clone();
    set_pair(&mut overlap, 3, pair(&whole, 2));
    for places in (0..60).chain([1_000]) {
        let in_order = by_places(places);
        let reels = [
            (&whole[..], in_order),
            (&[0, 0], in_order),
            (&[0], 14),
            (&whole[..40], 14),
            (&overlap, 14),
        ];
        for (reel, expected) in reels.repeat(4) {
            let number = try_reel(known, random, reel.to_vec(), places);
            assert_eq!(number, expected, "{places} places");
        }
    }
}

/// An image of two vertices that costs so much, as the product of a length and an amount.
fn costing(length: u64, amount: u64) -> Vec<u8> {
    transport(length, amount).image()
}

/// Sequences with what is to be told of each: accepted, sum, greatest, first.
pub fn marked_sequences() -> Vec<(Vec<Vec<u8>>, [u64; 4])> {
    let (empty, nothing, small) = (Vec::new(), costing(7, 0), costing(1, 1));
    let (some, other) = (costing(5, 6), costing(3, 10));
    // The greatest cost of two vertices, and costs about 2^32.
    let dear = costing(65_535, 16_777_216);
    let (half, whole) = (costing(32_768, 65_536), costing(32_768, 131_072));
    let less = costing(65_535, 65_537);
    let dearest = 65_535 * 16_777_216;
    let line: Vec<_> = (1..64).map(|x| (x - 1, x, 65_535)).collect();
    let (mut before, mut after) = ([0; 64], [0; 64]);
    (before[0], after[63]) = (16_777_216, 16_777_216);
    let parents: Vec<usize> = (0..64).map(|x: usize| x.saturating_sub(1)).collect();
    let farthest = Problem::new(64, &line, &before, &after);
    let with_tree = farthest.clone().with_tree(0, &parents);
    vec![
        (vec![], [0, 0, 0, 0]),
        (vec![empty.clone()], [0, 0, 0, 1]),
        (vec![empty.clone(); 300], [0, 0, 0, 300]),
        (vec![small.clone(); 300], [300, 300, 1, 0]),
        (
            [vec![nothing.clone(); 299], vec![small.clone()]].concat(),
            [300, 1, 1, 299],
        ),
        (vec![nothing.clone()], [1, 0, 0, 0]),
        (vec![nothing.clone(); 3], [3, 0, 0, 0]),
        (
            vec![empty.clone(), empty.clone(), nothing.clone(), nothing.clone()],
            [2, 0, 0, 2],
        ),
        (vec![small.clone(), some.clone(), nothing.clone()], [3, 31, 30, 1]),
        (
            vec![
                small.clone(),
                empty.clone(),
                some.clone(),
                other.clone(),
                some.clone(),
            ],
            [4, 91, 30, 2],
        ),
        (vec![other.clone(), empty.clone(), some.clone()], [2, 60, 30, 0]),
        (
            vec![empty.clone(), nothing.clone(), small.clone(), small.clone()],
            [3, 2, 1, 2],
        ),
        (vec![half.clone(), half.clone()], [2, 1 << 32, 1 << 31, 0]),
        (
            vec![half.clone(), less.clone(), half.clone()],
            [3, (1 << 33) - 1, (1 << 32) - 1, 1],
        ),
        (vec![less.clone(), whole.clone()], [2, (1 << 33) - 1, 1 << 32, 1]),
        (
            vec![small.clone(), whole.clone(), small.clone()],
            [3, (1 << 32) + 2, 1 << 32, 1],
        ),
        (
            vec![small.clone(), dear.clone(), small.clone(), dear.clone()],
            [4, 2 * dearest + 2, dearest, 1],
        ),
        (
            vec![dear, farthest.image(), with_tree.image()],
            [3, 127 * dearest, 63 * dearest, 1],
        ),
        (
            vec![case_a().image(), of_size(65_537), of_size(65_536)],
            [2, 103, 81, 2],
        ),
    ]
}

#[test]
fn marked_reports() {
    let (random, known) = (&mut Random::new(seed()), &mut Known::default());
    for (images, told) in marked_sequences() {
        for _ in 0..5 {
            let packed = Sequence::of(&images);
            for sequence in [packed.clone(), packed.spread(random)] {
                let case = Case::new(known, sequence.reel(), 24);
                let mut job = Job::new(random, &case.reel, case.places);
                let number = job.make();
                pass(judge(&case.expected, &job, number));
                assert_eq!((number, job.singles().map(|(_, single)| single)), (0, told));
            }
        }
    }
}

/// As many images as there can be, all of them empty; and up to as many with one that is accepted, with ties of the
/// greatest cost from the first to the last, and with a sum that has bits from the lowest up to about the 56th.
#[test]
fn as_many_images_as_there_can_be() {
    let (random, known) = (&mut Random::new(seed()), &mut Known::default());
    let mut told = |images: &[&Vec<u8>]| {
        let case = Case::new(known, Sequence::of(images).reel(), 24);
        assert_eq!(pass(try_case(&Job::make, random, &case)), 0);
        case.expected.expect("in order")
    };
    let (empty, small, dear) = (Vec::new(), costing(1, 1), costing(65_535, 16_777_216));
    assert_eq!(told(&[&empty; 65_535]), summary(&[Err(11); 65_535]));

    let count = cases(65_535).clamp(9, 65_535) as usize;
    for at in [0, 1, count / 2, count - 1] {
        let mut images = vec![&empty; count];
        images[at] = &small;
        let report = told(&images);
        assert_eq!((report.accepted, report.first), (1, at));
    }
    let mut images = vec![&small; count];
    for (at, image) in [(0, &small), (count - 1, &dear), (7, &dear), (0, &dear)] {
        images[at] = image;
        let report = told(&images);
        assert_eq!((report.accepted as usize, report.first), (count, at));
    }
    let mut images = vec![&dear; count];
    images[count / 2] = &small;
    let (report, cost) = (told(&images), 65_535 * 16_777_216);
    assert_eq!((report.sum, report.first), ((count as u64 - 1) * cost + 1, 0));
    println!("as many images as there can be: {count}, sum {}", report.sum);
}

/// A reel may have any size: gaps and a tail of some megabytes, and an image that is too long by as much.
#[test]
fn long_reels() {
    let (random, known) = (&mut Random::new(seed()), &mut Known::default());
    let mut sequence = small_sequence();
    sequence.images[1].0 = vec![9; 3 << 20];
    sequence.images[3].1 = vec![0; 2 << 20];
    sequence.tail = vec![9; 5 << 20];
    for _ in 0..2 {
        let case = Case::new(known, sequence.reel(), 24);
        assert_eq!(pass(try_case(&Job::make, random, &case)), 0);
        assert_eq!(case.expected.expect("in order").tally[11], 3);
    }
}

/// What may be lent: images of a pool in order, at the bounds of a small directory, misplaced or marked, with tallies
/// of any length.
pub fn any_case(known: &mut Known, pool: &[Vec<u8>], random: &mut Random, index: u64) -> Case {
    let mut reel = match index % 4 {
        0 => at_bounds(random),
        1 => {
            let marked = marked_sequences();
            let images = &marked[index as usize / 4 % marked.len()].0;
            match random.chance(2) {
                true => Sequence::of(images).reel(),
                false => Sequence::of(images).spread(random).reel(),
            }
        }
        _ => some_of(random, pool, 12).reel(),
    };
    if index % 4 == 3 {
        misplace(random, &mut reel, MISPLACED[index as usize / 4 % MISPLACED.len()]);
    }
    let places = random.pick(&[24, 24, 24, 25, 40, 0, 14, 22, 23]);
    Case::new(known, reel, places)
}

/// Calls from several threads at once, some of them on one shared reel, tell what they tell alone.
#[test]
fn several_threads() {
    let (seed, count) = (seed(), cases(400));
    let random = &mut Random::new(seed);
    let (known, pool) = (&mut Known::default(), pool(random, 40));
    let shared = Case::new(known, small_sequence().reel(), 24);
    let others: Vec<Case> = (0..count).map(|k| any_case(known, &pool, random, k)).collect();
    let worker = |thread: u64| {
        let random = &mut Random::for_case(seed, thread);
        for case in &others {
            pass(try_case(&Job::make, random, &shared));
            pass(try_case(&Job::make, random, case));
        }
    };
    std::thread::scope(|scope| {
        for thread in 0..4 {
            let worker = &worker;
            scope.spawn(move || worker(thread));
        }
    });
    println!("several threads, reports: seed {seed}, 4 times {count} cases");
}
