//! Reports that are wrong on purpose: the tests of them can fail.

use crate::report::{any_case, judge, small_sequence, try_case, Case, Job, Known, Make};
use crate::{brief, pass};
use reference::checks::{read, record_size};
use reference::random::Random;
use reference::report::{summary, Answer, Report, NUMBERS};
use reference::sequences::{pair, pool, transport, Sequence};
use weight_mover::mover_run;

/// A pair of a directory, and what it is held to.
#[derive(Clone, Copy)]
struct Pair {
    start: usize,
    end: usize,
    /// Start and end of its forerunner.
    before: Option<(usize, usize)>,
    is_last: bool,
    /// Where the directory ends.
    directory: usize,
    /// Where the reel ends.
    size: usize,
}

impl Pair {
    fn is_behind_directory(&self) -> bool {
        self.start >= self.directory
    }

    fn is_behind_forerunner(&self) -> bool {
        self.before.is_none_or(|(_, end)| self.start >= end)
    }

    fn is_within(&self) -> bool {
        self.end <= self.size
    }

    fn is_in_order(&self) -> bool {
        self.is_behind_directory() && self.is_behind_forerunner() && self.is_within()
    }
}

/// A way to report, of which each step may be another one.
#[derive(Clone, Copy)]
struct Steps {
    /// The number of images, if the reel has bytes for all of their pairs.
    count: fn(&[u8]) -> Option<usize>,
    /// Whether a pair is in order.
    is_in_order: fn(&Pair) -> bool,
    /// Whether a tally of so many places is long enough, for so many images.
    has_room: fn(usize, usize) -> bool,
    /// Whether the tally is looked at first.
    tally_first: bool,
    /// From where to where an image goes.
    range: fn(&[Pair], usize) -> (usize, usize),
    answers: fn(&[&[u8]]) -> Vec<Answer>,
    summary: fn(&[Answer]) -> Report,
}

const RIGHT: Steps = Steps {
    count,
    is_in_order: Pair::is_in_order,
    has_room: |places, _| places >= NUMBERS,
    tally_first: false,
    range: |pairs, k| (pairs[k].start, pairs[k].end),
    answers: |images| images.iter().map(|image| run(image, 64)).collect(),
    summary,
};

fn count(reel: &[u8]) -> Option<usize> {
    let count = usize::from(u16::from_le_bytes([*reel.first()?, *reel.get(1)?]));
    (reel.len() >= 2 + 8 * count).then_some(count)
}

/// The answer of the library to an image, with room for the record of so many vertices.
fn run(image: &[u8], vertices: usize) -> Answer {
    let mut record = vec![0; record_size(vertices)];
    match mover_run(image, &mut record) {
        0 => Ok(u64::from_le_bytes([0, 1, 2, 3, 4, 5, 6, 7].map(|k| record[k]))),
        number => Err(number),
    }
}

fn pairs(reel: &[u8], count: usize) -> Vec<Pair> {
    let ranges: Vec<(usize, usize)> = (0..count)
        .map(|k| pair(reel, k))
        .map(|(start, length)| (start as usize, start as usize + length as usize))
        .collect();
    let pair = |k: usize| Pair {
        start: ranges[k].0,
        end: ranges[k].1,
        before: k.checked_sub(1).map(|k| ranges[k]),
        is_last: k + 1 == count,
        directory: 2 + 8 * count,
        size: reel.len(),
    };
    (0..count).map(pair).collect()
}

impl Steps {
    fn report(&self, reel: &[u8], places: usize) -> Result<Report, u32> {
        if self.tally_first && places < NUMBERS {
            return Err(2);
        }
        let count = (self.count)(reel).ok_or(14u32)?;
        let pairs = pairs(reel, count);
        if !pairs.iter().all(self.is_in_order) {
            return Err(14);
        }
        if !(self.has_room)(places, count) {
            return Err(2);
        }
        // What is taken for an image is cut to the reel.
        let image = |k: usize| {
            let (start, end) = (self.range)(&pairs, k);
            let end = end.min(reel.len());
            &reel[start.min(end)..end]
        };
        let images: Vec<&[u8]> = (0..count).map(image).collect();
        Ok((self.summary)(&(self.answers)(&images)))
    }

    fn make(&self, job: &mut Job) -> u32 {
        let reel = job.reel.content().to_vec();
        let places = job.tally.content().len();
        job.set_singles([0; 4]);
        match self.report(&reel, places) {
            Ok(report) => {
                tell(job, &report);
                0
            }
            Err(number) => number,
        }
    }
}

/// Puts a report into what is lent, as far as there is room.
fn tell(job: &mut Job, report: &Report) {
    let places = job.tally.content_mut().iter_mut();
    places
        .zip(report.tally)
        .for_each(|(place, images)| *place = images);
    let (accepted, first) = (report.accepted.into(), report.first as u64);
    job.set_singles([accepted, report.sum, report.greatest, first]);
}

/// Directories that are read otherwise.
const DIRECTORIES: [(&str, Steps); 27] = [
    (
        "a pair may start inside the directory",
        in_order(|p| p.is_behind_forerunner() && p.is_within()),
    ),
    (
        "the directory begins with its pairs",
        in_order(|p| p.start + 2 >= p.directory && p.is_behind_forerunner() && p.is_within()),
    ),
    (
        "a byte of the directory is given away",
        in_order(|p| p.start + 1 >= p.directory && p.is_behind_forerunner() && p.is_within()),
    ),
    (
        "the forerunner's end is not looked at",
        in_order(|p| p.is_behind_directory() && p.is_within()),
    ),
    (
        "starts rise, whatever the ends",
        in_order(|p| {
            let rises = p.before.is_none_or(|(start, _)| p.start >= start);
            p.is_behind_directory() && rises && p.is_within()
        }),
    ),
    (
        "ends rise, whatever the starts",
        in_order(|p| {
            let rises = p.before.is_none_or(|(_, end)| p.end >= end);
            p.is_behind_directory() && rises && p.is_within()
        }),
    ),
    (
        "a byte of the forerunner is given away",
        in_order(|p| {
            let rises = p.before.is_none_or(|(_, end)| p.start + 1 >= end);
            p.is_behind_directory() && rises && p.is_within()
        }),
    ),
    (
        "the reel's end is not looked at",
        in_order(|p| p.is_behind_directory() && p.is_behind_forerunner()),
    ),
    (
        "a byte past the reel is given away",
        in_order(|p| p.is_behind_directory() && p.is_behind_forerunner() && p.end <= p.size + 1),
    ),
    (
        "starts are held to the reel's end, and not ends",
        in_order(|p| p.is_behind_directory() && p.is_behind_forerunner() && p.start <= p.size),
    ),
    (
        "32 bits of an end",
        in_order(|p| p.is_behind_directory() && p.is_behind_forerunner() && p.end % (1 << 32) <= p.size),
    ),
    (
        "32 bits of a forerunner's end",
        in_order(|p| {
            let end = |end: usize| end % (1 << 32);
            let rises = p.before.is_none_or(|(_, before)| p.start >= end(before));
            p.is_behind_directory() && rises && end(p.end) <= p.size
        }),
    ),
    (
        "an image may not end with the reel",
        in_order(|p| p.is_in_order() && p.end < p.size),
    ),
    (
        "an image may not start with its forerunner's end",
        in_order(|p| p.is_in_order() && p.before.is_none_or(|(_, end)| p.start > end)),
    ),
    (
        "an image may not start with the directory's end",
        in_order(|p| p.is_in_order() && p.start > p.directory),
    ),
    (
        "gaps are refused",
        in_order(|p| p.is_in_order() && p.start == p.before.map_or(p.directory, |(_, end)| end)),
    ),
    (
        "a tail is refused",
        in_order(|p| p.is_in_order() && (!p.is_last || p.end == p.size)),
    ),
    (
        "empty images are not examined",
        in_order(|p| p.start == p.end || p.is_in_order()),
    ),
    (
        "empty images are refused",
        in_order(|p| p.is_in_order() && p.start < p.end),
    ),
    (
        "the first image is not examined",
        in_order(|p| p.before.is_none() || p.is_in_order()),
    ),
    (
        "the last image is not examined",
        in_order(|p| p.is_last || p.is_in_order()),
    ),
    (
        "reels above 65,536 bytes are refused",
        in_order(|p| p.is_in_order() && p.size <= 65_536),
    ),
    ("the count's first byte", counted(|reel| Some(count(reel)? % 256))),
    (
        "the count's bytes exchanged",
        counted(|reel| {
            let turned = count(reel)?.rotate_left(8) & 0xff00 | count(reel)? >> 8;
            (reel.len() >= 2 + 8 * turned).then_some(turned)
        }),
    ),
    (
        "as many images as there are pairs",
        counted(|reel| {
            let bytes = [*reel.first()?, *reel.get(1)?];
            Some(usize::from(u16::from_le_bytes(bytes)).min((reel.len() - 2) / 8))
        }),
    ),
    (
        "no count is a count of 0",
        counted(|reel| if reel.len() < 2 { Some(0) } else { count(reel) }),
    ),
    (
        "a directory with nothing behind it is refused",
        counted(|reel| count(reel).filter(|count| reel.len() > 2 + 8 * count)),
    ),
];

const fn in_order(is_in_order: fn(&Pair) -> bool) -> Steps {
    Steps { is_in_order, ..RIGHT }
}

const fn counted(count: fn(&[u8]) -> Option<usize>) -> Steps {
    Steps { count, ..RIGHT }
}

const fn with_room(has_room: fn(usize, usize) -> bool) -> Steps {
    Steps { has_room, ..RIGHT }
}

const fn ranging(range: fn(&[Pair], usize) -> (usize, usize)) -> Steps {
    Steps { range, ..RIGHT }
}

const fn answering(answers: fn(&[&[u8]]) -> Vec<Answer>) -> Steps {
    Steps { answers, ..RIGHT }
}

const fn telling(summary: fn(&[Answer]) -> Report) -> Steps {
    Steps { summary, ..RIGHT }
}

/// Tallies that are held to other lengths, or sooner.
const TALLIES: [(&str, Steps); 6] = [
    (
        "2 before 14",
        Steps {
            tally_first: true,
            ..RIGHT
        },
    ),
    ("14 places are enough", with_room(|places, _| places >= 14)),
    ("23 places are enough", with_room(|places, _| places >= 23)),
    ("25 places are wanted", with_room(|places, _| places >= 25)),
    ("just 24 places are wanted", with_room(|places, _| places == 24)),
    (
        "no tally is wanted for no images",
        with_room(|places, count| places >= 24 || count == 0),
    ),
];

/// Images that are cut out or answered otherwise.
const IMAGES: [(&str, Steps); 15] = [
    (
        "an image goes on to the next",
        ranging(|pairs, k| {
            let end = pairs.get(k + 1).map_or(pairs[k].size, |next| next.start);
            (pairs[k].start, end)
        }),
    ),
    (
        "an image goes on to the reel's end",
        ranging(|pairs, k| (pairs[k].start, pairs[k].size)),
    ),
    (
        "an image's last byte is left out",
        ranging(|pairs, k| (pairs[k].start, pairs[k].end.saturating_sub(1).max(pairs[k].start))),
    ),
    (
        "images back to back",
        ranging(|pairs, k| {
            let length = |p: &Pair| p.end - p.start;
            let start = pairs[k].directory + pairs[..k].iter().map(length).sum::<usize>();
            (start, start + length(&pairs[k]))
        }),
    ),
    (
        "starts count from the directory's end",
        ranging(|pairs, k| {
            (
                pairs[k].start + pairs[k].directory,
                pairs[k].end + pairs[k].directory,
            )
        }),
    ),
    (
        "the length is the end",
        ranging(|pairs, k| (pairs[k].start, pairs[k].end - pairs[k].start)),
    ),
    (
        "the best cost for a tree",
        answering(|images| {
            let best = |image: &[u8]| {
                let mut problem = read(image, |_, _| true).expect("accepted");
                problem.tree = None;
                run(&problem.image(), 64)
            };
            images
                .iter()
                .map(|image| run(image, 64).and_then(|_| best(image)))
                .collect()
        }),
    ),
    (
        "a tree is not examined",
        answering(|images| {
            let without = |image: &[u8]| {
                let mut problem = read(image, |_, _| true).expect("read before");
                problem.tree = None;
                run(&problem.image(), 64)
            };
            let answer = |image: &[u8]| match run(image, 64) {
                Err(8..=10) => without(image),
                other => other,
            };
            images.iter().map(|image| answer(image)).collect()
        }),
    ),
    (
        "room for 63 vertices",
        answering(|images| images.iter().map(|image| run(image, 63)).collect()),
    ),
    (
        "32 bits of a cost",
        answering(|images| {
            images
                .iter()
                .map(|image| run(image, 64).map(|cost| cost % (1 << 32)))
                .collect()
        }),
    ),
    (
        "empty images are left out",
        answering(|images| {
            let full = images.iter().filter(|image| !image.is_empty());
            full.map(|image| run(image, 64)).collect()
        }),
    ),
    (
        "empty images cost nothing",
        answering(|images| {
            images
                .iter()
                .map(|image| if image.is_empty() { Ok(0) } else { run(image, 64) })
                .collect()
        }),
    ),
    (
        "ends with the first refused image",
        answering(|images| {
            let answers: Vec<Answer> = images.iter().map(|image| run(image, 64)).collect();
            let end = answers
                .iter()
                .position(Result::is_err)
                .map_or(answers.len(), |k| k + 1);
            answers[..end].to_vec()
        }),
    ),
    (
        "an image that comes again is not counted",
        answering(|images| {
            let again = |k: &usize| !images[..*k].contains(&images[*k]);
            (0..images.len())
                .filter(again)
                .map(|k| run(images[k], 64))
                .collect()
        }),
    ),
    (
        "the last image is left out",
        answering(|images| {
            images
                .split_last()
                .map_or(&[][..], |(_, others)| others)
                .iter()
                .map(|image| run(image, 64))
                .collect()
        }),
    ),
];

/// The right report but for what is changed.
fn but(answers: &[Answer], change: impl FnOnce(&mut Report)) -> Report {
    let mut report = summary(answers);
    change(&mut report);
    report
}

/// Another first image where there is one that was accepted.
fn first(answers: &[Answer], choose: impl FnOnce(u64) -> Option<usize>) -> Report {
    but(answers, |r| r.first = choose(r.greatest).unwrap_or(r.first))
}

/// Reports that are told otherwise.
const REPORTS: [(&str, Steps); 28] = [
    (
        "the last with the greatest cost",
        telling(|answers| {
            first(answers, |greatest| {
                answers.iter().rposition(|a| *a == Ok(greatest))
            })
        }),
    ),
    (
        "the first accepted",
        telling(|answers| first(answers, |_| answers.iter().position(Result::is_ok))),
    ),
    (
        "the first with a smaller cost",
        telling(|answers| {
            first(answers, |greatest| {
                answers.iter().position(|a| a.is_ok_and(|cost| cost < greatest))
            })
        }),
    ),
    (
        "a refused image costs 0",
        telling(|answers| {
            first(answers, |greatest| {
                answers.iter().position(|a| a.unwrap_or(0) == greatest)
            })
        }),
    ),
    (
        "a refused image's index",
        telling(|answers| first(answers, |_| answers.iter().position(Result::is_err))),
    ),
    (
        "counted among the accepted",
        telling(|answers| but(answers, |r| r.first = answers[..r.first].iter().flatten().count())),
    ),
    (
        "counted from 1",
        telling(|answers| but(answers, |r| r.first += 1)),
    ),
    (
        "8 bits of the first",
        telling(|answers| but(answers, |r| r.first %= 256)),
    ),
    (
        "the count if all cost 0",
        telling(|answers| {
            but(answers, |r| {
                r.first = if r.greatest == 0 { answers.len() } else { r.first }
            })
        }),
    ),
    (
        "0 if all cost 0",
        telling(|answers| but(answers, |r| r.first = if r.greatest == 0 { 0 } else { r.first })),
    ),
    (
        "0 if none was accepted",
        telling(|answers| but(answers, |r| r.first = if r.accepted == 0 { 0 } else { r.first })),
    ),
    (
        "the last if none was accepted",
        telling(|answers| but(answers, |r| r.first = r.first.min(answers.len().max(1) - 1))),
    ),
    (
        "24 if none was accepted",
        telling(|answers| but(answers, |r| r.first = if r.accepted == 0 { 24 } else { r.first })),
    ),
    (
        "32 bits of the sum",
        telling(|answers| but(answers, |r| r.sum %= 1 << 32)),
    ),
    (
        "a sum up to 32 bits",
        telling(|answers| but(answers, |r| r.sum = r.sum.min(u32::MAX.into()))),
    ),
    (
        "32 bits of the greatest",
        telling(|answers| but(answers, |r| r.greatest %= 1 << 32)),
    ),
    (
        "32 bits are compared",
        telling(|answers| {
            let costs = answers
                .iter()
                .enumerate()
                .filter_map(|(k, a)| Some((k, (*a).ok()?)));
            let found = costs.min_by_key(|&(k, cost)| (u32::MAX - cost as u32, k));
            but(answers, |r| (r.first, r.greatest) = found.unwrap_or((r.first, 0)))
        }),
    ),
    (
        "the least for the greatest",
        telling(|answers| {
            but(answers, |r| {
                r.greatest = answers.iter().flatten().copied().min().unwrap_or(0)
            })
        }),
    ),
    (
        "the sum for the greatest",
        telling(|answers| but(answers, |r| r.greatest = r.sum)),
    ),
    (
        "the greatest is not in the sum",
        telling(|answers| but(answers, |r| r.sum -= r.greatest)),
    ),
    (
        "each cost once",
        telling(|answers| {
            let mut costs: Vec<u64> = answers.iter().flatten().copied().collect();
            costs.sort_unstable();
            costs.dedup();
            but(answers, |r| r.sum = costs.iter().sum())
        }),
    ),
    (
        "all are accepted",
        telling(|answers| but(answers, |r| r.accepted = answers.len() as u32)),
    ),
    (
        "the accepted have no place",
        telling(|answers| but(answers, |r| r.tally[0] = 0)),
    ),
    (
        "the count at 0",
        telling(|answers| but(answers, |r| r.tally[0] = answers.len() as u32)),
    ),
    (
        "places from 1 on",
        telling(|answers| but(answers, |r| r.tally.rotate_right(1))),
    ),
    (
        "8 bits of the accepted",
        telling(|answers| but(answers, |r| r.accepted %= 256)),
    ),
    (
        "8 bits of a place",
        telling(|answers| but(answers, |r| r.tally.iter_mut().for_each(|images| *images %= 256))),
    ),
    (
        "just whether a number occurs",
        telling(|answers| {
            but(answers, |r| {
                r.tally.iter_mut().for_each(|images| *images = (*images).min(1))
            })
        }),
    ),
];

/// The library, and then something else where it reported.
fn after_report(job: &mut Job, change: impl FnOnce(&mut Job)) -> u32 {
    let number = job.make();
    if number == 0 {
        change(job);
    }
    number
}

/// The library, and then something else where it refused.
fn after_refusal(job: &mut Job, change: impl FnOnce(&mut Job)) -> u32 {
    let number = job.make();
    if number > 0 {
        change(job);
    }
    number
}

/// The first image and its pair, if that is in order.
fn first_image(job: &Job) -> Option<Report> {
    let reel = job.reel.content();
    let pair = pairs(reel, count(reel)?)
        .first()
        .copied()
        .filter(Pair::is_in_order)?;
    Some(summary(&[run(&reel[pair.start..pair.end], 64)]))
}

type Wrong = fn(&mut Job) -> u32;

/// Calls that are wrong as calls: in their number, or in what else they do.
const CALLS: [(&str, Wrong); 23] = [
    ("14 for everybody", |_| 14),
    ("accepts everything", |job| {
        job.make();
        0
    }),
    ("the number after", |job| match job.make() {
        0 => 0,
        number => number + 1,
    }),
    ("12 for 14", |job| match job.make() {
        14 => 12,
        number => number,
    }),
    ("the number of the first refused image", |job| {
        let number = job.make();
        let refused = job.tally.content().iter().skip(1).position(|&images| images > 0);
        match number {
            0 => refused.map_or(0, |k| k as u32 + 1),
            _ => number,
        }
    }),
    (
        "14 after the first image, with all that it tells",
        |job| match job.make() {
            14 => {
                first_image(job).into_iter().for_each(|report| tell(job, &report));
                14
            }
            number => number,
        },
    ),
    ("14 after the first image, with its tally", |job| {
        match job.make() {
            14 => {
                first_image(job).into_iter().for_each(|report| tell(job, &report));
                job.set_singles([0; 4]);
                14
            }
            number => number,
        }
    }),
    ("nothing is told", |job| {
        let before = job.singles().map(|(_, single)| single);
        after_report(job, |job| job.set_singles(before))
    }),
    ("the tally stays", |job| {
        after_report(job, |job| {
            let before = job.tally.before().to_vec();
            job.tally.content_mut().copy_from_slice(&before);
        })
    }),
    ("adds to what is in the tally", |job| {
        after_report(job, |job| {
            let before = job.tally.before().to_vec();
            let places = job.tally.content_mut().iter_mut().take(NUMBERS);
            places
                .zip(before)
                .for_each(|(place, was)| *place = place.wrapping_add(was));
        })
    }),
    ("numbers that do not occur stay", |job| {
        after_report(job, |job| {
            let before = job.tally.before().to_vec();
            let places = job.tally.content_mut().iter_mut().take(NUMBERS).zip(before);
            places
                .filter(|(place, _)| **place == 0)
                .for_each(|(place, was)| *place = was);
        })
    }),
    ("14 places are written", |job| {
        after_report(job, |job| {
            let before = job.tally.before()[14..].to_vec();
            job.tally.content_mut()[14..].copy_from_slice(&before);
        })
    }),
    ("the tally's rest is cleared", |job| {
        after_report(job, |job| job.tally.content_mut()[NUMBERS..].fill(0))
    }),
    ("a place more is written", |job| {
        after_report(job, |job| {
            job.tally.content_mut()[NUMBERS..]
                .iter_mut()
                .take(1)
                .for_each(|x| *x = 0)
        })
    }),
    ("a refused tally is cleared", |job| {
        after_refusal(job, |job| job.tally.content_mut().fill(0))
    }),
    ("a tally that is too short is filled", |job| {
        after_refusal(job, |job| {
            job.tally.content_mut().iter_mut().take(1).for_each(|x| *x ^= 1)
        })
    }),
    ("a refusal tells nothing", |job| {
        let before = job.singles().map(|(_, single)| single);
        after_refusal(job, |job| job.set_singles(before))
    }),
    ("a refusal tells the number as the first", |job| {
        after_refusal(job, |job| job.set_singles([0, 0, 0, 14]))
    }),
    ("a refusal tells a sum", |job| {
        after_refusal(job, |job| job.set_singles([0, 1 << 40, 0, 0]))
    }),
    ("a refusal tells a greatest cost", |job| {
        after_refusal(job, |job| job.set_singles([0, 0, 1, 0]))
    }),
    ("a refusal by 2 tells what it can", |job| match job.make() {
        2 => {
            let reel = job.reel.content().to_vec();
            let report = RIGHT.report(&reel, NUMBERS).expect("in order");
            let before = job.tally.before().to_vec();
            tell(job, &report);
            job.tally.content_mut().copy_from_slice(&before);
            2
        }
        number => number,
    }),
    ("changes the reel", |job| {
        let number = job.make();
        job.reel.content_mut().iter_mut().take(1).for_each(|b| *b ^= 1);
        number
    }),
    ("changes the reel's end", |job| {
        let number = job.make();
        job.reel
            .content_mut()
            .iter_mut()
            .rev()
            .take(1)
            .for_each(|b| *b ^= 1);
        number
    }),
];

/// The reels that wrong calls are tried on, and how many of them show it.
struct Trial(Vec<Case>);

impl Trial {
    fn new(count: u64) -> Trial {
        let (known, pool) = (&mut Known::default(), pool(&mut Random::new(1), 60));
        let case = |index| any_case(known, &pool, &mut Random::for_case(1, index), index);
        Trial((0..count).map(case).collect())
    }

    fn complaints(&self, make: Make) -> Vec<String> {
        let random = &mut Random::new(1);
        let tried = self.0.iter().map(|case| try_case(make, random, case));
        tried.filter_map(Result::err).collect()
    }
}

/// Every sentence of the judge, by the start of the complaint.
const SENTENCES: [&str; 15] = [
    "the reel was changed",
    "reported, but got ",
    "tally: ",
    "places past the tally ",
    "accepted: ",
    "sum: ",
    "greatest: ",
    "first: ",
    "refused 14, but got ",
    "refused 2, but got ",
    "a refusal changed the tally",
    "a refusal told accepted",
    "a refusal told sum",
    "a refusal told greatest",
    "a refusal told first",
];

/// Wrong reports are caught, and each sentence catches some; with right steps the same way to report is right.
#[test]
fn wrong_reports_are_caught() {
    let trial = Trial::new(1_500);
    assert_eq!(trial.complaints(&Job::make), [""; 0]);
    assert_eq!(trial.complaints(&|job| RIGHT.make(job)), [""; 0]);
    let mut heard = [0; SENTENCES.len()];
    let mut try_wrong = |name: &str, make: Make| {
        let complaints = trial.complaints(make);
        let (times, count) = (complaints.len(), trial.0.len());
        let first = complaints.first().map_or("", |complaint| complaint);
        println!(
            "wrong on purpose, report, {name}: caught {times} of {count}, {}",
            brief(first)
        );
        assert!(times > 0, "\"{name}\" was never caught");
        for complaint in complaints {
            let sentence = SENTENCES.iter().position(|s| complaint.starts_with(s));
            heard[sentence.unwrap_or_else(|| panic!("{complaint}"))] += 1;
        }
    };
    for (name, steps) in DIRECTORIES.iter().chain(&TALLIES).chain(&IMAGES).chain(&REPORTS) {
        try_wrong(name, &|job| steps.make(job));
    }
    for (name, wrong) in CALLS {
        try_wrong(name, &wrong);
    }
    for (sentence, count) in SENTENCES.iter().zip(heard) {
        println!("wrong on purpose, report: \"{sentence}\" said {count} times");
        assert!(count > 0, "never said: {sentence:?}");
    }
}

type OtherSum = fn(u64) -> u64;

/// A sum of 2^53 and more has no room in a 64-bit float: it shows by the last bit.
#[test]
fn wrong_sums_are_caught() {
    let (dear, small) = (transport(65_535, 16_777_216).image(), transport(1, 1).image());
    let mut images = vec![&dear; 8_200];
    images[100] = &small;
    let case = Case::new(&mut Known::default(), Sequence::of(&images).reel(), NUMBERS);
    let random = &mut Random::new(1);
    pass(try_case(&Job::make, random, &case));
    let sums: [(&str, OtherSum); 3] = [
        ("64-bit floats", |sum| sum as f64 as u64),
        ("53 bits", |sum| sum % (1 << 53)),
        ("a bit too much", |sum| sum + 1),
    ];
    for (name, other) in sums {
        let wrong = |job: &mut Job| after_report(job, |job| *job.sum.one() = other(*job.sum.one()));
        let complaint = try_case(&wrong, random, &case).expect_err(name);
        assert!(complaint.starts_with("sum: "), "{name}: {complaint}");
    }
}

/// Every single place of what is lent is looked at, with the guard places round it.
#[test]
fn wrong_places_of_reports_are_noticed() {
    let seed = (0..)
        .find(|&s| !Random::new(s).chance(2))
        .expect("a guarded turn");
    let known = &mut Known::default();
    let whole = small_sequence().reel();
    let cases = [
        (whole.clone(), 30),
        (whole.clone(), 24),
        (whole.clone(), 23),
        (whole[..60].to_vec(), 30),
    ];
    for (reel, places) in cases {
        let case = Case::new(known, reel, places);
        let spoiled = |spoil: &dyn Fn(&mut Job, &mut u32)| {
            let mut job = Job::new(&mut Random::new(seed), &case.reel, case.places);
            let mut number = job.make();
            assert_eq!(judge(&case.expected, &job, number), Ok(()));
            spoil(&mut job, &mut number);
            judge(&case.expected, &job, number).expect_err("a spoil")
        };
        let reported = case.expected.is_ok();
        for at in 0..case.reel.len() {
            let complaint = spoiled(&|job, _| job.reel.content_mut()[at] ^= 1 << (at % 8));
            assert_eq!(complaint, "the reel was changed");
        }
        for (at, bit) in (0..places).flat_map(|at| [0, 7, 31].map(|bit| (at, bit))) {
            let complaint = spoiled(&|job, _| job.tally.content_mut()[at] ^= 1 << bit);
            let expected = match (reported, at) {
                (true, 0..NUMBERS) => "tally: ",
                (true, _) => "places past the tally were changed",
                (false, _) => "a refusal changed the tally",
            };
            assert!(complaint.starts_with(expected), "{at}: {complaint}");
        }
        for (which, name) in ["accepted", "sum", "greatest", "first"].into_iter().enumerate() {
            for bit in 0..if which == 0 { 32 } else { 64 } {
                let complaint = spoiled(&|job, _| {
                    let mut singles = job.singles().map(|(_, single)| single);
                    singles[which] ^= 1 << bit;
                    job.set_singles(singles);
                });
                let expected = match reported {
                    true => format!("{name}: "),
                    false => format!("a refusal told {name} "),
                };
                assert!(complaint.starts_with(&expected), "{complaint}");
            }
        }
        for other in 1..24 {
            let complaint = spoiled(&|_, number| *number = (*number + other) % 24);
            assert!(complaint.contains("but got"), "{complaint}");
        }
        for after in [true, false] {
            let breaks: [fn(&mut Job, &mut Random, bool); 5] = [
                |job, random, after| job.tally.break_guard(random, after),
                |job, random, after| job.accepted.break_guard(random, after),
                |job, random, after| job.sum.break_guard(random, after),
                |job, random, after| job.greatest.break_guard(random, after),
                |job, random, after| job.first.break_guard(random, after),
            ];
            for break_guard in breaks {
                let complaint = spoiled(&|job, _| break_guard(job, &mut Random::new(2), after));
                assert_eq!(complaint, "places round a result were changed");
            }
        }
    }
}
