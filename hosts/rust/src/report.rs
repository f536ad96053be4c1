use crate::calls::mover_report;
use crate::Refusal;
use std::fmt;

/// How many numbers a tally has a place for.
const NUMBERS: usize = 24;

/// What is told of an image sequence. `Report::default()` is the report on no images.
#[derive(Clone, Debug, Default, PartialEq, Eq)]
pub struct Report {
    /// How many images were accepted.
    pub accepted: u32,
    /// How many images have each number: the accepted ones at 0, and those that were refused by k at k.
    pub tally: [u32; NUMBERS],
    /// The sum of the accepted images' costs. An image with a tree counts with the tree's cost, another with the
    /// best.
    pub sum: u64,
    /// The greatest cost of an accepted image, 0 if there is none.
    pub greatest: u64,
    /// The first image with the greatest cost, counted from 0; the number of images if none was accepted.
    pub first: usize,
}

impl Report {
    /// How many images there are.
    pub fn count(&self) -> u32 {
        self.tally.iter().sum()
    }

    /// How many images were refused.
    pub fn refused(&self) -> u32 {
        self.tally[1..].iter().sum()
    }

    /// The refusals that occur, by rising number, and how many images each of them refused.
    pub fn refusals(&self) -> impl Iterator<Item = (Refusal, u32)> + '_ {
        let numbered = (0..).zip(self.tally);
        numbered.filter_map(|(number, images)| match images {
            0 => None,
            _ => Some((Refusal::from_number(number)?, images)),
        })
    }

    /// Adds the report on the images that follow. As long as none is accepted, the first image is the count, and so it
    /// is again after this part, if none of it is accepted either.
    fn join(&mut self, part: &Report) {
        if self.accepted == 0 || part.greatest > self.greatest {
            self.greatest = part.greatest;
            self.first = self.count() as usize + part.first;
        }
        self.accepted += part.accepted;
        self.sum += part.sum;
        for (images, more) in self.tally.iter_mut().zip(part.tally) {
            *images += more;
        }
    }
}

/// Reports on an image sequence: how many images are accepted, how many are refused by which number, and what the
/// accepted ones cost. [`pack`] makes a reel of images, and [`mover_report`] says what bytes it has.
///
/// Refuses by 14.
///
/// ```
/// use weight_mover::{pack, report, Patch, Refusal};
///
/// let line = Patch::new(2).edge(0, 1, 7).mu(&[3, 1]);
/// let after = [[3, 1], [0, 4], [0, 5], [1, 3], [0, 4]];
/// let images = after.map(|nu| line.clone().nu(&nu).image().expect("small numbers"));
/// let reel = pack(images).expect("five small images");
/// let told = report(&reel)?;
/// assert_eq!((told.count(), told.accepted, told.refused()), (5, 4, 1));
/// assert_eq!(told.refusals().collect::<Vec<_>>(), [(Refusal::TotalsDiffer, 1)]);
/// assert_eq!((told.sum, told.greatest, told.first), (0 + 21 + 14 + 21, 21, 1));
/// assert_eq!(report(&reel[..reel.len() - 1]), Err(Refusal::SequenceDirectory));
/// # Ok::<(), Refusal>(())
/// ```
pub fn report(reel: &[u8]) -> Result<Report, Refusal> {
    let mut report = Report::default();
    let Report {
        accepted,
        tally,
        sum,
        greatest,
        first,
    } = &mut report;
    Refusal::check(mover_report(reel, tally, accepted, sum, greatest, first))?;
    Ok(report)
}

/// The same by parts, for long sequences: the library is called for up to 4,096 images at a time, or fewer if they
/// have more than 64 MiB together. After each part `progress` is given the number of images that are done, and of
/// all.
///
/// A reel that is refused is so before the first part.
///
/// ```
/// use weight_mover::{pack, report, report_by_parts, Refusal};
///
/// let reel = pack(vec![[0; 36]; 5_000]).expect("small images");
/// let mut said = Vec::new();
/// let parts = report_by_parts(&reel, &mut |done, count| said.push((done, count)))?;
/// assert_eq!(parts, report(&reel)?);
/// assert_eq!(said, [(4_096, 5_000), (5_000, 5_000)]);
/// # Ok::<(), Refusal>(())
/// ```
pub fn report_by_parts(reel: &[u8], progress: &mut dyn FnMut(usize, usize)) -> Result<Report, Refusal> {
    let part = Part {
        images: 4_096,
        bytes: 64 << 20,
    };
    by_parts(reel, part, progress)
}

/// How much is reported on at a time: so many images at most, and so many bytes. One image is always taken.
#[derive(Clone, Copy, Debug)]
struct Part {
    images: usize,
    bytes: usize,
}

impl Part {
    /// How many images to take of those that are left.
    fn take(self, left: &[&[u8]]) -> usize {
        let ends = left.iter().scan(0, |end, image| {
            *end += image.len();
            Some(*end)
        });
        let within = ends.take(self.images).take_while(|&end| end <= self.bytes);
        within.count().max(1)
    }
}

fn by_parts(reel: &[u8], part: Part, progress: &mut dyn FnMut(usize, usize)) -> Result<Report, Refusal> {
    examine(reel)?;
    let images = images(reel);
    let (mut whole, mut done) = (Report::default(), 0);
    while done < images.len() {
        let next = done + part.take(&images[done..]);
        let packed = pack(&images[done..next]).expect("a part of a reel is a smaller one");
        whole.join(&report(&packed)?);
        done = next;
        progress(done, images.len());
    }
    Ok(whole)
}

/// Check 14 alone: without a place for the tally, which it asks for after that, the library does no more.
fn examine(reel: &[u8]) -> Result<(), Refusal> {
    let (mut accepted, mut sum, mut greatest, mut first) = (0, 0, 0, 0);
    let number = mover_report(reel, &mut [], &mut accepted, &mut sum, &mut greatest, &mut first);
    match Refusal::check(number) {
        Err(Refusal::TableSize) => Ok(()),
        other => other,
    }
}

/// The images of a reel that passes check 14.
fn images(reel: &[u8]) -> Vec<&[u8]> {
    let count = u16::from_le_bytes([reel[0], reel[1]]);
    let word = |b: &[u8]| u32::from_le_bytes([b[0], b[1], b[2], b[3]]) as usize;
    let pairs = reel[2..].chunks(8).take(count.into());
    pairs
        .map(|pair| &reel[word(pair)..][..word(&pair[4..])])
        .collect()
}

/// Why images cannot be packed.
#[derive(Clone, Copy, Debug, PartialEq, Eq)]
pub enum PackError {
    /// There are more than 65,535: a reel has two bytes for their number.
    Count,
    /// Some image starts at byte 2^32 or later, or has as many bytes: a reel has four for each of these numbers.
    Size,
}

impl fmt::Display for PackError {
    fn fmt(&self, f: &mut fmt::Formatter) -> fmt::Result {
        f.write_str(match self {
            PackError::Count => "there are more than 65,535 images",
            PackError::Size => "the images have more bytes than a reel can tell the places of",
        })
    }
}

impl std::error::Error for PackError {}

/// Packs images into a reel, back to back behind its directory. Nothing of them is examined.
///
/// ```
/// use weight_mover::{pack, PackError};
///
/// let reel = pack(["ab", "", "c"])?;
/// assert_eq!(reel[..2], [3, 0]);
/// assert_eq!(reel[2..26].chunks(4).map(|b| b[0]).collect::<Vec<u8>>(), [26, 2, 28, 0, 28, 1]);
/// assert_eq!(reel[26..], *b"abc");
/// assert_eq!(pack(vec![""; 65_536]), Err(PackError::Count));
/// # Ok::<(), PackError>(())
/// ```
pub fn pack(images: impl IntoIterator<Item = impl AsRef<[u8]>>) -> Result<Vec<u8>, PackError> {
    let most = usize::from(u16::MAX);
    let images: Vec<_> = images.into_iter().take(most + 1).collect();
    let lengths: Vec<usize> = images.iter().map(|image| image.as_ref().len()).collect();
    let mut reel = directory(&lengths)?;
    reel.reserve_exact(lengths.iter().sum());
    images.iter().for_each(|image| reel.extend(image.as_ref()));
    Ok(reel)
}

/// The count and the directory for images of these lengths.
fn directory(lengths: &[usize]) -> Result<Vec<u8>, PackError> {
    let count = u16::try_from(lengths.len()).map_err(|_| PackError::Count)?;
    let mut bytes = count.to_le_bytes().to_vec();
    let mut offset = 2 + 8 * lengths.len();
    for &length in lengths {
        for number in [offset, length] {
            let number = u32::try_from(number).map_err(|_| PackError::Size)?;
            bytes.extend(number.to_le_bytes());
        }
        offset += length;
    }
    Ok(bytes)
}

#[cfg(test)]
mod tests {
    use super::{by_parts, directory, images, pack, report, PackError, Part, Report};
    use crate::Refusal;
    use reference::random::Random;
    use reference::sequences::{misplace, pool, some_of, Sequence, MISPLACED};

    /// Reels of few images, of all kinds; some of them are refused.
    fn reels() -> Vec<Vec<u8>> {
        let random = &mut Random::new(51);
        let pool = pool(random, 100);
        let reel = |k: usize| {
            let mut reel = some_of(random, &pool, 12).reel();
            if random.chance(4) {
                misplace(random, &mut reel, MISPLACED[k % MISPLACED.len()]);
            }
            reel
        };
        (0..500).map(reel).collect()
    }

    /// One image at a time, some of them, and all.
    fn parts() -> impl Iterator<Item = Part> {
        let sizes = [1, 2, 3, 5, usize::MAX];
        let parts = sizes.map(|images| [0, 200, 3_000, usize::MAX].map(|bytes| Part { images, bytes }));
        parts.into_iter().flatten()
    }

    /// Tests that a part ends where it must, and not before.
    fn is_full(part: Part, images: &[&[u8]], from: usize, to: usize) -> bool {
        let fits = |to: usize| {
            let bytes: usize = images[from..to].iter().map(|image| image.len()).sum();
            to - from == 1 || to - from <= part.images && bytes <= part.bytes
        };
        fits(to) && (to == images.len() || !fits(to + 1))
    }

    #[test]
    fn parts_give_the_same() {
        let (mut refused, mut joined) = (0, 0);
        for reel in reels() {
            let expected = report(&reel);
            for part in parts() {
                let mut said = Vec::new();
                let got = by_parts(&reel, part, &mut |done, count| said.push((done, count)));
                assert_eq!(got, expected, "{part:?}: {reel:?}");
                if got.is_err() {
                    assert_eq!((got, said), (Err(Refusal::SequenceDirectory), vec![]));
                    refused += 1;
                    continue;
                }
                let images = images(&reel);
                let mut from = 0;
                for &(done, count) in &said {
                    assert_eq!(count, images.len());
                    assert!(is_full(part, &images, from, done), "{part:?}: {said:?}");
                    from = done;
                }
                assert_eq!(from, images.len());
                joined += usize::from(said.len() > 1);
            }
        }
        assert!(refused > 1_000 && joined > 1_000, "{refused}, {joined}");
    }

    type Join = fn(&mut Report, &Report);

    /// On how many reels this join of the reports on two images at a time is not the report on all.
    fn noticed(join: Join) -> usize {
        let differs = |reel: &&Vec<u8>| {
            let Ok(expected) = report(reel) else {
                return false;
            };
            let mut whole = Report::default();
            for two in images(reel).chunks(2) {
                join(
                    &mut whole,
                    &report(&pack(two).expect("two images")).expect("in order"),
                );
            }
            whole != expected
        };
        reels().iter().filter(differs).count()
    }

    /// Takes the part's greatest cost or keeps the one before; the rest is as it should be.
    fn choose(whole: &mut Report, part: &Report, is_taken: bool) {
        let chosen = match is_taken {
            true => (part.greatest, whole.count() as usize + part.first),
            false => (whole.greatest, whole.first),
        };
        whole.join(part);
        (whole.greatest, whole.first) = chosen;
    }

    const WRONG_JOINS: [(&str, Join); 11] = [
        ("the last of those with the greatest", |whole, part| {
            choose(
                whole,
                part,
                whole.accepted == 0 || part.greatest >= whole.greatest,
            );
        }),
        ("no image if all cost 0", |whole, part| {
            choose(whole, part, part.greatest > whole.greatest);
        }),
        ("the last greatest", |whole, part| choose(whole, part, true)),
        ("the first greatest", |whole, part| {
            choose(whole, part, whole.accepted == 0)
        }),
        ("the greatest of the first part", |whole, part| {
            choose(whole, part, whole.count() == 0)
        }),
        ("the first image counted in its part", |whole, part| {
            let before = whole.clone();
            whole.join(part);
            if whole.first != before.first {
                whole.first -= before.count() as usize;
            }
        }),
        (
            "the first image counted after the accepted ones",
            |whole, part| {
                let before = whole.clone();
                whole.join(part);
                if whole.first != before.first {
                    whole.first -= before.refused() as usize;
                }
            },
        ),
        ("32 bits of the sum", |whole, part| {
            whole.join(part);
            whole.sum %= 1 << 32;
        }),
        ("accepted in the last part", |whole, part| {
            whole.join(part);
            whole.accepted = part.accepted;
        }),
        ("the last tally", |whole, part| {
            whole.join(part);
            whole.tally = part.tally;
        }),
        ("the last number is not counted", |whole, part| {
            let counted = whole.tally[13];
            whole.join(part);
            whole.tally[13] = counted;
        }),
    ];

    /// The test of parts can fail: wrong joins are noticed.
    #[test]
    fn wrong_joins_are_noticed() {
        assert_eq!(noticed(Report::join), 0);
        for (name, join) in WRONG_JOINS {
            let times = noticed(join);
            println!("wrong on purpose, join, {name}: noticed {times} times");
            assert!(times > 0, "\"{name}\" was never noticed");
        }
    }

    /// What is packed is put together as it is by hand, and found again.
    #[test]
    fn packed_images() {
        let random = &mut Random::new(52);
        let pool = pool(random, 50);
        for count in 0..50 {
            let reel = pack(&pool[..count]).expect("few images");
            assert_eq!(reel, Sequence::of(&pool[..count]).reel());
            assert_eq!(images(&reel), pool[..count]);
        }
        let most = vec![[7]; 65_535];
        let reel = pack(&most).expect("not too many");
        assert_eq!(reel, Sequence::of(&most).reel());
        assert_eq!(report(&reel).map(|report| report.tally[11]), Ok(65_535));
        assert_eq!(pack(vec![""; 65_536]), Err(PackError::Count));
        assert_eq!(pack(std::iter::repeat("")), Err(PackError::Count));
    }

    /// Both sides of what four bytes can tell, for the images' starts and for their lengths.
    #[test]
    fn places_that_do_not_fit() {
        let most = u32::MAX as usize;
        let ends = |lengths: &[usize]| {
            let bytes = directory(lengths)?;
            Ok(bytes[bytes.len() - 8..].to_vec())
        };
        assert_eq!(ends(&[most]), Ok(vec![10, 0, 0, 0, 255, 255, 255, 255]));
        assert_eq!(ends(&[most + 1]), Err(PackError::Size));
        assert_eq!(ends(&[usize::MAX]), Err(PackError::Size));
        assert_eq!(
            ends(&[most - 18, most]),
            Ok(vec![255; 8]),
            "a last image may end past 2^32"
        );
        assert_eq!(ends(&[most - 17, 0]), Err(PackError::Size));
        assert_eq!(ends(&[most, most]), Err(PackError::Size));
        // One after another, they do not wrap either.
        assert!(ends(&[1 << 20; 4_096]).is_ok());
        assert_eq!(ends(&[1 << 20; 4_097]), Err(PackError::Size));
    }
}
