//! Image sequences: put together by hand or drawn at random, and with a directory that is refused.

use crate::problem::{Layout, Problem};
use crate::random::{self, Random, FAULTS};
use crate::report::images;

/// Images one after the other, each with the bytes before it, and the bytes behind the last.
#[derive(Clone, Debug, Default, PartialEq, Eq)]
pub struct Sequence {
    pub images: Vec<(Vec<u8>, Vec<u8>)>,
    pub tail: Vec<u8>,
}

impl Sequence {
    /// Images back to back.
    pub fn of<I: AsRef<[u8]>>(images: impl IntoIterator<Item = I>) -> Sequence {
        let images = images.into_iter().map(|i| (Vec::new(), i.as_ref().to_vec()));
        Sequence {
            images: images.collect(),
            tail: Vec::new(),
        }
    }

    /// The same with bytes of any content before, between and behind the images, here and there or everywhere.
    pub fn spread(mut self, random: &mut Random) -> Sequence {
        let most = random.pick(&[1, 7, 50]);
        let one_in = random.pick(&[1, 4]);
        let mut bytes = || match random.chance(one_in) {
            true => (0..random.between(1, most))
                .map(|_| random.word() as u8)
                .collect(),
            false => Vec::new(),
        };
        self.images.iter_mut().for_each(|(gap, _)| *gap = bytes());
        self.tail = bytes();
        self
    }

    /// The bytes: a count, a pair for each image, and all that follows.
    pub fn reel(&self) -> Vec<u8> {
        let count = self.images.len();
        let mut reel = vec![0; 2 + 8 * count];
        reel[..2].copy_from_slice(&(count as u16).to_le_bytes());
        for (index, (gap, image)) in self.images.iter().enumerate() {
            reel.extend(gap);
            let start = reel.len() as u32;
            set_pair(&mut reel, index, (start, image.len() as u32));
            reel.extend(image);
        }
        reel.extend(&self.tail);
        reel
    }
}

/// The start and the length that a directory has for an image.
pub fn pair(reel: &[u8], index: usize) -> (u32, u32) {
    let field = |at: usize| u32::from_le_bytes([0, 1, 2, 3].map(|k| reel[at + k]));
    (field(2 + 8 * index), field(6 + 8 * index))
}

pub fn set_pair(reel: &mut [u8], index: usize, (start, length): (u32, u32)) {
    reel[2 + 8 * index..][..4].copy_from_slice(&start.to_le_bytes());
    reel[6 + 8 * index..][..4].copy_from_slice(&length.to_le_bytes());
}

/// Two vertices and an edge between them: so much goes from the one to the other.
pub fn transport(length: u64, amount: u64) -> Problem {
    Problem::new(2, &[(0, 1, length)], &[amount, 0], &[0, amount])
}

/// An image for each number that there is, the accepted ones without a tree and with one.
pub fn one_of_each() -> Vec<(u32, Vec<u8>)> {
    let triangle = |edges: &[(usize, usize, u64)], nu: &[u64]| Problem::new(3, edges, &[3, 0, 0], nu);
    let edges = [(0, 1, 5), (0, 2, 1), (1, 2, 1)];
    let sound = || triangle(&edges, &[0, 3, 0]);
    let heavy = 16_777_217;
    let problems = [
        (0, sound()),
        (0, sound().with_tree(0, &[0, 0, 0])),
        (1, Problem::new(65, &[], &[0; 65], &[0; 65])),
        (2, triangle(&[(0, 1, 5); 513], &[0, 3, 0])),
        (3, triangle(&[(0, 2, 1), (0, 1, 5), (1, 2, 1)], &[0, 3, 0])),
        (5, triangle(&[(0, 1, 5)], &[0, 3, 0])),
        (6, Problem::new(1, &[], &[heavy], &[heavy])),
        (7, triangle(&edges, &[0, 4, 0])),
        (8, sound().with_tree(3, &[0, 0, 0])),
        (
            9,
            triangle(&[(0, 1, 5), (1, 2, 1)], &[0, 3, 0]).with_tree(0, &[0, 0, 0]),
        ),
        (10, sound().with_tree(0, &[0, 2, 1])),
    ];
    let mut each: Vec<(u32, Vec<u8>)> = problems.into_iter().map(|(k, p)| (k, p.image())).collect();
    let image = sound().image();
    let mut second_byte = image.clone();
    second_byte[1] = 1;
    each.push((11, image[..35].to_vec()));
    each.push((12, image[..image.len() - 1].to_vec()));
    each.push((13, second_byte));
    each
}

/// An image with gaps and a tail that has just this size.
pub fn of_size(size: usize) -> Vec<u8> {
    let problem = transport(9, 9);
    let least = problem.image().len();
    let mut gaps = [0, 1, 0, 2, 0];
    gaps[4] = size - least - 3;
    problem.image_with(Layout { gaps, filler: 7 })
}

/// An image that is accepted, one with a fault or a damaged one.
pub fn any_image(random: &mut Random) -> Vec<u8> {
    match random.below(4) {
        0 => {
            let fault = random.pick(&FAULTS);
            random::faulty_case(random, &[fault]).image
        }
        1 => random::damaged_case(random).image,
        _ => random::valid_case(random).image,
    }
}

/// One image of each number, and so many of any kind.
pub fn pool(random: &mut Random, count: usize) -> Vec<Vec<u8>> {
    let each = one_of_each().into_iter().map(|(_, image)| image);
    each.chain((0..count).map(|_| any_image(random))).collect()
}

/// Up to so many of these images, or of three of them over and over, back to back or spread.
pub fn some_of(random: &mut Random, images: &[Vec<u8>], most: usize) -> Sequence {
    let among = images.len().min(random.pick(&[3, usize::MAX]));
    let from = random.index(images.len() - among + 1);
    let count = random.index(most + 1);
    let drawn: Vec<usize> = (0..count).map(|_| from + random.index(among)).collect();
    let sequence = Sequence::of(drawn.into_iter().map(|k| &images[k]));
    match random.chance(2) {
        true => sequence,
        false => sequence.spread(random),
    }
}

/// One fault for each way to be refused by 14.
#[derive(Clone, Copy, Debug, PartialEq, Eq)]
pub enum Misplaced {
    /// The reel ends in its count.
    NoCount,
    /// The reel ends in its directory.
    NoDirectory,
    /// An image starts inside the directory.
    InDirectory,
    /// An image starts before its forerunner's end.
    Overlap,
    /// An image ends past the reel.
    PastEnd,
    /// The same, but not if the end is cut to 32 bits.
    Wrapped,
    /// Two images come in the wrong order.
    Exchanged,
}

pub const MISPLACED: [Misplaced; 7] = [
    Misplaced::NoCount,
    Misplaced::NoDirectory,
    Misplaced::InDirectory,
    Misplaced::Overlap,
    Misplaced::PastEnd,
    Misplaced::Wrapped,
    Misplaced::Exchanged,
];

/// Gives this fault to a reel, if it has the images for it. Says whether it has.
pub fn misplace(random: &mut Random, reel: &mut Vec<u8>, fault: Misplaced) -> bool {
    let Ok(found) = images(reel) else {
        return false;
    };
    let (count, size) = (found.len(), reel.len() as u32);
    let full: Vec<usize> = (0..count).filter(|&k| !found[k].is_empty()).collect();
    let directory = 2 + 8 * count;
    let any = random.index(count.max(1));
    match fault {
        Misplaced::NoCount => reel.truncate(random.index(2)),
        Misplaced::NoDirectory if count > 0 => {
            let short = random.between(2, directory as u64 - 1) as usize;
            reel.truncate(random.pick(&[short, directory - 1]));
        }
        Misplaced::InDirectory if count > 0 => {
            let anywhere = random.index(directory) as u32;
            let start = random.pick(&[directory as u32 - 1, anywhere, 0]);
            let before = pair(reel, any).0 - start;
            let length = random.pick(&[0, 1, before, before + pair(reel, any).1]);
            set_pair(reel, any, (start, length));
        }
        Misplaced::Overlap if full.iter().any(|&k| k + 1 < count) => {
            let followed: Vec<usize> = full.into_iter().filter(|&k| k + 1 < count).collect();
            let before = random.pick(&followed);
            let (start, length) = pair(reel, before);
            let by = random.between(1, length.into()) as u32;
            let start = start + length - random.pick(&[1, by, length]);
            let (own_start, own_length) = pair(reel, before + 1);
            let length = random.pick(&[0, own_length, own_start + own_length - start]);
            set_pair(reel, before + 1, (start, length));
        }
        Misplaced::PastEnd if count > 0 => {
            let start = pair(reel, any).0;
            let far = random.between((size - start).into(), u32::MAX.into()) as u32;
            match random.below(3) {
                0 => set_pair(reel, any, (start, size - start + 1)),
                1 => set_pair(reel, any, (start, far.max(size - start + 1))),
                _ => set_pair(reel, any, (size + 1, 0)),
            }
        }
        Misplaced::Wrapped if count > 0 => {
            // Cut to 32 bits, the end is between the image's own start and what follows.
            let next = if any + 1 < count {
                pair(reel, any + 1).0
            } else {
                size
            };
            let end = random.between(pair(reel, any).0.into(), next.into()) as u32;
            let anywhere = random.between(end as u64 + 1, u32::MAX.into()) as u32;
            let start = random.pick(&[end + 1, size.max(end + 1), anywhere, u32::MAX]);
            set_pair(reel, any, (start, end.wrapping_sub(start)));
        }
        Misplaced::Exchanged if full.len() > 1 => {
            let at = random.index(full.len() - 1);
            let (first, second) = (full[at], full[at + 1]);
            let pairs = (pair(reel, first), pair(reel, second));
            set_pair(reel, first, pairs.1);
            set_pair(reel, second, pairs.0);
        }
        _ => return false,
    }
    true
}
