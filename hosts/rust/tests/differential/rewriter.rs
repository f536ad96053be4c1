//! `mover_rewrite` on images of every size with anything between their sections, and on damaged ones.

use crate::lent::Lent;
use crate::writer::{came_up, case_a, judge_buffer, read, Numbers};
use crate::{ensure, pass};
use reference::random::{self, Random, FAULTS};
use reference::random_writer::{holdable, spread};
use reference::runs::{cases, seed};
use reference::writer::{rewrite, write};
use reference::{Lists, Problem};
use weight_mover::calls::mover_rewrite;
use weight_mover::image_size;

/// Images over this size are refused.
const MOST: usize = 65_536;

/// Bytes of the largest image that is written.
const LARGEST: usize = image_size(64, 512, true);

/// All that the rewriter is lent.
pub struct Job {
    pub image: Lent<u8>,
    pub buffer: Lent<u8>,
    pub length: Lent<usize>,
}

impl Job {
    pub fn new(random: &mut Random, image: &[u8], buffer: usize) -> Job {
        let exact = random.chance(2);
        Job {
            image: Lent::new(random, image, exact),
            buffer: Lent::filled(random, buffer, exact),
            length: Lent::single(random),
        }
    }

    /// The call of the library.
    pub fn make(&mut self) -> u32 {
        mover_rewrite(self.image.content(), self.buffer.content_mut(), self.length.one())
    }

    /// What stands in the buffer up to the length that was told.
    pub fn written(&self) -> &[u8] {
        let buffer = self.buffer.content();
        &buffer[..self.length.content()[0].min(buffer.len())]
    }
}

/// Judges all that a call did.
pub fn judge(image: &[u8], job: &Job, number: u32) -> Result<(), String> {
    ensure(job.image.is_as_lent(), || "the image was changed".into())?;
    let expected = rewrite(image, job.buffer.content().len());
    judge_buffer(&expected, number, &job.length, &job.buffer)
}

/// The call under test, or one made wrong on purpose.
pub type Make<'a> = &'a dyn Fn(&mut Job) -> u32;

/// Makes a call with a buffer of so many bytes and judges it; its number, and what was written.
pub fn try_case(
    make: Make,
    random: &mut Random,
    image: &[u8],
    buffer: usize,
) -> Result<(u32, Vec<u8>), String> {
    let mut job = Job::new(random, image, buffer);
    let number = make(&mut job);
    judge(image, &job, number).map_err(|complaint| {
        let image: String = image.iter().map(|b| format!("{b:02x}")).collect();
        format!("{complaint}\nbuffer {buffer}, image {image}")
    })?;
    Ok((number, job.written().to_vec()))
}

/// Lists to be read into, filled at random: of any lengths, or long enough.
fn any_places(random: &mut Random) -> Lists {
    let long = random.chance(2);
    let mut list = |most: usize| -> Vec<u64> {
        let places = if long { most } else { random.index(most + 9) };
        (0..places).map(|_| random.word()).collect()
    };
    let narrow = |list: Vec<u64>| list.into_iter().map(|x| x as u32).collect();
    Lists {
        n: 9,
        a: narrow(list(512)),
        b: narrow(list(512)),
        lengths: narrow(list(512)),
        mu: list(64),
        nu: list(64),
        root: 9,
        parents: narrow(list(64)),
    }
}

fn written_by(make: Make, random: &mut Random, image: &[u8]) -> (u32, Vec<u8>) {
    let buffer = image.len() + random.pick(&[0, 1, 50]);
    let mut job = Job::new(random, image, buffer);
    (make(&mut job), job.written().to_vec())
}

/// What holds whatever bytes are written, if the buffer is as long as the image. It is refused as reading is. What
/// is written is no longer, reads as the image does into the same lists, changes no byte when it is written anew,
/// and is written again if its sections are moved apart.
pub fn try_laws(make: Make, random: &mut Random, image: &[u8]) -> Result<(), String> {
    let (number, written) = written_by(make, random, image);
    let long = Lists::of(&Problem::new(9, &[(9, 9, 9); 512], &[9; 64], &[9; 64]).with_tree(9, &[9; 64]));
    let (reading, ..) = read(image, long);
    ensure(number == reading, || {
        format!("number {number}, but reading gives {reading}")
    })?;
    if number > 0 {
        return Ok(());
    }
    ensure(written.len() <= image.len(), || {
        format!("longer: {} bytes of {}", written.len(), image.len())
    })?;
    let places = any_places(random);
    let (first, second) = (read(image, places.clone()), read(&written, places));
    ensure(first == second, || {
        format!("read otherwise: {first:?}, {second:?}")
    })?;
    let again = written_by(make, random, &written);
    ensure(again == (0, written.clone()), || {
        format!("changed when written anew: {written:?}, {again:?}")
    })?;
    let apart = spread(random, &written, 9);
    let again = written_by(make, random, &apart);
    ensure(again == (0, written.clone()), || {
        format!("changed by gaps: {written:?}, {again:?} of {apart:?}")
    })
}

/// A written image of any numbers that fits into so many bytes.
fn written_image(random: &mut Random, most: usize) -> Vec<u8> {
    loop {
        let given = holdable(random);
        if given.buffer <= most {
            return write(&given.lists, given.tree, given.buffer).expect("holdable");
        }
    }
}

/// The bytes of a buffer for an image of this size: as many, more or fewer.
fn any_buffer(random: &mut Random, size: usize) -> usize {
    let fewer = random.index(size.max(1));
    random.pick(&[size, size, size + 1, size + 50, size.saturating_sub(1), fewer, 0])
}

/// Images of one patch, differently spread, become one image.
#[test]
fn images_with_gaps() {
    let (seed, count) = (seed(), cases(10_000));
    let mut short = 0;
    for index in 0..count {
        let random = &mut Random::for_case(seed, index);
        let place = |complaint| format!("seed {seed}, case {index}: {complaint}");
        let image = written_image(random, MOST);
        for _ in 0..2 {
            let any = random.index(MOST - image.len() + 1);
            let spare = random.pick(&[0, 1, 2, 7, 100, 100, 3_000, any]);
            let apart = spread(random, &image, spare);
            let buffer = any_buffer(random, image.len());
            let (number, written) = pass(try_case(&Job::make, random, &apart, buffer).map_err(place));
            let fits = buffer >= image.len();
            assert_eq!(number, if fits { 0 } else { 2 }, "seed {seed}, case {index}");
            assert_eq!(written, if fits { &image[..] } else { &[] });
            pass(try_laws(&Job::make, random, &apart).map_err(place));
            short += u64::from(!fits);
        }
    }
    println!("images with gaps: seed {seed}, twice {count} cases, {short} with a short buffer");
    assert!(count < 100 || short > 0 && short < 2 * count);
}

/// An image of just this size, and the number that it gets.
fn of_size(random: &mut Random, size: usize) -> (Vec<u8>, u32) {
    // The form of an image is sound from 36 bytes on; one vertex takes 44.
    let image = match size {
        0..44 => Problem::new(0, &[], &[], &[]).image(),
        _ => written_image(random, size),
    };
    let mut apart = spread(random, &image, size.saturating_sub(image.len()));
    apart.truncate(size);
    let number = match size {
        0..36 => 11,
        36..44 => 1,
        44..=MOST => 0,
        _ => 11,
    };
    (apart, number)
}

/// Every size up to the greatest and some past it; with fewer cases, some of the sizes between.
#[test]
fn every_size() {
    let all = MOST + 5;
    let (seed, count) = (seed(), cases(all as u64) as usize);
    let random = &mut Random::new(seed);
    let step = all / count.clamp(1, all);
    let near = (0..200).chain(MOST - 5..all).chain([70_000, 131_072 + 44]);
    let mut accepted = 0;
    for size in near.chain((200..MOST - 5).step_by(step)) {
        let (image, expected) = of_size(random, size);
        assert_eq!(image.len(), size);
        let (number, _) = pass(try_case(&Job::make, random, &image, LARGEST));
        assert_eq!(number, expected, "{size} bytes");
        accepted += usize::from(number == 0);
    }
    println!("images of every size: seed {seed}, {accepted} accepted, step {step}");
    assert!(step > 1 || accepted == MOST - 43);
}

/// A faulty or damaged image, or a spread one with some of its bits turned.
pub fn damaged(random: &mut Random, index: u64) -> Vec<u8> {
    match index % 3 {
        0 => random::faulty_case(random, &[FAULTS[index as usize / 3 % FAULTS.len()]]).image,
        1 => random::damaged_case(random).image,
        _ => {
            let (image, spare) = (written_image(random, MOST), random.index(300));
            let mut image = spread(random, &image, spare);
            for _ in 0..random.between(1, 3) {
                let at = random.pick(&[36, image.len()]);
                image[random.index(at)] ^= 1 << random.below(8);
            }
            image
        }
    }
}

/// An image and a buffer: a damaged one, a spread one, or one of the least and greatest sizes.
pub fn any_case(random: &mut Random, index: u64) -> (Vec<u8>, usize) {
    let image = match index % 3 {
        0 => damaged(random, index / 3),
        1 => {
            let (image, spare) = (written_image(random, MOST), random.index(300));
            spread(random, &image, spare)
        }
        _ => {
            let size = random.pick(&[0, 35, 36, 43, 44, 45, MOST - 1, MOST, MOST, MOST + 1]);
            of_size(random, size).0
        }
    };
    let size = rewrite(&image, MOST).map_or(image.len(), |written| written.len());
    let buffer = any_buffer(random, size);
    (image, buffer)
}

/// The rewriter's own numbers come up, and no others: what reading does not judge is written.
#[test]
fn damaged_images() {
    let (seed, count) = (seed(), cases(20_000));
    let mut numbers = Numbers::default();
    for index in 0..count {
        let random = &mut Random::for_case(seed, index);
        let place = |complaint| format!("seed {seed}, case {index}: {complaint}");
        let image = damaged(random, index);
        let size = rewrite(&image, MOST).map_or(image.len(), |written| written.len());
        let buffer = any_buffer(random, size);
        let (number, _) = pass(try_case(&Job::make, random, &image, buffer).map_err(place));
        pass(try_laws(&Job::make, random, &image).map_err(place));
        numbers[number as usize] += 1;
    }
    println!("damaged images anew: seed {seed}, {count} cases, by number {numbers:?}");
    let own = came_up(&numbers, &[0, 1, 2, 11, 12, 13]);
    assert!(count < 1_000 || own, "{numbers:?}");
}

/// Every length of the buffer and of the image, of case A with gaps and a tail.
#[test]
fn every_length() {
    let random = &mut Random::new(seed());
    for tree in [true, false] {
        let image = write(&case_a(), tree, 85).expect("small numbers");
        let mut apart = spread(random, &image, 60);
        let end = apart.len();
        apart.extend([7; 9]);
        for buffer in 0..apart.len() + 9 {
            let (number, _) = pass(try_case(&Job::make, random, &apart, buffer));
            assert_eq!(number, if buffer < image.len() { 2 } else { 0 }, "{buffer}");
        }
        for length in 0..=apart.len() {
            // An image that is cut short is refused for that, whatever the buffer.
            for buffer in [0, 10, 85, 200] {
                let (number, _) = pass(try_case(&Job::make, random, &apart[..length], buffer));
                assert!(length < end || number == if buffer < image.len() { 2 } else { 0 });
                assert!(length >= image.len() || number == if length < 36 { 11 } else { 12 });
            }
        }
    }
}

/// From the most that can be written to what cannot: 64 vertices and 512 edges, and one more of each.
#[test]
fn sizes_at_their_bounds() {
    let random = &mut Random::new(seed());
    for n in [0, 1, 63, 64, 65, 255] {
        for m in [0, 511, 512, 513, 2_000] {
            let problem = Problem::new(n, &vec![(200, 100, 0); m], &vec![u32::MAX as u64; n], &vec![7; n]);
            let expected = match (n, m) {
                (0 | 65.., _) => 1,
                (_, 513..) => 2,
                _ => 0,
            };
            for problem in [problem.clone(), problem.with_tree(255, &vec![254; n])] {
                let image = problem.image();
                for buffer in [0, image.len()] {
                    let (number, _) = pass(try_case(&Job::make, random, &image, buffer));
                    let short = expected == 0 && buffer == 0;
                    assert_eq!(
                        number,
                        if short { 2 } else { expected },
                        "{n} vertices, {m} edges"
                    );
                }
            }
        }
    }
}

/// Images are written anew from several threads at once, some of them from one shared image.
#[test]
fn several_threads() {
    let (seed, count) = (seed(), cases(500));
    let image = written_image(&mut Random::new(seed), MOST);
    let shared = spread(&mut Random::new(seed), &image, 500);
    let worker = |thread: u64| {
        for index in 0..count {
            let random = &mut Random::for_case(seed + thread, index);
            let mut buffer = [0; LARGEST];
            let mut length = 0;
            assert_eq!(mover_rewrite(&shared, &mut buffer, &mut length), 0);
            assert_eq!(buffer[..length], image);
            let other = damaged(random, index);
            pass(try_case(&Job::make, random, &other, LARGEST));
        }
    };
    std::thread::scope(|scope| {
        for thread in 0..4 {
            let worker = &worker;
            scope.spawn(move || worker(thread));
        }
    });
    println!("several threads, images anew: seed {seed}, 4 times {count} cases");
}
