//! Rewriters of images that are wrong on purpose: the tests of them can fail.

use crate::rewriter::{any_case, judge, try_case, try_laws, Job};
use crate::writer::case_a;
use crate::{brief, pass};
use reference::checks::read;
use reference::random::Random;
use reference::random_writer::spread;
use reference::writer::write;
use reference::Problem;

type Wrong = fn(&mut Job) -> u32;

/// The library, and then other bytes where it wrote, with their length.
fn put(job: &mut Job, bytes: impl FnOnce(&[u8], &[u8]) -> Vec<u8>) -> u32 {
    let number = job.make();
    if number == 0 {
        let bytes = bytes(job.image.content(), job.written());
        let fits = bytes.len().min(job.buffer.content().len());
        job.buffer.content_mut()[..fits].copy_from_slice(&bytes[..fits]);
        *job.length.one() = fits;
    }
    number
}

/// The library, and then the image of another problem.
fn put_problem(job: &mut Job, change: impl FnOnce(&mut Problem)) -> u32 {
    put(job, |image, _| {
        let mut problem = read(image, |_, _| true).expect("accepted");
        change(&mut problem);
        problem.image()
    })
}

/// The library, but what it accepts is refused so if it is of this kind.
fn refusing(job: &mut Job, refusal: u32, is_refused: impl FnOnce(&Job) -> bool) -> u32 {
    let number = job.make();
    if number == 0 && is_refused(job) {
        let before = job.buffer.before().to_vec();
        job.buffer.content_mut().copy_from_slice(&before);
        *job.length.one() = 0;
        return refusal;
    }
    number
}

/// The library, and then something else where it refused.
fn after_refusal(job: &mut Job, change: impl FnOnce(&mut Job)) -> u32 {
    let number = job.make();
    if number > 0 {
        change(job);
    }
    number
}

/// The end of the last section.
fn end(image: &[u8]) -> usize {
    let field = |at: usize| u32::from_le_bytes([0, 1, 2, 3].map(|k| image[at + k])) as usize;
    field(28) + field(32)
}

/// Rewriters that read otherwise, or write otherwise; what holds of all images shows it too.
const OTHER_MEANINGS: [(&str, Wrong); 11] = [
    ("the image as it is", |job| put(job, |image, _| image.to_vec())),
    ("the image without its tail", |job| {
        put(job, |image, _| image[..end(image)].to_vec())
    }),
    ("a gap before the tree", |job| {
        put(job, |image, written| {
            let mut bytes = written.to_vec();
            let tree = end(written) - usize::from(written[32]);
            if image.len() > written.len() {
                bytes.insert(tree, 7);
                bytes[28..32].copy_from_slice(&(tree as u32 + 1).to_le_bytes());
            }
            bytes
        })
    }),
    ("places as they were", |job| {
        put(job, |image, written| [&image[..36], &written[36..]].concat())
    }),
    ("no tree", |job| put_problem(job, |problem| problem.tree = None)),
    ("edges sorted", |job| {
        put_problem(job, |problem| problem.edges.sort_by_key(|e| (e.a, e.b)))
    }),
    ("mu twice", |job| {
        put_problem(job, |problem| problem.nu = problem.mu.clone())
    }),
    ("one more", |job| {
        put_problem(job, |problem| problem.mu[0] = (problem.mu[0] + 1) % (1 << 32))
    }),
    ("a byte more", |job| {
        put(job, |_, written| [written, &[0][..]].concat())
    }),
    ("a byte more than the image", |job| {
        put(job, |image, _| [image, &[0][..]].concat())
    }),
    ("a tail that tells the size", |job| {
        put(job, |image, written| match image.len() > written.len() {
            true => [written, &[image.len() as u8][..]].concat(),
            false => written.to_vec(),
        })
    }),
];

/// Rewriters that are wrong as calls: in their number, or in what else they do.
const OTHER_CALLS: [(&str, Wrong); 16] = [
    ("accepts everything", |job| {
        job.make();
        0
    }),
    ("2 for everybody", |_| 2),
    ("the number after", |job| match job.make() {
        0 => 0,
        number => number + 1,
    }),
    ("a short buffer before the image", |job| match job.make() {
        0 => 0,
        _ if job.buffer.content().len() < 44 => 2,
        number => number,
    }),
    ("wants as many bytes as the image has", |job| {
        refusing(job, 2, |job| {
            job.buffer.content().len() < job.image.content().len()
        })
    }),
    ("a buffer that just fits is refused", |job| {
        refusing(job, 2, |job| job.written().len() == job.buffer.content().len())
    }),
    ("65,536 bytes are refused", |job| {
        refusing(job, 11, |job| job.image.content().len() == 65_536)
    }),
    ("gaps are refused", |job| {
        refusing(job, 12, |job| job.written().len() < end(job.image.content()))
    }),
    ("ends that are no vertices are refused", |job| {
        refusing(job, 3, |job| {
            let problem = read(job.image.content(), |_, _| true).expect("accepted");
            problem.edges.iter().any(|e| e.a.max(e.b) >= problem.n)
        })
    }),
    ("a byte past the image", |job| {
        let number = job.make();
        let length = job.length.content()[0];
        if let (0, Some(byte)) = (number, job.buffer.content_mut().get_mut(length)) {
            *byte ^= 1;
        }
        number
    }),
    ("the rest is cleared", |job| {
        let number = job.make();
        let length = job.length.content()[0];
        if number == 0 {
            job.buffer.content_mut()[length..].fill(0);
        }
        number
    }),
    ("the image's own length is told", |job| {
        let number = job.make();
        if number == 0 {
            *job.length.one() = job.image.content().len();
        }
        number
    }),
    ("a refusal tells the length", |job| {
        after_refusal(job, |job| *job.length.one() = job.image.content().len().max(1))
    }),
    ("a refused buffer is cleared", |job| {
        after_refusal(job, |job| job.buffer.content_mut().fill(0))
    }),
    ("as much as there is room for", |job| {
        after_refusal(job, |job| {
            let room = job.buffer.content_mut().iter_mut();
            room.zip(job.image.content())
                .for_each(|(place, &byte)| *place = byte);
        })
    }),
    ("the image is changed", |job| {
        let number = job.make();
        job.image
            .content_mut()
            .first_mut()
            .into_iter()
            .for_each(|b| *b ^= 1);
        number
    }),
];

#[test]
fn wrong_rewriters_are_caught() {
    let (seed, count) = (1, 1_500);
    let run = |make: &dyn Fn(&mut Job) -> u32| {
        (0..count).try_for_each(|index| {
            let random = &mut Random::for_case(seed, index);
            let (image, buffer) = any_case(random, index);
            try_case(make, random, &image, buffer).map(drop)
        })
    };
    pass(run(&Job::make));
    for (name, wrong) in OTHER_MEANINGS.iter().chain(&OTHER_CALLS) {
        match run(wrong) {
            Ok(()) => panic!("\"{name}\" was not caught: seed {seed}"),
            Err(complaint) => println!("wrong on purpose, rewriter, {name}: {}", brief(&complaint)),
        }
    }
}

/// Every sentence of what holds whatever is written, by the start of the complaint about it.
const SENTENCES: [&str; 5] = [
    "number ",
    "longer: ",
    "read otherwise: ",
    "changed when written anew: ",
    "changed by gaps: ",
];

/// What holds whatever is written shows wrong bytes too, without the reference, and each sentence some.
#[test]
fn wrong_laws_are_noticed() {
    let complaints = |make: &dyn Fn(&mut Job) -> u32| {
        let tried = (0..300).map(|index| {
            let random = &mut Random::for_case(1, index);
            let (image, _) = any_case(random, index);
            try_laws(make, random, &image)
        });
        tried.filter_map(Result::err).collect::<Vec<String>>()
    };
    assert!(complaints(&Job::make).is_empty());
    let mut heard = [0; SENTENCES.len()];
    for (name, wrong) in OTHER_MEANINGS.iter().chain(&OTHER_CALLS[..3]) {
        let complaints = complaints(wrong);
        println!(
            "wrong on purpose, laws, {name}: noticed {} times",
            complaints.len()
        );
        assert!(!complaints.is_empty(), "\"{name}\" was never noticed");
        for complaint in complaints {
            let sentence = SENTENCES.iter().position(|s| complaint.starts_with(s));
            heard[sentence.expect("a sentence")] += 1;
        }
    }
    for (sentence, count) in SENTENCES.iter().zip(heard) {
        println!("wrong on purpose, laws: \"{sentence}\" said {count} times");
        assert!(count > 0, "never said: {sentence:?}");
    }
}

/// Every single byte of a buffer and of the image is looked at, and so are length, number and guard places.
#[test]
fn wrong_bytes_are_noticed() {
    let mut seeds = 0..;
    let seed = seeds.find(|&s| !Random::new(s).chance(2)).expect("a seed");
    let image = write(&case_a(), true, 85).expect("small numbers");
    let image = spread(&mut Random::new(1), &image, 30);
    for buffer in [90, 84] {
        let spoiled = |spoil: &dyn Fn(&mut Job, &mut u32)| {
            let mut job = Job::new(&mut Random::new(seed), &image, buffer);
            let mut number = job.make();
            assert_eq!(judge(&image, &job, number), Ok(()));
            spoil(&mut job, &mut number);
            judge(&image, &job, number).expect_err("a spoil")
        };
        for at in 0..buffer {
            let complaint = spoiled(&|job, _| job.buffer.content_mut()[at] ^= 1 << (at % 8));
            let expected = match (buffer, at) {
                (90, 0..85) => format!("byte {at} of the image: "),
                (90, _) => "bytes past what is written were changed".into(),
                _ => "a refusal changed the buffer".into(),
            };
            assert!(complaint.starts_with(&expected), "{at}: {complaint}");
        }
        for at in 0..image.len() {
            let complaint = spoiled(&|job, _| job.image.content_mut()[at] ^= 1 << (at % 8));
            assert_eq!(complaint, "the image was changed");
        }
        for other in 1..20 {
            let complaint = spoiled(&|_, number| *number = (*number + other) % 20);
            assert!(complaint.contains("but got"), "{complaint}");
            let complaint = spoiled(&|job, _| *job.length.one() += other as usize);
            assert!(complaint.contains("length"), "{complaint}");
        }
        for after in [true, false] {
            let complaint = spoiled(&|job, _| job.buffer.break_guard(&mut Random::new(2), after));
            assert!(complaint.starts_with("places round"), "{complaint}");
            let complaint = spoiled(&|job, _| job.length.break_guard(&mut Random::new(2), after));
            assert!(complaint.starts_with("places round"), "{complaint}");
        }
    }
}
