//! Writers of images that are wrong on purpose: the tests of them can fail.

use crate::lent::Lent;
use crate::one_place::try_pairs;
use crate::writer::{any_case, case_a, judge, reads_back, try_case, Job};
use crate::{brief, pass};
use reference::random::Random;
use reference::random_writer::{Given, AMOUNT, END, LENGTH};
use reference::Lists;
use weight_mover::calls::mover_write_image;
use weight_mover::image_size;

type Wrong = fn(&mut Job) -> u32;

/// The library with other lists.
fn with(job: &mut Job, other: impl FnOnce(&mut Lists)) -> u32 {
    let [a, b, lengths] = [0, 1, 2].map(|k: usize| job.edges[k].content().to_vec());
    let [mu, nu] = [0, 1].map(|k: usize| job.measures[k].content().to_vec());
    let mut lists = Lists {
        n: job.n,
        a,
        b,
        lengths,
        mu,
        nu,
        root: job.root,
        parents: job.parents.content().to_vec(),
    };
    other(&mut lists);
    mover_write_image(
        lists.n,
        &lists.a,
        &lists.b,
        &lists.lengths,
        &lists.mu,
        &lists.nu,
        job.tree,
        lists.root,
        &lists.parents,
        job.buffer.content_mut(),
        job.length.one(),
    )
}

/// Puts another number into each place.
fn each<T: Copy>(list: &mut [T], other: impl Fn(T) -> T) {
    list.iter_mut().for_each(|place| *place = other(*place));
}

/// Writers that are given other lists than they should take.
const OTHER_LISTS: [(&str, Wrong); 17] = [
    ("8 bits of n", |job| with(job, |l| l.n %= 256)),
    ("16 bits of m", |job| {
        with(job, |l| {
            let m = l.a.len() % 65_536;
            [&mut l.a, &mut l.b, &mut l.lengths]
                .into_iter()
                .for_each(|list| list.truncate(m));
        })
    }),
    ("the shortest edge list counts", |job| {
        with(job, |l| {
            let m = l.a.len().min(l.b.len()).min(l.lengths.len());
            [&mut l.a, &mut l.b, &mut l.lengths]
                .into_iter()
                .for_each(|list| list.truncate(m));
        })
    }),
    ("a longer measure is cut", |job| with(job, |l| l.mu.truncate(l.n))),
    ("longer parents are cut", |job| {
        with(job, |l| l.parents.truncate(l.n))
    }),
    ("8 bits of a lower end", |job| {
        with(job, |l| each(&mut l.a, |x| x % 256))
    }),
    ("8 bits of an upper end", |job| {
        with(job, |l| each(&mut l.b, |x| x % 256))
    }),
    ("16 bits of a length", |job| {
        with(job, |l| each(&mut l.lengths, |x| x % 65_536))
    }),
    ("32 bits of an amount before", |job| {
        with(job, |l| each(&mut l.mu, |x| x % (1 << 32)))
    }),
    ("at most 32 bits after", |job| {
        with(job, |l| each(&mut l.nu, |x| x.min(AMOUNT)))
    }),
    ("8 bits of the root", |job| with(job, |l| l.root %= 256)),
    ("32 bits of the root", |job| with(job, |l| l.root %= 1 << 32)),
    ("8 bits of a parent", |job| {
        with(job, |l| each(&mut l.parents, |x| x % 256))
    }),
    ("at most 16,777,216 grains", |job| {
        with(job, |l| each(&mut l.mu, |x| x.min(16_777_216)))
    }),
    ("no length 0", |job| {
        with(job, |l| each(&mut l.lengths, |x| x.max(1)))
    }),
    ("the lower end first", |job| {
        with(job, |l| {
            let ends = l.a.iter_mut().zip(&mut l.b);
            ends.filter(|(a, b)| a > b)
                .for_each(|(a, b)| std::mem::swap(a, b));
        })
    }),
    ("the root its own parent", |job| {
        with(job, |l| {
            if let Some(parent) = l.parents.get_mut(l.root) {
                *parent = l.root as u32;
            }
        })
    }),
];

/// The library, but what it accepts is refused so if it is of this kind.
fn refusing(job: &mut Job, refusal: u32, is_refused: impl FnOnce(&Job) -> bool) -> u32 {
    let number = job.make();
    if number == 0 && is_refused(job) {
        let before = job.buffer.before().to_vec();
        job.buffer.content_mut().copy_from_slice(&before);
        *job.length.one() = 0;
        return refusal;
    }
    number
}

/// The library, but another number for this one if it is of this kind.
fn instead(job: &mut Job, number: u32, other: u32, is_other: impl FnOnce(&Job) -> bool) -> u32 {
    match job.make() {
        got if got == number && is_other(job) => other,
        got => got,
    }
}

fn any<T: Copy + Into<u64> + crate::lent::Draw>(list: &Lent<T>, is_such: impl Fn(u64) -> bool) -> bool {
    list.content().iter().any(|&x| is_such(x.into()))
}

fn is_wide(job: &Job) -> bool {
    let [a, b, lengths] = &job.edges;
    any(a, |x| x > END) || any(b, |x| x > END) || any(lengths, |x| x > LENGTH)
}

fn total(list: &Lent<u64>) -> u64 {
    list.content().iter().sum()
}

/// Writers with other numbers.
const OTHER_NUMBERS: [(&str, Wrong); 24] = [
    ("accepts everything", |job| {
        job.make();
        0
    }),
    ("2 for everybody", |_| 2),
    ("4 for 13", |job| instead(job, 13, 4, |_| true)),
    ("13 before 2", |job| instead(job, 2, 13, is_wide)),
    ("13 before 1", |job| instead(job, 1, 13, is_wide)),
    ("2 before 1", |job| {
        instead(job, 1, 2, |job| job.edges[0].content().len() > 512)
    }),
    ("a short buffer before 1", |job| {
        instead(job, 1, 2, |job| job.buffer.content().len() < 36)
    }),
    ("a short buffer after 13", |job| {
        instead(job, 2, 13, |job| {
            let [a, b, lengths] = job.edges.each_ref().map(|list| list.content().len());
            is_wide(job) && a == b && b == lengths
        })
    }),
    ("no vertex is wrong by 2", |job| {
        instead(job, 1, 2, |job| job.n == 0)
    }),
    ("parents tested without a tree: how many", |job| {
        refusing(job, 2, |job| !job.tree && job.parents.content().len() != job.n)
    }),
    ("parents tested without a tree: too large", |job| {
        refusing(job, 13, |job| any(&job.parents, |x| x > END))
    }),
    ("the root tested without a tree", |job| {
        refusing(job, 13, |job| job.root > 255)
    }),
    ("a buffer that just fits is refused", |job| {
        refusing(job, 2, |job| job.image().len() == job.buffer.content().len())
    }),
    ("a longer buffer is refused", |job| {
        refusing(job, 2, |job| job.image().len() < job.buffer.content().len())
    }),
    ("64 vertices are refused", |job| {
        refusing(job, 1, |job| job.n == 64)
    }),
    ("512 edges are refused", |job| {
        refusing(job, 2, |job| job.edges[0].content().len() == 512)
    }),
    ("no edges are refused", |job| {
        refusing(job, 2, |job| job.edges[0].content().is_empty())
    }),
    ("an end of 255 is refused", |job| {
        refusing(job, 13, |job| any(&job.edges[1], |x| x == END))
    }),
    ("a length of 65,535 is refused", |job| {
        refusing(job, 13, |job| any(&job.edges[2], |x| x == LENGTH))
    }),
    ("an amount of 4,294,967,295 is refused", |job| {
        refusing(job, 13, |job| any(&job.measures[1], |x| x == AMOUNT))
    }),
    ("an end that is no vertex is refused", |job| {
        refusing(job, 3, |job| any(&job.edges[0], |x| x >= job.n as u64))
    }),
    ("edges out of order are refused", |job| {
        refusing(job, 3, |job| !job.edges[0].content().is_sorted())
    }),
    ("totals that differ are refused", |job| {
        refusing(job, 7, |job| total(&job.measures[0]) != total(&job.measures[1]))
    }),
    ("a root that is no vertex is refused", |job| {
        refusing(job, 8, |job| job.tree && job.root >= job.n)
    }),
];

/// The library, and then another image: its bytes, and where mu, nu and the tree begin.
fn after(job: &mut Job, change: impl FnOnce(&mut [u8], [usize; 3])) -> u32 {
    let number = job.make();
    if number == 0 {
        let (n, m) = (job.n, job.edges[0].content().len());
        let length = job.length.content()[0];
        let starts = [0, 1, 2].map(|k| 36 + 4 * m + 4 * n * k);
        change(&mut job.buffer.content_mut()[..length], starts);
    }
    number
}

/// The library, and then something else where it refused.
fn after_refusal(job: &mut Job, change: impl FnOnce(&mut Job)) -> u32 {
    let number = job.make();
    if number > 0 {
        change(job);
    }
    number
}

/// Writers of other bytes.
const OTHER_BYTES: [(&str, Wrong); 24] = [
    ("bytes of m exchanged", |job| {
        after(job, |image, _| image.swap(2, 3))
    }),
    ("n and 0 exchanged", |job| after(job, |image, _| image.swap(0, 1))),
    ("byte 1 tells of a tree", |job| {
        after(job, |image, [.., tree]| image[1] = u8::from(image.len() > tree))
    }),
    ("the tree's start one too far", |job| {
        after(job, |image, _| image[28] = image[28].wrapping_add(1))
    }),
    ("an empty tree starts nowhere", |job| {
        after(job, |image, [.., tree]| {
            if image.len() == tree {
                image[28..32].fill(0);
            }
        })
    }),
    ("an empty tree has a byte", |job| {
        after(job, |image, _| image[32] = image[32].max(1))
    }),
    ("starts count from byte 36", |job| {
        after(job, |image, _| image[4] -= 36)
    }),
    ("entries counted for bytes", |job| {
        after(job, |image, _| image.copy_within(2..4, 8))
    }),
    ("mu twice", |job| {
        after(job, |image, [mu, nu, _]| image.copy_within(mu..nu, nu))
    }),
    ("measures exchanged", |job| {
        after(job, |image, [mu, nu, tree]| image[mu..tree].rotate_left(nu - mu))
    }),
    ("measures before edges", |job| {
        after(job, |image, [mu, _, tree]| image[36..tree].rotate_left(mu - 36))
    }),
    ("ends exchanged", |job| {
        after(job, |image, [mu, ..]| {
            image[36..mu].chunks_mut(4).for_each(|edge| edge.swap(0, 1))
        })
    }),
    ("bytes of a length exchanged", |job| {
        after(job, |image, [mu, ..]| {
            image[36..mu].chunks_mut(4).for_each(|edge| edge.swap(2, 3))
        })
    }),
    ("bytes of an amount turned round", |job| {
        after(job, |image, [mu, _, tree]| {
            image[mu..tree].chunks_mut(4).for_each(<[u8]>::reverse)
        })
    }),
    ("the root behind its parents", |job| {
        after(job, |image, [.., tree]| {
            let tree = &mut image[tree..];
            tree.rotate_left(1.min(tree.len()))
        })
    }),
    ("a byte past the image", |job| {
        let number = job.make();
        let length = job.length.content()[0];
        if let (0, Some(byte)) = (number, job.buffer.content_mut().get_mut(length)) {
            *byte ^= 1;
        }
        number
    }),
    ("the rest is cleared", |job| {
        let number = job.make();
        let length = job.length.content()[0];
        if number == 0 {
            job.buffer.content_mut()[length..].fill(0);
        }
        number
    }),
    ("one byte more is told", |job| {
        let number = job.make();
        *job.length.one() += usize::from(number == 0);
        number
    }),
    ("the tree is not counted", |job| {
        let number = job.make();
        let tree = number == 0 && job.tree;
        *job.length.one() -= if tree { job.n + 1 } else { 0 };
        number
    }),
    ("the buffer's length is told", |job| {
        let number = job.make();
        if number == 0 {
            *job.length.one() = job.buffer.content().len();
        }
        number
    }),
    ("a refusal tells the length", |job| {
        after_refusal(job, |job| *job.length.one() = image_size(4, 3, job.tree))
    }),
    ("a refused buffer is cleared", |job| {
        after_refusal(job, |job| job.buffer.content_mut().fill(0))
    }),
    ("a refused buffer has its first byte", |job| {
        after_refusal(job, |job| {
            let n = job.n as u8;
            job.buffer
                .content_mut()
                .first_mut()
                .into_iter()
                .for_each(|b| *b = n);
        })
    }),
    ("a list is changed", |job| {
        let number = job.make();
        job.parents.content_mut().iter_mut().for_each(|p| *p ^= 1);
        number
    }),
];

#[test]
fn wrong_writers_are_caught() {
    let (seed, count) = (1, 2_000);
    let run = |make: &dyn Fn(&mut Job) -> u32| {
        (0..count).try_for_each(|index| {
            let random = &mut Random::for_case(seed, index);
            let given = any_case(random, index);
            try_case(make, random, &given).map(drop)
        })
    };
    pass(run(&Job::make));
    for (name, wrong) in OTHER_LISTS.iter().chain(&OTHER_NUMBERS).chain(&OTHER_BYTES) {
        match run(wrong) {
            Ok(()) => panic!("\"{name}\" was not caught: seed {seed}"),
            Err(complaint) => println!("wrong on purpose, writer, {name}: {}", brief(&complaint)),
        }
    }
}

/// A job with guard places, and the call made: every second seed gives one.
fn guarded(given: &Given) -> (Job, u32) {
    let mut seeds = 0..;
    let seed = seeds.find(|&s| !Random::new(s).chance(2)).expect("a seed");
    let mut job = Job::new(&mut Random::new(seed), given);
    let number = job.make();
    (job, number)
}

/// Case A with bytes to spare, written or refused by 13.
fn cases_of_a() -> [Given; 2] {
    let mut written = Given::fitted(case_a(), true);
    written.buffer += 5;
    let mut refused = written.clone();
    refused.lists.b[1] = 256;
    [written, refused]
}

/// Every single byte of a buffer is looked at: of the image, past it, and of one that was refused.
#[test]
fn wrong_bytes_are_noticed() {
    for given in cases_of_a() {
        for at in 0..given.buffer {
            let (mut job, number) = guarded(&given);
            assert_eq!(judge(&given, &job, number), Ok(()));
            job.buffer.content_mut()[at] ^= 1 << (at % 8);
            let complaint = judge(&given, &job, number).expect_err("a wrong byte");
            let expected = match (number, at) {
                (0, 0..85) => format!("byte {at} of the image: "),
                (0, _) => "bytes past what is written were changed".into(),
                _ => "a refusal changed the buffer".into(),
            };
            assert!(complaint.starts_with(&expected), "{at}: {complaint}");
        }
    }
}

/// Every other number and length is noticed, and so is what changes lists or guard places.
#[test]
fn wrong_results_are_noticed() {
    for given in cases_of_a() {
        let (mut job, number) = guarded(&given);
        for other in (0..20).filter(|&other| other != number) {
            let complaint = judge(&given, &job, other).expect_err("a wrong number");
            assert!(complaint.contains(&format!("but got {other}")), "{complaint}");
        }
        let length = job.length.content()[0];
        for other in (0..=given.buffer).filter(|&other| other != length) {
            *job.length.one() = other;
            let complaint = judge(&given, &job, number).expect_err("a wrong length");
            assert!(complaint.contains(&format!("length {other}")), "{complaint}");
        }
        for (list, at) in [(0, 3), (1, 3), (2, 3), (3, 4), (4, 4), (5, 4)]
            .into_iter()
            .flat_map(|(list, places)| (0..places).map(move |at| (list, at)))
        {
            let (mut job, number) = guarded(&given);
            match list {
                0..=2 => job.edges[list].content_mut()[at] ^= 1,
                3..=4 => job.measures[list - 3].content_mut()[at] ^= 1,
                _ => job.parents.content_mut()[at] ^= 1,
            }
            assert_eq!(judge(&given, &job, number), Err("a list was changed".into()));
        }
        for (of_buffer, after) in [(true, true), (true, false), (false, true), (false, false)] {
            let (mut job, number) = guarded(&given);
            match of_buffer {
                true => job.buffer.break_guard(&mut Random::new(2), after),
                false => job.length.break_guard(&mut Random::new(2), after),
            }
            let complaint = judge(&given, &job, number).expect_err("a broken guard");
            assert!(complaint.starts_with("places round"), "{complaint}");
        }
    }
}

/// Every single bit of an image is read: another one is not what was written.
#[test]
fn wrong_images_read_otherwise() {
    for tree in [true, false] {
        let given = Given::fitted(case_a(), tree);
        let (job, number) = guarded(&given);
        assert_eq!((number, reads_back(&given, job.image())), (0, Ok(())));
        for bit in 0..8 * given.buffer {
            let mut image = job.image().to_vec();
            image[bit / 8] ^= 1 << (bit % 8);
            assert!(reads_back(&given, &image).is_err(), "bit {bit}");
        }
    }
}

/// Writers that lose something, or add to it.
const OTHER_PAIRS: [(&str, Wrong); 11] = [
    ("byte 1 is left as it was", |job| {
        let before = job.buffer.before()[1];
        after(job, |image, _| image[1] = before)
    }),
    ("no tree", |job| {
        job.tree = false;
        job.make()
    }),
    ("the root is told without a tree", |job| {
        let root = job.root as u8;
        after(job, |image, _| image[31] = root)
    }),
    ("root 0", |job| with(job, |l| l.root = 0)),
    ("the last parent is 0", |job| {
        with(job, |l| l.parents.iter_mut().rev().take(1).for_each(|p| *p = 0))
    }),
    ("no lower ends", |job| with(job, |l| l.a.fill(0))),
    ("upper ends as large as lower ones", |job| {
        with(job, |l| l.b.clone_from(&l.a))
    }),
    ("8 bits of a length", |job| {
        with(job, |l| each(&mut l.lengths, |x| x % 256))
    }),
    ("24 bits of an amount", |job| {
        with(job, |l| each(&mut l.mu, |x| x % (1 << 24)))
    }),
    ("mu for nu", |job| with(job, |l| l.nu.clone_from(&l.mu))),
    ("the last edge is left out", |job| {
        with(job, |l| {
            [&mut l.a, &mut l.b, &mut l.lengths].into_iter().for_each(|list| {
                list.pop();
            });
        })
    }),
];

/// Equal bytes for different patches are noticed, and different bytes for equal ones, without the reference.
#[test]
fn wrong_pairs_are_noticed() {
    for (name, wrong) in OTHER_PAIRS {
        let caught = |index: &u64| try_pairs(&wrong, &mut Random::for_case(1, *index)).is_err();
        let times = (0..200).filter(caught).count();
        println!("wrong on purpose, pairs, {name}: caught {times} times");
        assert!(times > 0, "\"{name}\" was never caught");
    }
}
