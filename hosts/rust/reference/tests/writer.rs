//! Images that are written, and written anew, against bytes that were written by hand.

use reference::random::{self, Random, FAULTS};
use reference::random_lists::sound_problem;
use reference::random_writer::{accepted, holdable, refused, spread, UNWRITABLE};
use reference::writer::{rewrite, write};
use reference::{checks, Lists, Problem};

const MANY: usize = usize::MAX;

/// Case A: edges (0, 1) 2, (1, 2) 3, (2, 3) 1; mu 5 0 1 0, nu 0 2 1 3; root 3, parents 1 2 3 3.
#[rustfmt::skip]
const CASE_A: [u8; 85] = [
    4, 0, 3, 0, // n, 0, m
    36, 0, 0, 0, 12, 0, 0, 0, // edges
    48, 0, 0, 0, 16, 0, 0, 0, // mu
    64, 0, 0, 0, 16, 0, 0, 0, // nu
    80, 0, 0, 0, 5, 0, 0, 0, // tree
    0, 1, 2, 0,
    1, 2, 3, 0,
    2, 3, 1, 0,
    5, 0, 0, 0, 0, 0, 0, 0, 1, 0, 0, 0, 0, 0, 0, 0,
    0, 0, 0, 0, 2, 0, 0, 0, 1, 0, 0, 0, 3, 0, 0, 0,
    3, 1, 2, 3, 3,
];

/// One vertex, an edge and a tree, of the greatest numbers that there are bytes for, and of different ones.
#[rustfmt::skip]
const GREATEST: [u8; 50] = [
    1, 0, 1, 0,
    36, 0, 0, 0, 4, 0, 0, 0,
    40, 0, 0, 0, 4, 0, 0, 0,
    44, 0, 0, 0, 4, 0, 0, 0,
    48, 0, 0, 0, 2, 0, 0, 0,
    255, 254, 255, 255,
    255, 255, 255, 255,
    0x78, 0x56, 0x34, 0x12,
    255, 253,
];

fn case_a() -> Lists {
    let edges = [(0, 1, 2), (1, 2, 3), (2, 3, 1)];
    Lists::of(&Problem::new(4, &edges, &[5, 0, 1, 0], &[0, 2, 1, 3]).with_tree(3, &[1, 2, 3, 3]))
}

/// Case A without its tree: the last pair has the same start and no length.
fn case_a_without_tree() -> Vec<u8> {
    let mut image = CASE_A[..80].to_vec();
    image[32] = 0;
    image
}

#[test]
fn written_by_hand() {
    assert_eq!(write(&case_a(), true, 85), Ok(CASE_A.to_vec()));
    assert_eq!(write(&case_a(), true, MANY), Ok(CASE_A.to_vec()));
    assert_eq!(write(&case_a(), false, 80), Ok(case_a_without_tree()));
    let greatest = Lists {
        n: 1,
        a: vec![255],
        b: vec![254],
        lengths: vec![65_535],
        mu: vec![4_294_967_295],
        nu: vec![0x1234_5678],
        root: 255,
        parents: vec![253],
    };
    assert_eq!(write(&greatest, true, 50), Ok(GREATEST.to_vec()));
}

/// The number for case A with a change, with its tree or without, and a buffer of so many bytes.
fn changed(tree: bool, buffer: usize, change: impl Fn(&mut Lists)) -> u32 {
    let mut lists = case_a();
    change(&mut lists);
    write(&lists, tree, buffer).err().unwrap_or(0)
}

/// The same for both, the tree first.
fn both(change: impl Fn(&mut Lists)) -> [u32; 2] {
    [true, false].map(|tree| changed(tree, MANY, &change))
}

fn edges(lists: &mut Lists, m: usize) {
    for list in [&mut lists.a, &mut lists.b, &mut lists.lengths] {
        list.resize(m, 7);
    }
}

#[test]
fn every_number() {
    assert_eq!(both(|_| ()), [0, 0]);
    for n in [0, 65, 256 + 4, MANY] {
        assert_eq!(both(|l| l.n = n), [1, 1]);
    }
    assert_eq!(both(|l| edges(l, 512)), [0, 0]);
    assert_eq!(both(|l| edges(l, 513)), [2, 2]);
    assert_eq!(both(|l| edges(l, 65_536)), [2, 2]);
    assert_eq!(both(|l| l.a.push(0)), [2, 2]);
    assert_eq!(both(|l| l.b.clear()), [2, 2]);
    assert_eq!(both(|l| l.lengths.truncate(2)), [2, 2]);
    assert_eq!(both(|l| l.mu.push(0)), [2, 2]);
    assert_eq!(both(|l| l.nu.truncate(3)), [2, 2]);
    assert_eq!(both(|l| l.parents.push(0)), [2, 0]);
    assert_eq!(both(|l| l.parents.clear()), [2, 0]);
    for buffer in [0, 36, 79] {
        assert_eq!([true, false].map(|tree| changed(tree, buffer, |_| ())), [2, 2]);
    }
    assert_eq!([true, false].map(|tree| changed(tree, 84, |_| ())), [2, 0]);

    assert_eq!(both(|l| l.a[0] = 256), [13, 13]);
    assert_eq!(both(|l| l.b[2] = u32::MAX), [13, 13]);
    assert_eq!(both(|l| l.lengths[1] = 65_536), [13, 13]);
    assert_eq!(both(|l| l.mu[3] = 1 << 32), [13, 13]);
    assert_eq!(both(|l| l.nu[0] = u64::MAX), [13, 13]);
    assert_eq!(both(|l| l.root = 256), [13, 0]);
    assert_eq!(both(|l| l.root = 1 << 32), [13, 0]);
    assert_eq!(both(|l| l.parents[3] = 256), [13, 0]);
}

#[test]
fn order_of_checks() {
    assert_eq!(changed(true, 0, |l| (l.n, l.a[0]) = (65, 256)), 1);
    assert_eq!(changed(true, 84, |l| l.a[0] = 256), 2);
    assert_eq!(changed(true, 85, |l| l.a[0] = 256), 13);
    assert_eq!(both(|l| (l.a[0], l.mu) = (256, vec![1 << 32])), [2, 2]);
    assert_eq!(both(|l| (l.a[0], l.parents) = (256, vec![256])), [2, 13]);
}

/// What no other call accepts is written as it is.
#[test]
fn nothing_else_is_examined() {
    let odd = |l: &mut Lists| {
        (l.a, l.b) = (vec![200, 3, 3], vec![100, 3, 3]);
        l.lengths[0] = 0;
        (l.mu, l.nu) = (vec![u32::MAX.into(); 4], vec![0; 4]);
        (l.root, l.parents) = (99, vec![255; 4]);
    };
    assert_eq!(both(odd), [0, 0]);
}

/// A written image is the plain builder's, and it is read as what was written.
#[test]
fn as_the_builder_has_it() {
    let random = &mut Random::new(18);
    for _ in 0..500 {
        let mut problem = sound_problem(random);
        let lists = Lists::of(&problem);
        assert_eq!(write(&lists, true, MANY), Ok(problem.image()));
        problem.tree = None;
        let image = write(&lists, false, MANY).expect("small numbers");
        assert_eq!(image, problem.image());
        assert_eq!(checks::read(&image, |_, _| true), Ok(problem));
    }
}

/// Case A with a gap of 1, 2, 3 and 4 bytes before its sections, and a tail of 5.
fn case_a_apart() -> Vec<u8> {
    let mut image = CASE_A[..36].to_vec();
    for (pair, start) in [37, 51, 70, 90].into_iter().enumerate() {
        image[4 + 8 * pair] = start;
    }
    for (gap, section) in [36..48, 48..64, 64..80, 80..85].into_iter().enumerate() {
        image.extend(vec![99; gap + 1]);
        image.extend(&CASE_A[section]);
    }
    image.extend([99; 5]);
    image
}

#[test]
fn written_anew_by_hand() {
    for image in [CASE_A.to_vec(), case_a_apart()] {
        assert_eq!(rewrite(&image, 85), Ok(CASE_A.to_vec()));
        assert_eq!(rewrite(&image, 84), Err(2));
    }
    let without = case_a_without_tree();
    let mut long = without.clone();
    long.resize(65_536, 5);
    // The empty section may stand anywhere behind the others.
    long[28..32].copy_from_slice(&65_536u32.to_le_bytes());
    assert_eq!(rewrite(&long, 80), Ok(without));
    assert_eq!(rewrite(&long, 79), Err(2));
    long.push(5);
    assert_eq!(rewrite(&long, 80), Err(11));
}

/// 11, 12, 13, 1 and 2, and a short buffer after all of them.
#[test]
fn anew_every_number() {
    let refused = |change: fn(&mut Vec<u8>)| {
        let mut image = CASE_A.to_vec();
        change(&mut image);
        [0, MANY].map(|buffer| rewrite(&image, buffer).err().unwrap_or(0))
    };
    assert_eq!(refused(|_| ()), [2, 0]);
    assert_eq!(refused(|image| image.truncate(35)), [11, 11]);
    assert_eq!(refused(|image| image.truncate(84)), [12, 12]);
    assert_eq!(refused(|image| image[4] = 35), [12, 12]);
    assert_eq!(refused(|image| image[1] = 1), [13, 13]);
    assert_eq!(refused(|image| image[2] = 2), [13, 13]);
    let zero = Problem::new(0, &[], &[], &[]).image();
    assert_eq!([0, MANY].map(|buffer| rewrite(&zero, buffer)), [Err(1), Err(1)]);
    let crowded = Problem::new(1, &[(0, 0, 0); 513], &[0], &[0]).image();
    assert_eq!(
        [0, MANY].map(|buffer| rewrite(&crowded, buffer)),
        [Err(2), Err(2)]
    );
}

/// What is written anew reads as before, is not longer, and stays when it is written anew.
#[test]
fn anew_keeps_its_laws() {
    let random = &mut Random::new(19);
    let (mut accepted, mut shorter) = (0, 0);
    for k in 0..3_000 {
        let case = match k % 3 {
            0 => random::valid_case(random),
            1 => random::damaged_case(random),
            _ => random::faulty_case(random, &[FAULTS[k / 3 % FAULTS.len()]]),
        };
        let (read, written) = (checks::read(&case.image, |_, _| true), rewrite(&case.image, MANY));
        assert_eq!(written.as_ref().err(), read.as_ref().err());
        let (Ok(problem), Ok(written)) = (read, written) else {
            continue;
        };
        assert_eq!(written, problem.image());
        assert_eq!(rewrite(&written, written.len()), Ok(written.clone()));
        assert!(written.len() <= case.image.len());
        accepted += 1;
        shorter += u64::from(written.len() < case.image.len());
    }
    assert!(accepted > 1_000 && shorter > 300, "{accepted}, {shorter}");
}

/// Each fault gives its own number, with a tree and without, and what is drawn without faults none.
#[test]
fn every_fault_has_its_number() {
    let random = &mut Random::new(20);
    let mut seen = [0; 14];
    for k in 0..5_000 {
        let fault = UNWRITABLE[k % UNWRITABLE.len()];
        let given = refused(random, &[fault]);
        let number = write(&given.lists, given.tree, given.buffer).err();
        assert_eq!(number, fault.number(given.tree), "{fault:?}: {given:?}");
        seen[number.unwrap_or(0) as usize] += 1;
        let given = accepted(random);
        assert!(write(&given.lists, given.tree, given.buffer).is_ok(), "{given:?}");
    }
    let own = |number: usize| [0, 1, 2, 13].contains(&number);
    assert!((0..14).all(|k| (seen[k] > 100) == own(k)), "{seen:?}");
}

/// A spread image has so many bytes more, anywhere between its sections, and holds what it held.
#[test]
fn spread_images() {
    let random = &mut Random::new(21);
    let mut gaps = [0; 5];
    for spare in (0..50).chain([1_000, 60_000]).cycle().take(1_000) {
        let given = holdable(random);
        let image = write(&given.lists, given.tree, given.buffer).expect("holdable");
        let apart = spread(random, &image, spare);
        assert_eq!(apart.len(), image.len() + spare);
        assert_eq!(
            checks::read(&apart, |_, _| true),
            checks::read(&image, |_, _| true)
        );
        assert_eq!(rewrite(&apart, image.len()), Ok(image));
        let field = |at: usize| u32::from_le_bytes([0, 1, 2, 3].map(|k| apart[at + k])) as usize;
        let ends = [36]
            .into_iter()
            .chain([4, 12, 20, 28].map(|at| field(at) + field(at + 4)));
        let starts = [4, 12, 20, 28].map(field).into_iter().chain([apart.len()]);
        for (gap, (start, end)) in gaps.iter_mut().zip(starts.zip(ends)) {
            *gap += usize::from(start > end);
        }
    }
    assert!(gaps.iter().all(|&times| times > 100), "{gaps:?}");
}
