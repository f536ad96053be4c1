//! Reports on image sequences: on bytes that were written by hand, and by the definitions.

use reference::random::Random;
use reference::report::{answer, images, report, report_by, summary, Answer, Report, NUMBERS};
use reference::sequences::{
    misplace, of_size, one_of_each, pair, pool, set_pair, some_of, transport, Sequence, MISPLACED,
};
use reference::Problem;

/// One vertex that keeps its 3 grains: cost 0.
#[rustfmt::skip]
const STAYS: [u8; 44] = [
    1, 0, 0, 0,
    36, 0, 0, 0, 0, 0, 0, 0,
    36, 0, 0, 0, 4, 0, 0, 0,
    40, 0, 0, 0, 4, 0, 0, 0,
    44, 0, 0, 0, 0, 0, 0, 0,
    3, 0, 0, 0,
    3, 0, 0, 0,
];

/// Three images of 44, 0 and 44 bytes, the second time with another total, after gaps of 1, 0 and 2 bytes; and a tail
/// of 3.
fn by_hand() -> Vec<u8> {
    #[rustfmt::skip]
    let directory = [
        3, 0,
        27, 0, 0, 0, 44, 0, 0, 0,
        71, 0, 0, 0, 0, 0, 0, 0,
        73, 0, 0, 0, 44, 0, 0, 0,
    ];
    let mut other = STAYS;
    other[40] = 4;
    [&directory[..], &[9], &STAYS, &[9; 2], &other, &[9; 3]].concat()
}

fn tally(places: &[(usize, u32)]) -> [u32; NUMBERS] {
    let mut tally = [0; NUMBERS];
    places.iter().for_each(|&(k, images)| tally[k] = images);
    tally
}

#[test]
fn bytes_by_hand() {
    let reel = by_hand();
    let other = &reel[73..117];
    assert_eq!(images(&reel), Ok(vec![&STAYS[..], &[], other]));
    let expected = Report {
        tally: tally(&[(0, 1), (7, 1), (11, 1)]),
        accepted: 1,
        sum: 0,
        greatest: 0,
        first: 0,
    };
    assert_eq!(report(&reel, NUMBERS), Ok(expected.clone()));
    assert_eq!(report(&reel, 1_000), Ok(expected));
    let mut sequence = Sequence::of([&STAYS[..], &[], other]);
    for (index, gap) in [1, 0, 2].into_iter().enumerate() {
        sequence.images[index].0 = vec![9; gap];
    }
    sequence.tail = vec![9; 3];
    assert_eq!(sequence.reel(), reel);
    assert_eq!([0, 1, 2].map(|k| pair(&reel, k)), [(27, 44), (71, 0), (73, 44)]);
}

/// The number for the reel above with another pair, and a tally of so many places.
fn with_pair(index: usize, pair: (u32, u32), places: usize) -> u32 {
    let mut reel = by_hand();
    set_pair(&mut reel, index, pair);
    report(&reel, places).err().unwrap_or(0)
}

/// Both sides of every bound of the directory. It ends at 26, the images at 71, 71 and 117, the reel at 120.
#[test]
fn directory_by_hand() {
    let number = |index: usize, pair: (u32, u32)| with_pair(index, pair, NUMBERS);
    for (start, length) in [(26, 0), (26, 45), (27, 0), (71, 0)] {
        assert_eq!(number(0, (start, length)), 0, "{start}, {length}");
    }
    for (start, length) in [(25, 0), (25, 1), (25, 46), (0, 0), (27, 45), (72, 0), (71, 1)] {
        assert_eq!(number(0, (start, length)), 14, "{start}, {length}");
    }
    for (start, length) in [(71, 0), (71, 2), (72, 1), (73, 0)] {
        assert_eq!(number(1, (start, length)), 0, "{start}, {length}");
    }
    for (start, length) in [(70, 0), (70, 3), (26, 0), (0, 0), (71, 3), (74, 0)] {
        assert_eq!(number(1, (start, length)), 14, "{start}, {length}");
    }
    for (start, length) in [(71, 49), (73, 47), (119, 1), (120, 0)] {
        assert_eq!(number(2, (start, length)), 0, "{start}, {length}");
    }
    for (start, length) in [(70, 47), (71, 50), (73, 48), (119, 2), (120, 1), (121, 0)] {
        assert_eq!(number(2, (start, length)), 14, "{start}, {length}");
    }
    // Ends of 2^32 and more, which would be in order if they were cut to 32 bits.
    for start in [73, 120, 1 << 31, u32::MAX] {
        for end in [0, 73, 117, 120u32] {
            let number = number(2, (start, end.wrapping_sub(start)));
            assert_eq!(number, if start > end { 14 } else { 0 }, "{start}, {end}");
        }
    }
}

/// 14 comes before 2, and the tally's places are looked at before any image.
#[test]
fn order_of_checks() {
    for places in [0, 23, 24, 25] {
        assert_eq!(with_pair(0, (25, 0), places), 14);
        assert_eq!(with_pair(0, (27, 44), places), if places < 24 { 2 } else { 0 });
        assert_eq!(
            report(&[0, 0], places).err().unwrap_or(0),
            if places < 24 { 2 } else { 0 }
        );
    }
    let reel = by_hand();
    let none = &mut |_: &[u8]| panic!("an image was looked at");
    assert_eq!(report_by(none, &reel, 23), Err(2));
    assert_eq!(report_by(none, &reel[..119], 23), Err(2));
    assert_eq!(report_by(none, &reel[..116], 23), Err(14));
}

/// A reel that is cut short is refused until all images are there: 117 bytes, with no part of the tail.
#[test]
fn every_length() {
    let reel = by_hand();
    for length in 0..=reel.len() {
        let number = report(&reel[..length], NUMBERS).err().unwrap_or(0);
        assert_eq!(number, if length < 117 { 14 } else { 0 }, "{length}");
    }
    // The count alone, and a directory alone.
    assert_eq!(report(&[], NUMBERS), Err(14));
    assert_eq!(report(&[0], NUMBERS), Err(14));
    assert_eq!(report(&[0, 0], NUMBERS), Ok(summary(&[])));
    assert_eq!(report(&[1, 0, 10, 0, 0, 0, 0, 0, 0], NUMBERS), Err(14));
    assert_eq!(
        report(&[1, 0, 10, 0, 0, 0, 0, 0, 0, 0], NUMBERS),
        Ok(summary(&[Err(11)]))
    );
    // 256 images, and not 1 or 0.
    assert_eq!(report(&[0, 1], NUMBERS), Err(14));
}

#[test]
fn marked_answers() {
    let told = |answers: &[Answer]| {
        let Report {
            accepted,
            sum,
            greatest,
            first,
            ..
        } = summary(answers);
        (accepted, sum, greatest, first)
    };
    assert_eq!(told(&[]), (0, 0, 0, 0));
    assert_eq!(told(&[Err(11), Err(3), Err(11)]), (0, 0, 0, 3));
    assert_eq!(told(&[Ok(5), Ok(9), Ok(3)]), (3, 17, 9, 1));
    assert_eq!(told(&[Ok(5), Ok(9), Ok(9), Ok(5), Ok(9)]), (5, 37, 9, 1));
    assert_eq!(told(&[Err(7), Err(7), Ok(5), Err(7), Ok(5)]), (2, 10, 5, 2));
    assert_eq!(told(&[Err(7), Ok(0), Err(7), Ok(0)]), (2, 0, 0, 1));
    assert_eq!(told(&[Ok(0), Ok(1)]), (2, 1, 1, 1));
    let greatest = 63 * 65_535 * 16_777_216;
    let sum = 65_535 * greatest;
    assert_eq!(told(&[Ok(greatest); 65_535]), (65_535, sum, greatest, 0));
    assert_eq!(
        told(&[Ok(1 << 32), Ok(u64::from(u32::MAX))]),
        (2, (1 << 33) - 1, 1 << 32, 0)
    );
    let all: Vec<Answer> = (1..24).map(Err).chain([Ok(1), Ok(2), Err(23)]).collect();
    let mut ones = [1; NUMBERS];
    (ones[0], ones[23]) = (2, 2);
    assert_eq!(summary(&all).tally, ones);
}

/// Each number has its image; a tree counts with its own cost, 3 times 5, and not with the best, 3 times 2.
#[test]
fn images_of_every_number() {
    let each = one_of_each();
    let answers: Vec<Answer> = each.iter().map(|(_, image)| answer(image)).collect();
    let numbers: Vec<u32> = answers.iter().map(|a| a.err().unwrap_or(0)).collect();
    assert_eq!(numbers, [0, 0, 1, 2, 3, 5, 6, 7, 8, 9, 10, 11, 12, 13]);
    assert_eq!(each.iter().map(|(k, _)| *k).collect::<Vec<u32>>(), numbers);
    assert_eq!(answers[..2], [Ok(6), Ok(15)]);
    let reel = Sequence::of(each.iter().map(|(_, image)| image)).reel();
    let expected = Report {
        tally: std::array::from_fn(|k| match k {
            0 => 2,
            4 | 14.. => 0,
            _ => 1,
        }),
        accepted: 2,
        sum: 21,
        greatest: 15,
        first: 1,
    };
    assert_eq!(report(&reel, NUMBERS), Ok(expected));

    assert_eq!(answer(&transport(9, 9).image()), Ok(81));
    let sizes = [59, 60, 65_536, 65_537].map(|size| (of_size(size).len(), answer(&of_size(size))));
    assert_eq!(
        sizes,
        [(59, Ok(81)), (60, Ok(81)), (65_536, Ok(81)), (65_537, Err(11))]
    );
    // 512 edges are not too many, and the record of 64 vertices has room.
    let pairs = (0..64).flat_map(|a| (a + 1..64).map(move |b| (a, b, 1)));
    let edges: Vec<_> = pairs.take(512).collect();
    let full = Problem::new(64, &edges, &[1; 64], &[1; 64]);
    assert_eq!(answer(&full.image()), Ok(0));
}

/// What is put together is found again, and the report on it keeps to the definitions, place by place.
#[test]
fn by_the_definitions() {
    let random = &mut Random::new(41);
    let pool = pool(random, 300);
    let (mut spread, mut tied, mut none) = (0, 0, 0);
    for _ in 0..300 {
        let sequence = some_of(random, &pool, 12);
        let reel = sequence.reel();
        let parts: Vec<&[u8]> = sequence.images.iter().map(|(_, image)| &image[..]).collect();
        assert_eq!(images(&reel).as_ref(), Ok(&parts));
        let has_gaps = sequence.images.iter().any(|(gap, _)| !gap.is_empty());
        spread += usize::from(has_gaps || !sequence.tail.is_empty());

        let answers: Vec<Answer> = parts.iter().map(|image| answer(image)).collect();
        let told = report(&reel, NUMBERS).expect("in order");
        for k in 0..NUMBERS as u32 {
            let such = answers.iter().filter(|&&a| a.err().unwrap_or(0) == k);
            assert_eq!(told.tally[k as usize] as usize, such.count());
        }
        assert_eq!(told.accepted, told.tally[0]);
        assert_eq!(told.sum, answers.iter().map(|a| a.unwrap_or(0)).sum::<u64>());
        match told.accepted {
            0 => assert_eq!((told.greatest, told.first), (0, answers.len())),
            _ => {
                assert_eq!(answers[told.first], Ok(told.greatest));
                assert!(answers.iter().flatten().all(|&cost| cost <= told.greatest));
                assert!(!answers[..told.first].contains(&Ok(told.greatest)));
            }
        }
        let with_greatest = answers.iter().filter(|&&a| a == Ok(told.greatest));
        tied += usize::from(with_greatest.count() > 1);
        none += usize::from(told.accepted == 0);
    }
    assert!(spread > 100 && tied > 20 && none > 20, "{spread}, {tied}, {none}");
}

/// Each fault gives 14, whatever the tally's places, where there are the images for it.
#[test]
fn misplaced_images() {
    let random = &mut Random::new(42);
    let pool: Vec<Vec<u8>> = [0, 0, 1, 36, 44].map(|size| vec![7; size]).to_vec();
    for fault in MISPLACED {
        let mut faulty = 0;
        for _ in 0..500 {
            let mut reel = some_of(random, &pool, 6).reel();
            let before = reel.clone();
            if misplace(random, &mut reel, fault) {
                let places = random.pick(&[0, 23, 24]);
                assert_eq!(report(&reel, places), Err(14), "{fault:?}: {reel:?}");
                faulty += 1;
            } else {
                assert_eq!(reel, before);
            }
        }
        assert!(faulty > 200, "{fault:?}: {faulty}");
    }
}
