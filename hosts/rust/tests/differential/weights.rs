//! Weights turned into amounts and back: single ones of any bits, every amount, and lists of any length.

use crate::lent::{same, Draw, Lent};
use crate::{ensure, pass};
use reference::checks::MAX_TOTAL;
use reference::random::Random;
use reference::runs::{cases, seed};
use reference::weights::{amount, amounts, weight, weights};
use std::fmt::Debug;
use std::thread;
use weight_mover::calls::{mover_to_amounts, mover_to_weights};

/// A call that turns one list into another, or one made wrong on purpose.
pub type Turn<'a, T, U> = &'a dyn Fn(&[T], &mut [U]) -> u32;

/// What the reference says of a list and an answer list of so many places.
type Expected<T, U> = fn(&[T], usize) -> Result<Vec<U>, u32>;

const NEGATIVE_ZERO: u32 = 1 << 31;

/// Where something changes: both zeros, half a grain, a grain, 1, and both infinities.
const MARKED: [u32; 7] = [
    0,
    NEGATIVE_ZERO,
    0x3300_0000,
    0x3380_0000,
    0x3f80_0000,
    0x7f80_0000,
    0xff80_0000,
];

/// Amounts above the greatest; some would be sound if they were cut to fewer bits.
const ABOVE: [u64; 7] = [
    MAX_TOTAL + 1,
    2 * MAX_TOTAL,
    u32::MAX as u64,
    1 << 32,
    1 << 32 | MAX_TOTAL,
    1 << 63,
    u64::MAX,
];

/// Turns a list; its number, and what the answer list begins with.
fn try_list<T: Draw + Debug, U: Draw + Debug>(
    turn: Turn<T, U>,
    expected: Expected<T, U>,
    random: &mut Random,
    list: &[T],
    places: usize,
) -> Result<(u32, Vec<U>), String> {
    let exact = random.chance(2);
    let given = Lent::new(random, list, exact);
    let mut answer = Lent::filled(random, places, exact);
    let number = turn(given.content(), answer.content_mut());
    let expected = expected(list, places);
    let right = match &expected {
        Ok(all) => {
            let filled = &answer.content()[..all.len()];
            number == 0 && same(filled, all) && answer.rest_is_as_lent(all.len())
        }
        Err(refusal) => number == *refusal && answer.is_as_lent(),
    };
    ensure(right, || {
        let got = answer.content();
        format!("{list:?}: expected {expected:?}, but got {number} and {got:?}")
    })?;
    ensure(given.is_as_lent() && answer.guards_are_whole(), || {
        format!("{list:?}: the list or places round the answer were changed")
    })?;
    let filled = list.len().min(places);
    Ok((number, answer.content()[..filled].to_vec()))
}

pub fn try_in(
    turn: Turn<f32, u64>,
    random: &mut Random,
    list: &[f32],
    places: usize,
) -> Result<(u32, Vec<u64>), String> {
    try_list(turn, amounts, random, list, places)
}

pub fn try_out(
    turn: Turn<u64, f32>,
    random: &mut Random,
    list: &[u64],
    places: usize,
) -> Result<(u32, Vec<f32>), String> {
    try_list(turn, weights, random, list, places)
}

/// A weight by its bits, alone and between places that must stay; if it is accepted, out again.
pub fn try_single(turn: Turn<f32, u64>, bits: u32) -> Result<u32, String> {
    const MARK: u64 = 0xA5A5_5A5A_0123_4567;
    let mut places = [MARK; 3];
    let number = turn(&[f32::from_bits(bits)], &mut places[1..2]);
    let expected = amount(bits);
    let right = match expected {
        Ok(amount) => number == 0 && places == [MARK, amount, MARK],
        Err(refusal) => number == refusal && places == [MARK; 3],
    };
    ensure(right, || {
        format!("weight {bits:08x}: expected {expected:?}, but got {number} and {places:x?}")
    })?;
    if number == 0 {
        let mut again = [2.0; 3];
        let back = mover_to_weights(&places[1..2], &mut again[1..2]);
        let positive = if bits == NEGATIVE_ZERO { 0 } else { bits };
        let expected = [2.0, f32::from_bits(positive), 2.0];
        ensure(back == 0 && same(&again, &expected), || {
            format!("weight {bits:08x}: out again {back} and {again:?}")
        })?;
    }
    Ok(number)
}

/// How often each number came up.
type Numbers = [u64; 17];

/// Whether these numbers came up, and no others.
fn came_up(numbers: &Numbers, own: &[usize]) -> bool {
    (0..17).all(|k| (numbers[k] > 0) == own.contains(&k))
}

/// The bits of a weight: some that are sound, and many that are not but might be taken for it.
fn any_bits(random: &mut Random) -> u32 {
    match random.below(4) {
        0 => {
            let steps = random.below(7) as u32;
            random.pick(&MARKED).wrapping_add(steps).wrapping_sub(3)
        }
        1 => sound_bits(random) ^ 1 << random.below(32),
        2 => {
            let (field, zeros) = (random.between(96, 128) as u32, random.below(24));
            field << 23 | (random.word() as u32 & 0x7f_ffff) >> zeros << zeros
        }
        _ => random.word() as u32,
    }
}

fn sound_bits(random: &mut Random) -> u32 {
    match random.below(6) {
        0 => NEGATIVE_ZERO,
        _ => weight(sound_amount(random)).expect("at most 16,777,216"),
    }
}

fn sound_amount(random: &mut Random) -> u64 {
    match random.below(4) {
        0 => random.pick(&[0, 1, 2, 3, MAX_TOTAL - 1, MAX_TOTAL]),
        1 => random.word() >> random.between(40, 63),
        2 => 1 << random.below(25),
        _ => random.below(MAX_TOTAL + 1),
    }
}

fn any_length(random: &mut Random) -> usize {
    let length = random.index(201);
    random.pick(&[0, 1, 2, 64, 65, length, length, length])
}

/// Places for an answer of this length: as many, more, or too few.
fn any_places(random: &mut Random, length: usize) -> usize {
    let fewer = random.index(length.max(1));
    random.pick(&[
        length,
        length,
        length,
        length + 1,
        length + 50,
        length.saturating_sub(1),
        fewer,
    ])
}

/// Weights, some with faults of 15, of 16 or of both in any order, and the places for their answer.
pub fn any_weights(random: &mut Random) -> (Vec<f32>, usize) {
    let length = any_length(random);
    let mut bits: Vec<u32> = (0..length).map(|_| sound_bits(random)).collect();
    let faults = random.pick(&[&[][..], &[], &[15], &[16], &[15, 16], &[16, 15, 16]]);
    for &fault in faults.iter().filter(|_| length > 0) {
        bits[random.index(length)] = loop {
            let bits = any_bits(random);
            if amount(bits) == Err(fault) {
                break bits;
            }
        };
    }
    let weights = bits.into_iter().map(f32::from_bits).collect();
    (weights, any_places(random, length))
}

/// Amounts, some above the greatest, and the places for their answer.
pub fn any_amounts(random: &mut Random) -> (Vec<u64>, usize) {
    let length = any_length(random);
    let mut amounts: Vec<u64> = (0..length).map(|_| sound_amount(random)).collect();
    if length > 0 && random.chance(2) {
        let above = [random.pick(&ABOVE), random.word().max(MAX_TOTAL + 1)];
        amounts[random.index(length)] = random.pick(&above);
    }
    (amounts, any_places(random, length))
}

/// Bits without any choice, and others nearer to weights.
#[test]
fn single_weights() {
    let (seed, count) = (seed(), cases(1_000_000));
    let random = &mut Random::new(seed);
    let mut numbers = Numbers::default();
    for _ in 0..count {
        for bits in [random.word() as u32, any_bits(random)] {
            numbers[pass(try_single(&mover_to_amounts, bits)) as usize] += 1;
        }
    }
    println!("single weights: seed {seed}, numbers {numbers:?}");
    assert!(count < 1_000 || came_up(&numbers, &[0, 15, 16]), "{numbers:?}");
}

/// The bits of every power of two with both signs and of their neighbours; the same of amounts near to them.
pub fn near_powers_of_two() -> impl Iterator<Item = u32> {
    let fields = (0..256).map(|field| field << 23);
    let without_leading_bit = (0..23).map(|bit| 1 << bit);
    let near = |power: u64| power.saturating_sub(3)..=(power + 3).min(MAX_TOTAL);
    let of_amounts = (0..25).flat_map(move |k| near(1 << k));
    let of_amounts = of_amounts.map(|amount| weight(amount).expect("at most 16,777,216"));
    let all = fields.chain(without_leading_bit).chain(of_amounts);
    let signed = all.flat_map(|bits| [bits, bits | NEGATIVE_ZERO]);
    signed.flat_map(|bits| (0..7).map(move |steps| bits.wrapping_add(steps).wrapping_sub(3)))
}

#[test]
fn neighbours_of_powers_of_two() {
    let mut numbers = Numbers::default();
    for bits in near_powers_of_two() {
        numbers[pass(try_single(&mover_to_amounts, bits)) as usize] += 1;
    }
    println!("neighbours of powers of two: numbers {numbers:?}");
    assert!(came_up(&numbers, &[0, 15, 16]), "{numbers:?}");
}

/// All amounts there are, out and in again in long lists; with fewer cases, some of the lists.
#[test]
fn every_amount() {
    const LONG: u64 = 4_096;
    let all = MAX_TOTAL / LONG + 1;
    let (seed, count) = (seed(), cases(all).min(all));
    let random = &mut Random::new(seed);
    let mut turned = 0;
    for k in 0..count {
        let first = k * (all - 1) / (count - 1).max(1) * LONG;
        let given: Vec<u64> = (first..(first + LONG).min(MAX_TOTAL + 1)).collect();
        let (number, out) = pass(try_out(&mover_to_weights, random, &given, given.len()));
        assert_eq!(number, 0);
        let (number, again) = pass(try_in(&mover_to_amounts, random, &out, out.len()));
        assert_eq!((number, &again), (0, &given));
        turned += given.len();
    }
    println!("every amount: seed {seed}, {turned} amounts out and in again");
    assert!(count < all || turned as u64 == MAX_TOTAL + 1);
}

#[test]
fn amounts_above_the_greatest() {
    let random = &mut Random::new(seed());
    for above in ABOVE {
        for list in [
            vec![above],
            vec![0, 1, above],
            vec![above, MAX_TOTAL],
            vec![above; 70],
        ] {
            let places = list.len();
            let (number, _) = pass(try_out(&mover_to_weights, random, &list, places));
            assert_eq!(number, 15);
            let (number, _) = pass(try_out(&mover_to_weights, random, &list, places - 1));
            assert_eq!(number, 2);
        }
    }
}

/// The call's own numbers come up alone, 15 also where a weight before it has a fault of 16. What is accepted
/// comes out again bit for bit, but for the sign of 0.
#[test]
fn lists_of_weights() {
    let (seed, count) = (seed(), cases(20_000));
    let (mut numbers, mut after_16) = (Numbers::default(), 0);
    for index in 0..count {
        let random = &mut Random::for_case(seed, index);
        let (list, places) = any_weights(random);
        let result = try_in(&mover_to_amounts, random, &list, places);
        let (number, amounts) = pass(result.map_err(|c| format!("seed {seed}, case {index}: {c}")));
        numbers[number as usize] += 1;
        let mut faults = list.iter().filter_map(|w| amount(w.to_bits()).err());
        after_16 += u64::from(number == 15 && faults.next() == Some(16));
        if number == 0 {
            let (_, again) = pass(try_out(&mover_to_weights, random, &amounts, amounts.len()));
            let positive = |w: &f32| if *w == 0.0 { 0.0 } else { *w };
            let positive: Vec<f32> = list.iter().map(positive).collect();
            assert!(same(&again, &positive), "seed {seed}, case {index}: {list:?}");
        }
    }
    println!("lists of weights: seed {seed}, numbers {numbers:?}, 15 after 16 {after_16}");
    let every = came_up(&numbers, &[0, 2, 15, 16]);
    assert!(count < 200 || every && after_16 > 0, "{numbers:?}, {after_16}");
}

#[test]
fn lists_of_amounts() {
    let (seed, count) = (seed(), cases(20_000));
    let mut numbers = Numbers::default();
    for index in 0..count {
        let random = &mut Random::for_case(seed, index);
        let (list, places) = any_amounts(random);
        let result = try_out(&mover_to_weights, random, &list, places);
        let (number, out) = pass(result.map_err(|c| format!("seed {seed}, case {index}: {c}")));
        numbers[number as usize] += 1;
        if number == 0 {
            let (_, again) = pass(try_in(&mover_to_amounts, random, &out, out.len()));
            assert_eq!(again, list, "seed {seed}, case {index}");
        }
    }
    println!("lists of amounts: seed {seed}, numbers {numbers:?}");
    assert!(count < 200 || came_up(&numbers, &[0, 2, 15]), "{numbers:?}");
}

/// Each of the 2^32 floats, once.
#[test]
#[ignore = "every float there is, which takes half a minute in release"]
fn every_bit_pattern() {
    let threads = thread::available_parallelism().map_or(1, usize::from) as u64;
    let part = |k: u64| {
        let mut numbers = Numbers::default();
        for bits in (k << 32) / threads..((k + 1) << 32) / threads {
            numbers[pass(try_single(&mover_to_amounts, bits as u32)) as usize] += 1;
        }
        numbers
    };
    let mut numbers = Numbers::default();
    thread::scope(|scope| {
        let parts: Vec<_> = (0..threads).map(|k| scope.spawn(move || part(k))).collect();
        for part in parts {
            let part = part.join().expect("no complaint");
            numbers.iter_mut().zip(part).for_each(|(sum, n)| *sum += n);
        }
    });
    println!("every bit pattern: {threads} threads, numbers {numbers:?}");
    let positive = u64::from(1f32.to_bits()) + 1;
    assert_eq!(numbers[0], MAX_TOTAL + 2);
    assert_eq!(numbers[16], positive - (MAX_TOTAL + 1));
    assert_eq!(numbers[15], (1 << 32) - positive - 1);
    assert_eq!(numbers.iter().sum::<u64>(), 1 << 32);
}
