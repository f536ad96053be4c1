//! Calls on weights and amounts that are wrong on purpose: the tests of them can fail.

use crate::weights::{any_amounts, any_weights, near_powers_of_two, try_in, try_out, try_single, Turn};
use reference::checks::MAX_TOTAL;
use reference::random::Random;
use reference::weights::amount;
use weight_mover::calls::{mover_to_amounts, mover_to_weights};

/// A call of the library, and then something else: with what was given, the answer list as it was lent, the
/// number and the answer list as it is.
fn then<T, U: Copy>(
    call: fn(&[T], &mut [U]) -> u32,
    change: impl Fn(&[T], &[U], u32, &mut [U]) -> u32,
) -> impl Fn(&[T], &mut [U]) -> u32 {
    move |list, answer| {
        let before = answer.to_vec();
        let number = call(list, answer);
        change(list, &before, number, answer)
    }
}

/// The library with other weights.
fn with(other: impl Fn(f32) -> f32) -> impl Fn(&[f32], &mut [u64]) -> u32 {
    move |list, answer| {
        let others: Vec<f32> = list.iter().map(|&w| other(w)).collect();
        mover_to_amounts(&others, answer)
    }
}

/// The library with other amounts.
fn with_amounts(other: impl Fn(u64) -> u64) -> impl Fn(&[u64], &mut [f32]) -> u32 {
    move |list, answer| {
        let others: Vec<u64> = list.iter().map(|&a| other(a)).collect();
        mover_to_weights(&others, answer)
    }
}

/// The library, but an accepted answer is refused so if the list is of this kind.
fn refusing<T, U: Copy>(
    call: fn(&[T], &mut [U]) -> u32,
    refusal: u32,
    is_refused: impl Fn(&[T], &[U]) -> bool,
) -> impl Fn(&[T], &mut [U]) -> u32 {
    then(call, move |list, before, number, answer| {
        if number == 0 && is_refused(list, before) {
            answer.copy_from_slice(before);
            return refusal;
        }
        number
    })
}

/// What the reference says of a weight alone.
fn fault(weight: &f32) -> Option<u32> {
    amount(weight.to_bits()).err()
}

/// Tries a wrong call on many lists.
fn report<T, U>(name: &str, turn: Turn<T, U>, caught: impl Fn(Turn<T, U>, &mut Random) -> bool) {
    let wrong = |index: &u64| caught(turn, &mut Random::for_case(1, *index));
    let times = (0..1_000).filter(wrong).count();
    println!("wrong on purpose, weights, {name}: caught {times} times");
    assert!(times > 0, "\"{name}\" was never caught");
}

/// Calls that take some weights for others are caught, in lists and by single weights.
#[test]
fn wrong_weights_are_caught() {
    let whole = |w: f32, to: fn(f32) -> f32| match fault(&w) {
        Some(16) => to(w * 16_777_216.0) / 16_777_216.0,
        _ => w,
    };
    let wrong: [(&str, Turn<f32, u64>); 9] = [
        ("rounded to whole grains", &with(|w| whole(w, f32::round))),
        ("cut to whole grains", &with(|w| whole(w, f32::trunc))),
        (
            "smallest floats taken for 0",
            &with(|w| if w.is_subnormal() { 0.0 } else { w }),
        ),
        ("signs left out", &with(f32::abs)),
        ("at most 1", &with(|w| if w > 1.0 { 1.0 } else { w })),
        (
            "no number taken for 0",
            &with(|w| if w.is_nan() { 0.0 } else { w }),
        ),
        (
            "a last bit above 1 is let pass",
            &with(|w| if w.to_bits() == 0x3f80_0001 { 1.0 } else { w }),
        ),
        (
            "half a grain is let pass",
            &with(|w| if w.to_bits() == 0x3300_0000 { 0.0 } else { w }),
        ),
        ("the last is not looked at", &|list, answer| {
            let mut others = list.to_vec();
            let last = others.last_mut().filter(|w| fault(w).is_some());
            last.into_iter().for_each(|w| *w = 0.0);
            mover_to_amounts(&others, answer)
        }),
    ];
    for (name, turn) in wrong {
        report(name, turn, weights_are_caught);
        let alone = near_powers_of_two().any(|bits| try_single(turn, bits).is_err());
        assert!(alone, "\"{name}\" was not caught by single weights");
    }
}

/// Calls with other numbers or other answers are caught.
#[test]
fn wrong_answers_to_weights_are_caught() {
    let call = mover_to_amounts;
    let wrong: [(&str, Turn<f32, u64>); 7] = [
        (
            "negative zero is refused",
            &refusing(call, 15, |list, _| list.iter().any(|w| w.to_bits() == 1 << 31)),
        ),
        ("1 is refused", &refusing(call, 15, |list, _| list.contains(&1.0))),
        (
            "the number of the first fault",
            &then(call, |list, _, number, _| match number {
                15 => list.iter().find_map(fault).unwrap_or(15),
                _ => number,
            }),
        ),
        (
            "16 before 15",
            &then(call, |list, _, number, _| {
                let grains = list.iter().any(|w| fault(w) == Some(16));
                number + u32::from(number == 15 && grains)
            }),
        ),
        (
            "15 before 2",
            &then(call, |list, _, number, _| {
                match list.iter().any(|w| fault(w) == Some(15)) {
                    true => number.max(15),
                    false => number,
                }
            }),
        ),
        (
            "filled up to the fault",
            &then(call, |list, _, number, answer| {
                let sound = list.iter().map_while(|w| amount(w.to_bits()).ok());
                let places = answer.iter_mut().filter(|_| number > 2);
                places.zip(sound).for_each(|(place, amount)| *place = amount);
                number
            }),
        ),
        (
            "one grain less than 2^24",
            &then(call, |list, _, number, answer| {
                let filled = list.len() * usize::from(number == 0);
                answer[..filled].iter_mut().for_each(|a| *a -= *a >> 24);
                number
            }),
        ),
    ];
    for (name, turn) in wrong {
        report(name, turn, weights_are_caught);
    }
    wrong_lists(call, weights_are_caught);
}

fn weights_are_caught(turn: Turn<f32, u64>, random: &mut Random) -> bool {
    let (list, places) = any_weights(random);
    try_in(turn, random, &list, places).is_err()
}

/// The same of the way back.
#[test]
fn wrong_answers_to_amounts_are_caught() {
    let call = mover_to_weights;
    let filled = |change: fn(u64) -> f32| {
        then(call, move |list: &[u64], _, number, answer| {
            let places = answer.iter_mut().filter(|_| number == 0);
            places.zip(list).for_each(|(place, &a)| *place = change(a));
            number
        })
    };
    let wrong: [(&str, Turn<u64, f32>); 9] = [
        ("cut to 32 bits", &with_amounts(|a| a & 0xffff_ffff)),
        ("at most 16,777,216", &with_amounts(|a| a.min(MAX_TOTAL))),
        (
            "16,777,216 is refused",
            &refusing(call, 15, |list, _| list.contains(&MAX_TOTAL)),
        ),
        ("grains as they are", &filled(|a| a as f32)),
        ("16,777,215 to the whole", &filled(|a| a as f32 / 16_777_215.0)),
        ("23 bits of a grain", &filled(|a| (a & !1) as f32 / 16_777_216.0)),
        (
            "negative zero",
            &filled(|a| if a == 0 { -0.0 } else { a as f32 / 16_777_216.0 }),
        ),
        (
            "16 for 15",
            &then(call, |_, _, number, _| if number == 15 { 16 } else { number }),
        ),
        (
            "15 before 2",
            &then(call, |list, _, number, _| {
                let above = list.iter().any(|&a| a > MAX_TOTAL);
                if number == 2 && above {
                    15
                } else {
                    number
                }
            }),
        ),
    ];
    for (name, turn) in wrong {
        report(name, turn, amounts_are_caught);
    }
    wrong_lists(call, amounts_are_caught);
}

fn amounts_are_caught(turn: Turn<u64, f32>, random: &mut Random) -> bool {
    let (list, places) = any_amounts(random);
    try_out(turn, random, &list, places).is_err()
}

/// What can go wrong with lists, whatever is in them.
fn wrong_lists<T, U: Copy + Default>(
    call: fn(&[T], &mut [U]) -> u32,
    caught: fn(Turn<T, U>, &mut Random) -> bool,
) {
    let wrong: [(&str, Turn<T, U>); 9] = [
        ("accepts everything", &then(call, |_, _, _, _| 0)),
        ("2 for everybody", &|_, _| 2),
        (
            "an empty list is refused",
            &refusing(call, 1, |list, _| list.is_empty()),
        ),
        (
            "more than 64 are refused",
            &refusing(call, 1, |list, _| list.len() > 64),
        ),
        (
            "a longer answer list is refused",
            &refusing(call, 2, |list, before| list.len() < before.len()),
        ),
        ("a shorter answer list is filled", &|list, answer| {
            let shorter = list.len().min(answer.len());
            call(&list[..shorter], answer)
        }),
        (
            "the rest is cleared",
            &then(call, |list, _, number, answer| {
                let rest = answer.iter_mut().skip(list.len()).filter(|_| number == 0);
                rest.for_each(|place| *place = U::default());
                number
            }),
        ),
        (
            "a refused list is cleared",
            &then(call, |_, _, number, answer| {
                let places = answer.iter_mut().filter(|_| number > 0);
                places.for_each(|place| *place = U::default());
                number
            }),
        ),
        (
            "turned round",
            &then(call, |list, _, number, answer| {
                if number == 0 {
                    answer[..list.len()].reverse();
                }
                number
            }),
        ),
    ];
    for (name, turn) in wrong {
        report(name, turn, caught);
    }
}
