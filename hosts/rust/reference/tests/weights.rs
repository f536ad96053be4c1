//! Weights and their amounts on marked values, and against 64-bit floats, which are exact here.

use reference::weights::{amount, amounts, weight, weights};

const ONE: u64 = 16_777_216;

/// Each with its bits as the float has them, and what it is.
#[test]
fn marked_weights() {
    let marked: [(f32, u32, Result<u64, u32>); 24] = [
        (0.0, 0, Ok(0)),
        (-0.0, 0x8000_0000, Ok(0)),
        (1.0, 0x3f80_0000, Ok(ONE)),
        (0.75, 0x3f40_0000, Ok(12_582_912)),
        (0.5, 0x3f00_0000, Ok(8_388_608)),
        // The neighbours of 1: 2^-24 below it and 2^-23 above it.
        (0.99999994, 0x3f7f_ffff, Ok(ONE - 1)),
        (1.0000001, 0x3f80_0001, Err(15)),
        (2.0, 0x4000_0000, Err(15)),
        (-1.0, 0xbf80_0000, Err(15)),
        // 2^-24, its neighbours, and 2^-25.
        (5.9604645e-8, 0x3380_0000, Ok(1)),
        (5.960465e-8, 0x3380_0001, Err(16)),
        (5.960464e-8, 0x337f_ffff, Err(16)),
        (-5.9604645e-8, 0xb380_0000, Err(15)),
        (2.9802322e-8, 0x3300_0000, Err(16)),
        // One grain and a half, and half a grain below 1/2.
        (8.940697e-8, 0x33c0_0000, Err(16)),
        (0.49999997, 0x3eff_ffff, Err(16)),
        (0.1, 0x3dcc_cccd, Err(16)),
        // The smallest floats, and the greatest of those without a leading bit.
        (1e-45, 1, Err(16)),
        (-1e-45, 0x8000_0001, Err(15)),
        (1.1754942e-38, 0x007f_ffff, Err(16)),
        (f32::MIN_POSITIVE, 0x0080_0000, Err(16)),
        (f32::MAX, 0x7f7f_ffff, Err(15)),
        (f32::INFINITY, 0x7f80_0000, Err(15)),
        (f32::NEG_INFINITY, 0xff80_0000, Err(15)),
    ];
    for (float, bits, expected) in marked {
        assert_eq!(float.to_bits(), bits, "{float}");
        assert_eq!(amount(bits), expected, "{float}");
    }
    for no_number in [
        0x7f80_0001,
        0x7fbf_ffff,
        0x7fc0_0000,
        0x7fff_ffff,
        0xff80_0001,
        0xffff_ffff,
    ] {
        assert!(f32::from_bits(no_number).is_nan());
        assert_eq!(amount(no_number), Err(15));
    }
}

#[test]
fn marked_amounts() {
    let marked: [(u64, f32); 8] = [
        (0, 0.0),
        (1, 5.9604645e-8),
        (2, 1.1920929e-7),
        (3, 1.7881393e-7),
        (12_582_912, 0.75),
        (ONE - 1, 0.99999994),
        (ONE / 2 + 1, 0.50000006),
        (ONE, 1.0),
    ];
    for (amount, float) in marked {
        assert_eq!(weight(amount), Ok(float.to_bits()), "{amount}");
    }
    for above in [ONE + 1, 1 << 32, 1 << 32 | 1, u64::MAX] {
        assert_eq!(weight(above), Err(15), "{above}");
    }
}

/// A 32-bit float and its product with 2^24 have room in 64 bits.
#[test]
fn amounts_by_64_bit_floats() {
    for bits in (0..1 << 32).step_by(1_013).map(|bits: u64| bits as u32) {
        let float = f64::from(f32::from_bits(bits));
        let grains = float * 16_777_216.0;
        let expected = match float {
            0.0..=1.0 if grains.fract() == 0.0 => Ok(grains as u64),
            0.0..=1.0 => Err(16),
            _ => Err(15),
        };
        assert_eq!(amount(bits), expected, "{bits:x}");
    }
}

#[test]
fn out_and_in_again() {
    for k in 0..=ONE {
        assert_eq!(weight(k).and_then(amount), Ok(k));
    }
}

/// 2 comes before all, and 15 of any weight before 16 of any.
#[test]
fn lists() {
    let none: [u64; 0] = [];
    assert_eq!(amounts(&[], 0), Ok(none.to_vec()));
    assert_eq!(amounts(&[0.5, -0.0], 9), Ok(vec![ONE / 2, 0]));
    assert_eq!(amounts(&[0.5, f32::NAN], 1), Err(2));
    assert_eq!(amounts(&[0.5, 0.1], 1), Err(2));
    assert_eq!(amounts(&[0.5, 0.1, 0.5], 3), Err(16));
    assert_eq!(amounts(&[0.1, 0.5, -1.0], 3), Err(15));
    assert_eq!(amounts(&[2.0, 0.1], 2), Err(15));
    assert_eq!(weights(&[], 0), Ok(Vec::new()));
    assert_eq!(weights(&[ONE, 0], 3), Ok(vec![1.0, 0.0]));
    assert_eq!(weights(&[ONE + 1, 0], 1), Err(2));
    assert_eq!(weights(&[0, ONE + 1], 2), Err(15));
}
