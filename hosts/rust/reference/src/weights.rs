//! Weights as 32-bit floats and the grains that they stand for, from the bits of the floats: nothing here is
//! computed in floats.
//!
//! A float has a sign bit, eight bits of exponent field and 23 of fraction. A field of 255 is no finite number.
//! Otherwise the value is mantissa × 2^exponent.

use crate::checks::{refuse_if, MAX_TOTAL};

/// The size of a finite float, its sign left out, in grains of 2^-24: a numerator and a denominator.
fn grains(bits: u32) -> (u128, u128) {
    let (field, fraction) = (bits >> 23 & 0xff, u128::from(bits & 0x7f_ffff));
    let (mantissa, exponent) = match field {
        0 => (fraction, -149),
        _ => (fraction + (1 << 23), field as i32 - 150),
    };
    match exponent + 24 {
        // Up to 2^128, for which there is no room; with 2^64 such a float is far above 1 too.
        up @ 0.. => (mantissa << up.min(64), 1),
        down => (mantissa, 1 << -down),
    }
}

/// The amount of the weight with these bits, or its refusal.
pub fn amount(bits: u32) -> Result<u64, u32> {
    let (negative, finite) = (bits >> 31 == 1, bits >> 23 & 0xff < 255);
    refuse_if(15, !finite)?;
    let (numerator, denominator) = grains(bits);
    let (whole, rest) = (numerator / denominator, numerator % denominator);
    refuse_if(15, negative && numerator > 0)?;
    refuse_if(15, (whole, rest) > (MAX_TOTAL.into(), 0))?;
    refuse_if(16, rest > 0)?;
    Ok(whole as u64)
}

/// The bits of the weight with this amount, or its refusal.
pub fn weight(amount: u64) -> Result<u32, u32> {
    refuse_if(15, amount > MAX_TOTAL)?;
    if amount == 0 {
        return Ok(0);
    }
    // From 2^high to below 2^(high + 1) grains: the field is 127 for 2^24 of them.
    let high = amount.ilog2();
    let fraction = ((amount - (1 << high)) << 23) >> high;
    Ok((high + 127 - 24) << 23 | fraction as u32)
}

/// The amounts of weights for an answer list of so many places, or the refusal of all.
pub fn amounts(weights: &[f32], places: usize) -> Result<Vec<u64>, u32> {
    refuse_if(2, places < weights.len())?;
    let each: Vec<Result<u64, u32>> = weights.iter().map(|w| amount(w.to_bits())).collect();
    refuse_if(15, each.contains(&Err(15)))?;
    each.into_iter().collect()
}

/// The weights of amounts for an answer list of so many places, or the refusal of all.
pub fn weights(amounts: &[u64], places: usize) -> Result<Vec<f32>, u32> {
    refuse_if(2, places < amounts.len())?;
    amounts.iter().map(|&a| weight(a).map(f32::from_bits)).collect()
}
