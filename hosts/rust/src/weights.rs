use crate::calls::{mover_to_amounts, mover_to_weights};
use crate::Refusal;

/// The amounts, in grains, of weights as paint tools hold them: 32-bit floats from 0 to 1.
///
/// An amount is its weight times 16,777,216, exactly: a weight that is no whole number of grains is refused,
/// not rounded. Negative zero is 0. There may be any number of weights.
///
/// ```
/// use weight_mover::{to_amounts, Graph, Refusal};
///
/// let (before, after) = (to_amounts(&[0.75, 0.25, 0.0])?, to_amounts(&[0.0, 0.5, 0.5])?);
/// assert_eq!(before, [12_582_912, 4_194_304, 0]);
/// assert_eq!(Graph::new(3).edge(0, 1, 5).edge(1, 2, 4).solve(&before, &after)?.moves, 2);
/// assert_eq!(to_amounts(&[1.5]), Err(Refusal::WeightRange));
/// // The float nearest to 0.1 lies between two grains.
/// assert_eq!(to_amounts(&[0.1]), Err(Refusal::WeightGrains));
/// # Ok::<(), Refusal>(())
/// ```
pub fn to_amounts(weights: &[f32]) -> Result<Vec<u64>, Refusal> {
    let mut amounts = vec![0; weights.len()];
    to_amounts_into(weights, &mut amounts)?;
    Ok(amounts)
}

/// The same into a list that is there, and may be longer: its other places stay as they were. After a refusal
/// all of them are as they were.
///
/// ```
/// use weight_mover::{to_amounts_into, Refusal};
///
/// let mut amounts = [7; 3];
/// to_amounts_into(&[0.5, 0.25], &mut amounts)?;
/// assert_eq!(amounts, [8_388_608, 4_194_304, 7]);
/// assert_eq!(to_amounts_into(&[0.5; 4], &mut amounts), Err(Refusal::TableSize));
/// # Ok::<(), Refusal>(())
/// ```
pub fn to_amounts_into(weights: &[f32], amounts: &mut [u64]) -> Result<(), Refusal> {
    Refusal::check(mover_to_amounts(weights, amounts))
}

/// The weights of amounts from 0 to 16,777,216: each divided by 16,777,216, exactly. [`to_amounts`] gives the
/// amounts again. There may be any number of them.
///
/// ```
/// use weight_mover::{to_amounts, to_weights, Refusal};
///
/// let weights = to_weights(&[16_777_216, 4_194_304, 3, 0])?;
/// assert_eq!(weights, [1.0, 0.25, 3.0 / 16_777_216.0, 0.0]);
/// assert_eq!(to_amounts(&weights)?, [16_777_216, 4_194_304, 3, 0]);
/// assert_eq!(to_weights(&[16_777_217]), Err(Refusal::WeightRange));
/// # Ok::<(), Refusal>(())
/// ```
pub fn to_weights(amounts: &[u64]) -> Result<Vec<f32>, Refusal> {
    let mut weights = vec![0.0; amounts.len()];
    to_weights_into(amounts, &mut weights)?;
    Ok(weights)
}

/// The same into a list that is there, and may be longer: its other places stay as they were. After a refusal
/// all of them are as they were.
///
/// ```
/// use weight_mover::{to_weights_into, Refusal};
///
/// let mut weights = [7.0; 3];
/// to_weights_into(&[8_388_608, 0], &mut weights)?;
/// assert_eq!(weights, [0.5, 0.0, 7.0]);
/// assert_eq!(to_weights_into(&[0; 4], &mut weights), Err(Refusal::TableSize));
/// # Ok::<(), Refusal>(())
/// ```
pub fn to_weights_into(amounts: &[u64], weights: &mut [f32]) -> Result<(), Refusal> {
    Refusal::check(mover_to_weights(amounts, weights))
}
