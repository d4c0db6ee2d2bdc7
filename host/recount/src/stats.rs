//! `KLDivergenceBaseline::stats`: mean and variance of the five figures at a length. At a
//! knot they are its own, between knots and past the last they are interpolated, below the
//! first or without knots they are zeros. Refusals 17 and 18.

use crate::limits::{KNOT_VALUES, MAX_KNOTS, SEQUENCES};
use crate::refusal::{refuse, Refusal};

/// One figure's mean and variance.
#[derive(Debug, Clone, Copy, Default)]
pub struct MeanVariance {
    /// The mean over the sequences.
    pub mean: f64,
    /// The variance over the sequences.
    pub variance: f64,
}

/// The five figures of a baseline at one length.
#[derive(Debug, Clone, Copy, Default)]
pub struct KLDivergenceBaselineStats {
    /// Of the maximum.
    pub max: MeanVariance,
    /// Of the minimum.
    pub min: MeanVariance,
    /// Of the number.
    pub nz_count: MeanVariance,
    /// Of the sum.
    pub moment1_nz: MeanVariance,
    /// Of the sum of squares.
    pub moment2_nz: MeanVariance,
}

impl KLDivergenceBaselineStats {
    /// The ten numbers, each figure's mean before its variance.
    pub fn ten_values(&self) -> [f64; KNOT_VALUES] {
        let KLDivergenceBaselineStats { max, min, nz_count, moment1_nz, moment2_nz } = *self;
        let mut values = [0.0; KNOT_VALUES];
        for (pair, figure) in values.chunks_mut(2).zip([max, min, nz_count, moment1_nz, moment2_nz]) {
            pair.copy_from_slice(&[figure.mean, figure.variance]);
        }
        values
    }

    fn from_ten(values: [f64; KNOT_VALUES]) -> KLDivergenceBaselineStats {
        let figure = |index: usize| MeanVariance { mean: values[2 * index], variance: values[2 * index + 1] };
        KLDivergenceBaselineStats {
            max: figure(0),
            min: figure(1),
            nz_count: figure(2),
            moment1_nz: figure(3),
            moment2_nz: figure(4),
        }
    }
}

/// The figures of a baseline of `sequences` sequences at `length`.
pub fn stats(
    sequences: u32,
    knots: &[u32],
    values: &[f64],
    length: u32,
) -> Result<KLDivergenceBaselineStats, Refusal> {
    let rising = knots.windows(2).all(|pair| pair[0] < pair[1]);
    let knots_hold = rising && knots.len() <= MAX_KNOTS;
    let values_hold = values.len() == KNOT_VALUES * knots.len();
    refuse(17, !(SEQUENCES.contains(&sequences) && knots_hold && values_hold))?;
    refuse(18, knots.len() == 1 && length > knots[0])?;
    let at = |knot: usize| at_knot(&values[KNOT_VALUES * knot..KNOT_VALUES * (knot + 1)], sequences);
    let ten = match knots.iter().rposition(|knot| *knot <= length) {
        None => [0.0; KNOT_VALUES],
        Some(knot) if knots[knot] == length => at(knot),
        Some(knot) => {
            let left = knot.min(knots.len() - 2);
            let w = f64::from(length - knots[left]) / f64::from(knots[left + 1] - knots[left]);
            interpolate(at(left), at(left + 1), w)
        }
    };
    Ok(KLDivergenceBaselineStats::from_ten(ten))
}

/// mean = sum / s, variance = squares / s - mean × mean.
fn at_knot(sums: &[f64], sequences: u32) -> [f64; KNOT_VALUES] {
    let s = f64::from(sequences);
    let mut values = [0.0; KNOT_VALUES];
    for (pair, sums) in values.chunks_mut(2).zip(sums.chunks(2)) {
        pair[0] = sums[0] / s;
        pair[1] = sums[1] / s - pair[0] * pair[0];
    }
    values
}

/// a + w × (b - a), value by value.
fn interpolate(a: [f64; KNOT_VALUES], b: [f64; KNOT_VALUES], w: f64) -> [f64; KNOT_VALUES] {
    let mut values = a;
    for (value, b) in values.iter_mut().zip(b) {
        *value += w * (b - *value);
    }
    values
}
