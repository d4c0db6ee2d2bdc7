//! Training, and the baseline that it gives: means and variances at a sequence length.

use crate::refusal::done;
use crate::tracker::PLACE_BYTES;
use crate::{Address, Priors, Refusal, Tables};

/// Values of a knot: a sum and a sum of squares for each of the five figures.
pub const KNOT_VALUES: usize = 10;

/// The sequences of a training: s times n paths as queue places, one sequence after another, and
/// a rate: every how many paths a knot is taken.
#[derive(Debug, Clone, Copy)]
pub struct Sequences<'a> {
    /// s, 1 to 64.
    pub s: u32,
    /// n, 0 to 65,536.
    pub n: u32,
    /// The rate.
    pub rate: u32,
    /// The places, 516 bytes a path.
    pub places: &'a [u8],
}

/// One figure's mean and variance over the sequences.
#[derive(Debug, Clone, Copy, PartialEq, Default)]
pub struct MeanVariance {
    /// The mean.
    pub mean: f64,
    /// The variance.
    pub variance: f64,
}

/// A baseline's five figures at one length.
#[derive(Debug, Clone, Copy, PartialEq, Default)]
pub struct BaselineStats {
    /// Of the maximum.
    pub maximum: MeanVariance,
    /// Of the minimum.
    pub minimum: MeanVariance,
    /// Of the number.
    pub number: MeanVariance,
    /// Of the sum.
    pub sum: MeanVariance,
    /// Of the sum of squares.
    pub sum_of_squares: MeanVariance,
}

/// A baseline in lent memory.
///
/// Two sequences of one path each:
///
#[cfg_attr(feature = "std", doc = "```")]
#[cfg_attr(not(feature = "std"), doc = "```ignore")]
/// use teakpool::*;
///
/// # fn main() -> Result<(), Refusal> {
/// let tables = gamma_tables(7);
/// let mut records = PriorRecords::default();
/// let (node, child) = (Address::new(1, 7), Address::new(0, 9));
/// records.node(node, 1, &[(Address::new(0, 7), 2), (child, 3)]);
///
/// let places = [place_bytes(&[node, child]), place_bytes(&[node])].concat();
/// let sequences = Sequences { s: 2, n: 1, rate: 1, places: &places };
/// let (mut book, mut knots, mut values) = ([0; 72], [0; 1], [0.0; 10]);
/// let baseline = Baseline::train(
///     tables.lent(), records.lent(), sequences, &mut book, &mut knots, &mut values,
/// )?;
/// assert_eq!(baseline.knots, [1]);
///
/// // The two maxima, by hand.
/// let (one, other) = (47.0 / 60.0 - 2.0_f64.ln(), 137.0 / 60.0 - 6.0_f64.ln());
/// assert!((baseline.stats(1)?.maximum.mean - (one + other) / 2.0).abs() < 1.0e-14);
/// assert_eq!(baseline.stats(2), Err(Refusal::OneKnot));
/// # Ok(())
/// # }
/// ```
#[derive(Debug, Clone, Copy)]
pub struct Baseline<'a> {
    /// s, the sequences that went in.
    pub s: u32,
    /// The knots, rising.
    pub knots: &'a [u32],
    /// Ten values a knot.
    pub values: &'a [f64],
}

impl<'a> Baseline<'a> {
    /// Trains. `book` is for the work alone and is zero afterwards.
    ///
    /// # Errors
    /// Before the work, and nothing changes: 1 and 2 for the tables, 3 to 7 and 22 for the priors, 9 for
    /// the book's length, 16 for the sequences, 13 where `knots` or `values` are too short. In the work,
    /// and `book`, `knots` and `values` become zero: 10 for a path's length, 12 where the book is too
    /// small, and at a knot 14 and 15 as in `all_node_kl`.
    pub fn train(
        tables: Tables,
        priors: Priors,
        sequences: Sequences,
        book: &mut [u8],
        knots: &'a mut [u32],
        values: &'a mut [f64],
    ) -> Result<Baseline<'a>, Refusal> {
        let (mut count, mut node) = (0, Address::default());
        let answer = archive::train(
            (tables.g, tables.d),
            priors.parts(),
            (sequences.places, sequences.s, sequences.n, sequences.rate),
            (book, knots, values),
            &mut count,
            (&mut node.scale, &mut node.point),
        );
        done(answer, node)?;
        let count = count as usize;
        Ok(Baseline { s: sequences.s, knots: &knots[..count], values: &values[..KNOT_VALUES * count] })
    }

    /// Means and variances at a length: at a knot its own, between knots and past the last on a
    /// straight line, below the first or without knots all zeros.
    ///
    /// # Errors
    /// 17 for s, the knots or the number of values, 18 where there is one knot and the length is past
    /// it.
    pub fn stats(&self, length: u32) -> Result<BaselineStats, Refusal> {
        let mut figures = [0.0; KNOT_VALUES];
        let answer = archive::stats(self.knots, self.values, self.s, length, &mut figures);
        done(answer, Address::default())?;
        let figure =
            |index: usize| MeanVariance { mean: figures[2 * index], variance: figures[2 * index + 1] };
        Ok(BaselineStats {
            maximum: figure(0),
            minimum: figure(1),
            number: figure(2),
            sum: figure(3),
            sum_of_squares: figure(4),
        })
    }
}

/// A path as a queue place, for a training's sequences and for lists of paths: its length, its steps,
/// zeros. A path of more than 64 steps has no place; its length is written, or the greatest there is
/// where 32 bits do not hold it, and the call that reads it gives 10.
///
/// ```
/// use teakpool::{place_bytes, Address};
///
/// let place = place_bytes(&[Address::new(1, 7)]);
/// assert_eq!(place[..12], [1, 0, 0, 0, 1, 0, 0, 0, 7, 0, 0, 0]);
/// ```
pub fn place_bytes(path: &[Address]) -> [u8; PLACE_BYTES] {
    let mut place = [0; PLACE_BYTES];
    let (length, steps) = place.split_at_mut(4);
    length.copy_from_slice(&length_field(path.len()).to_le_bytes());
    for (place, step) in steps.chunks_exact_mut(Address::BYTES).zip(path) {
        place.copy_from_slice(&step.bytes());
    }
    place
}

/// A length as 32 bits hold it. One that they do not hold stays too long, and is refused as such.
fn length_field(steps: usize) -> u32 {
    u32::try_from(steps).unwrap_or(u32::MAX)
}

#[cfg(test)]
mod tests {
    use super::length_field;
    use crate::MAX_STEPS;

    #[test]
    fn lengths_past_32_bits_stay_too_long() {
        assert_eq!([0, 1, 64, 65].map(length_field), [0, 1, 64, 65]);
        let whole = u32::MAX as usize;
        for steps in [whole, whole.saturating_add(1), whole.saturating_add(2), whole.saturating_add(65)] {
            assert!(length_field(steps) as usize > MAX_STEPS, "{}", steps);
        }
    }
}
