//! What is usual at a length, and how far a figure lies above it.
//!
//! At the knots and between them mean and variance are the library's. Past the last knot its line
//! through the last two is too rough to judge by: it follows the chance of a few paths, and its
//! variance soon falls below 0. There the mean goes on along the line from the middle knot to the
//! last, but does not fall, and the variance grows in proportion to the length, as far as eight
//! times the last knot. Drift can be found by that; that there is none cannot be said by it.
//! docs/REPORT.md has what was measured of this.

use crate::training::Trained;
use teakpool::{BaselineStats, MeanVariance};

/// Past so many times the last knot nothing is judged.
pub const FAR: u32 = 8;
/// Sequences whose spread is below this share of their mean are alike but for rounding.
const ALIKE: f64 = 1.0e-6;
/// A difference below this share of the mean is rounding, and so is one below this number.
const ROUNDING_SHARE: f64 = 1.0e-9;
const ROUNDING: f64 = 1.0e-12;

/// Why a reading cannot be judged.
#[derive(Debug, Clone, Copy, PartialEq, Eq, PartialOrd, Ord)]
pub enum Why {
    /// There are no training sequences.
    NoBaseline,
    /// There is one training sequence.
    OneSequence,
    /// There is one knot, and the length is past it.
    OneKnot,
    /// The length is far past the last knot.
    TooFar,
    /// The training's figures do not differ at this length and one of the day's lies above them,
    /// or they are not finite.
    NoSpread,
    /// The length is past the last knot, and no drift is found by what is carried on.
    CarriedOn,
    /// What good days do seldom is done more often, but not by enough to call it drift.
    MoreOften,
    /// No node with a prior is in the window.
    NothingWatched,
}

/// What is usual at a length: mean and variance of the five figures where they are known, and why
/// nothing can be judged by them.
#[derive(Debug, Clone, Copy, PartialEq)]
pub struct Usual {
    pub figures: Option<BaselineStats>,
    pub unusable: Option<Why>,
    /// The figures are not trained but carried on.
    pub carried_on: bool,
}

impl Usual {
    /// Without a baseline.
    pub const UNKNOWN: Usual = Usual { figures: None, unusable: Some(Why::NoBaseline), carried_on: false };
}

/// What is usual at the length that was asked for last: a full window asks for one over and over.
pub struct UsualAt<'a> {
    trained: Option<&'a Trained>,
    pub length: u64,
    usual: Usual,
}

impl<'a> UsualAt<'a> {
    /// Of a training, if there is one; nothing is asked for yet.
    pub fn new(trained: Option<&'a Trained>) -> UsualAt<'a> {
        UsualAt { trained, length: 0, usual: Usual::UNKNOWN }
    }

    /// What is usual at a length.
    pub fn at(&mut self, length: u64) -> Usual {
        if self.length != length {
            let usual = self.trained.map_or(Usual::UNKNOWN, |trained| trained.usual(length));
            (self.length, self.usual) = (length, usual);
        }
        self.usual
    }
}

/// How a figure is held against what is usual.
#[derive(Debug, Clone, Copy, PartialEq)]
pub enum Held {
    /// By so many standard deviations above the mean.
    By(f64),
    /// It is at or below the mean that all sequences share.
    NotAbove,
    /// Not at all: there is no usable spread.
    Not,
}

impl Held {
    /// The deviations, where there are any.
    pub fn deviations(self) -> Option<f64> {
        match self {
            Held::By(deviations) => Some(deviations),
            Held::NotAbove | Held::Not => None,
        }
    }
}

impl Trained {
    /// What is usual at a length of 1 or more.
    pub fn usual(&self, length: u64) -> Usual {
        let last = u64::from(self.last_knot());
        let figures = match (length <= last, self.knots.len()) {
            (true, _) => self.baseline().stats(length as u32).ok(),
            (false, 1) => None,
            (false, _) => self.carried_on(length),
        };
        let unusable = match self.sequences {
            1 => Some(Why::OneSequence),
            _ if figures.is_none() => Some(Why::OneKnot),
            _ if length > u64::from(FAR) * last => Some(Why::TooFar),
            _ => None,
        };
        Usual { figures, unusable, carried_on: length > last }
    }

    /// Mean and variance past the last knot.
    fn carried_on(&self, length: u64) -> Option<BaselineStats> {
        let middle_knot = self.knots[(self.knots.len() - 1) / 2];
        let middle = self.baseline().stats(middle_knot).ok()?;
        let last = self.baseline().stats(self.last_knot()).ok()?;
        let knots = [f64::from(middle_knot), f64::from(self.last_knot())];
        let on = |of: fn(&BaselineStats) -> MeanVariance, least_slope: f64| {
            carried_figure(knots, [of(&middle), of(&last)], length as f64, least_slope)
        };
        Some(BaselineStats {
            maximum: on(|stats| stats.maximum, 0.0),
            minimum: on(|stats| stats.minimum, f64::MIN),
            number: on(|stats| stats.number, 0.0),
            sum: on(|stats| stats.sum, 0.0),
            sum_of_squares: on(|stats| stats.sum_of_squares, 0.0),
        })
    }
}

/// One figure of these; not finite where it is not at both knots. Of more paths only the
/// minimum is less, and no divergence is below 0.
pub fn carried_figure(
    knots: [f64; 2],
    [middle, last]: [MeanVariance; 2],
    length: f64,
    least_slope: f64,
) -> MeanVariance {
    if !(middle.variance.is_finite() && last.variance.is_finite()) {
        return MeanVariance { mean: f64::NAN, variance: f64::NAN };
    }
    let slope = ((last.mean - middle.mean) / (knots[1] - knots[0])).max(least_slope);
    let mean = (last.mean + slope * (length - knots[1])).max(0.0);
    MeanVariance { mean, variance: last.variance * length / knots[1] }
}

/// What a spread around this mean has to pass to be more than rounding.
fn least_spread(mean: f64) -> f64 {
    (ALIKE * mean.abs()).max(ROUNDING)
}

/// The spread, a standard deviation, where one can judge by it.
pub fn spread(usual: MeanVariance) -> Option<f64> {
    let spread = usual.variance.sqrt();
    Some(spread).filter(|spread| spread.is_finite() && *spread > least_spread(usual.mean))
}

/// Holds a figure against its mean and variance.
pub fn hold(figure: f64, usual: MeanVariance) -> Held {
    let (above, least) = (figure - usual.mean, least_spread(usual.mean));
    let rounding = (ROUNDING_SHARE * usual.mean.abs()).max(ROUNDING);
    match spread(usual) {
        Some(_) if above.abs() <= rounding => Held::By(0.0),
        Some(spread) => Held::By(above / spread),
        None if usual.variance.abs() <= least * least && above <= least => Held::NotAbove,
        None => Held::Not,
    }
}

#[cfg(test)]
mod tests {
    use super::{carried_figure, hold, spread, Held, Trained, Usual, Why};
    use teakpool::MeanVariance;

    /// Two sequences whose sums at each knot are given; the other figures are 0.
    fn trained(knots: &[(u32, f64, f64)]) -> Trained {
        let values = |(_, one, other): &(u32, f64, f64)| {
            let mut values = [0.0; 10];
            (values[6], values[7]) = (one + other, one * one + other * other);
            values
        };
        Trained {
            sequences: 2,
            paths: knots.last().unwrap().0,
            rate: 1,
            knots: knots.iter().map(|knot| knot.0).collect(),
            values: knots.iter().flat_map(values).collect(),
            greatest_index: 1,
            others: None,
            by_node: None,
        }
    }

    fn sum(usual: Usual) -> MeanVariance {
        usual.figures.expect("the mean is known").sum
    }

    #[test]
    fn at_the_knots_and_between_them_it_is_the_librarys() {
        let trained = trained(&[(1, 1.0, 3.0), (11, 2.0, 6.0)]);
        assert_eq!(sum(trained.usual(1)), MeanVariance { mean: 2.0, variance: 1.0 });
        assert_eq!(sum(trained.usual(6)), MeanVariance { mean: 3.0, variance: 2.5 });
        assert_eq!(trained.usual(11).unusable, None);
    }

    #[test]
    fn past_the_last_knot_the_spread_stays_usable() {
        // The library's line through the last two knots falls below 0 at 21.
        let trained = trained(&[(1, 1.0, 3.0), (6, 1.0, 5.0), (11, 3.0, 5.0)]);
        assert!(trained.baseline().stats(21).unwrap().sum.variance < 0.0);
        // Knot 6 is the middle one: mean 3, then 4 at 11.
        assert_eq!(sum(trained.usual(22)), MeanVariance { mean: 6.2, variance: 2.0 });
        assert_eq!(trained.usual(88).unusable, None);
        assert_eq!(trained.usual(89).unusable, Some(Why::TooFar));
    }

    #[test]
    fn past_the_last_knot_the_mean_does_not_fall() {
        // From 5 at 6 to 2 at 11: on that line it is below 0 at 22.
        let falls = trained(&[(1, 1.0, 3.0), (6, 4.0, 6.0), (11, 1.0, 3.0)]);
        assert_eq!(sum(falls.usual(22)), MeanVariance { mean: 2.0, variance: 2.0 });
        let usual = |mean: f64| MeanVariance { mean, variance: 1.0 };
        let minimum = |length: f64| carried_figure([6.0, 11.0], [usual(5.0), usual(2.0)], length, f64::MIN);
        assert_eq!((minimum(13.0).mean, minimum(22.0).mean), (2.0 - 2.0 * 3.0 / 5.0, 0.0));
    }

    #[test]
    fn without_a_second_sequence_or_knot_nothing_is_judged() {
        let one_knot = trained(&[(1, 1.0, 3.0)]);
        assert_eq!(one_knot.usual(1).unusable, None);
        assert_eq!((one_knot.usual(2).figures, one_knot.usual(2).unusable), (None, Some(Why::OneKnot)));
        let one_sequence = Trained { sequences: 1, ..trained(&[(1, 1.0, 0.0), (2, 2.0, 0.0)]) };
        assert_eq!(one_sequence.usual(2).unusable, Some(Why::OneSequence));
        assert_eq!(sum(one_sequence.usual(2)).mean, 2.0);
    }

    #[test]
    fn rounding_is_no_spread() {
        let usual = |mean: f64, variance: f64| MeanVariance { mean, variance };
        assert_eq!(hold(5.0, usual(2.0, 4.0)), Held::By(1.5));
        // Three equal figures: neither spread nor mean is exact.
        for variance in [0.0, 2.0e-17, -2.0e-17] {
            assert_eq!(spread(usual(0.3, variance)), None);
            assert_eq!(hold(0.30000000000000004, usual(0.3, variance)), Held::NotAbove);
            assert_eq!(hold(0.2, usual(0.3, variance)), Held::NotAbove);
            assert_eq!(hold(0.31, usual(0.3, variance)), Held::Not);
        }
        assert_eq!(hold(0.0, usual(0.0, 0.0)), Held::NotAbove);
        // Around a mean of nearly 0 a share of it is nothing.
        assert_eq!(hold(1.0e-15, usual(1.0e-16, 1.0e-32)), Held::NotAbove);
        assert_eq!(hold(1.0e-3, usual(1.0e-16, 1.0e-32)), Held::Not);
        // Nor is a difference by rounding one that lies above.
        assert_eq!(hold(0.1 + 0.2, usual(0.3, 1.0)), Held::By(0.0));
        // A variance below 0 that is no rounding, and knots without a divergence.
        assert_eq!(hold(1.0, usual(2.0, -1.0)), Held::Not);
        assert_eq!(hold(1.0, usual(f64::MIN, f64::INFINITY)), Held::Not);
        assert_eq!(hold(1.0, usual(f64::NAN, f64::NAN)), Held::Not);
    }

    #[test]
    fn a_knot_without_a_divergence_does_not_carry_a_line() {
        let quiet = Trained {
            knots: vec![1, 2, 3],
            values: [f64::MIN, f64::INFINITY, 0.0, 0.0, 0.0, 0.0, 0.0, 0.0, 0.0, 0.0]
                .repeat(2)
                .into_iter()
                .chain([3.0, 5.0, 0.0, 0.0, 0.0, 0.0, 0.0, 0.0, 0.0, 0.0])
                .collect(),
            ..trained(&[(1, 1.0, 3.0)])
        };
        let maximum = quiet.usual(4).figures.unwrap().maximum;
        assert_eq!(hold(100.0, maximum), Held::Not);
        assert_eq!(spread(quiet.usual(3).figures.unwrap().maximum), Some(0.5));
    }
}
