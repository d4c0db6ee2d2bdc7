//! The training sequences held against each other, each one against the mean and spread of the
//! others. It shows how far good days go, beside which a stretch of the day is to be seen.

use crate::day::Day;
use crate::lent::Lent;
use crate::training::{at_knots, Trained};
use crate::usual::{hold, Held};
use teakpool::{KLDivergenceStats, MeanVariance, Refusal};

/// How far the sequences go.
#[derive(Debug, Clone, Copy, PartialEq)]
pub struct Others {
    /// The greatest deviations of a sequence.
    pub most: f64,
    /// The sequences that go further than the day may.
    pub above: usize,
}

/// Holds the sequences against each other at the knots. None where a sequence has not two others.
pub fn against_others(
    day: &Day,
    lent: &Lent,
    book: &mut [u8],
    trained: &Trained,
) -> Result<Option<Others>, Refusal> {
    if trained.sequences < 3 {
        return Ok(None);
    }
    let mut all = Vec::new();
    for sequence in &day.sequences {
        let mut readings = Vec::new();
        at_knots(sequence, book, trained.rate, |_, tracker| {
            readings.push(tracker.kl_div_stats(lent.tables(trained.greatest_index), lent.priors())?);
            Ok(())
        })
        .map_err(|(_, refusal)| refusal)?;
        all.push(readings);
    }
    let most: Vec<f64> = (0..all.len()).filter_map(|own| furthest(&all, own)).collect();
    let above = most.iter().filter(|most| **most > day.drift).count();
    Ok(most.into_iter().reduce(f64::max).map(|most| Others { most, above }))
}

/// The greatest deviations of one sequence from the others, over knots and both figures.
fn furthest(readings: &[Vec<KLDivergenceStats>], own: usize) -> Option<f64> {
    let figures: [fn(&KLDivergenceStats) -> f64; 2] = [|stats| stats.sum, |stats| stats.maximum];
    let knots = 0..readings[own].len();
    let at = |knot: usize| {
        figures.into_iter().filter_map(move |figure| {
            let all: Vec<f64> = readings.iter().map(|sequence| figure(&sequence[knot])).collect();
            held(&all, own).deviations()
        })
    };
    knots.flat_map(at).reduce(f64::max)
}

/// One figure held against the others.
fn held(figures: &[f64], own: usize) -> Held {
    let others = || figures.iter().enumerate().filter(|(index, _)| *index != own).map(|(_, figure)| figure);
    let count = (figures.len() - 1) as f64;
    let mean = others().sum::<f64>() / count;
    let variance = others().map(|figure| (figure - mean) * (figure - mean)).sum::<f64>() / count;
    hold(figures[own], MeanVariance { mean, variance })
}

#[cfg(test)]
mod tests {
    use super::{held, Others};
    use crate::reader::read;
    use crate::usual::Held;
    use crate::work::watch;

    #[test]
    fn a_figure_is_held_against_the_others() {
        // Mean 2 and variance 1 of the two others.
        assert_eq!(held(&[7.0, 1.0, 3.0], 0), Held::By(5.0));
        assert_eq!(held(&[7.0, 1.0, 1.0], 0), Held::Not);
        assert_eq!(held(&[1.0, 1.0, 1.0], 0), Held::NotAbove);
        assert_eq!(held(&[f64::MIN, 1.0, 3.0], 1), Held::Not);
    }

    #[test]
    fn two_sequences_have_no_others_to_be_held_against() {
        let others = |sequences: &[&str]| -> Option<Others> {
            let sequences: String =
                sequences.iter().map(|path| format!("sequence\npath {}\npath 1/7\n", path)).collect();
            let text = format!("prior 1/7 1 0/7 2 0/9 3\n{}day\npath 1/7", sequences);
            let day = read(text.as_bytes()).expect("the day can be read");
            watch(&day).expect("the day can be run").trained.expect("it is trained").others
        };
        assert_eq!(others(&["1/7 0/7", "1/7 0/9"]), None);
        let three = others(&["1/7 0/7", "1/7 0/9", "1/7"]).expect("there are others");
        assert!(three.most > 0.0 && three.above <= 3);
    }
}
