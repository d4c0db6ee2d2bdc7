//! The baseline: trained on the sequences of a day's file, and what is usual at a length by it.

use crate::by_node::ByNode;
use crate::counts::Counts;
use crate::day::{Day, Paths, MAX_KNOTS};
use crate::lent::Lent;
use crate::mistakes::Problem;
use crate::others::{against_others, Others};
use crate::progress::during;
use crate::refused::told;
use teakpool::{place_bytes, Baseline, Refusal, Sequences, Tracker, KNOT_VALUES};

/// Knots that a training has where no rate is given, if the last path can be one of them.
const KNOTS: usize = 128;
/// Trainings of more paths are not run a second time.
const LONG: usize = 1_000_000;

/// A baseline, and the size of its training.
pub struct Trained {
    pub sequences: u32,
    /// Paths of each sequence.
    pub paths: u32,
    pub rate: u32,
    pub knots: Vec<u32>,
    pub values: Vec<f64>,
    /// The greatest index that the tables were read at.
    pub greatest_index: u64,
    /// How far the sequences go when they are held against each other.
    pub others: Option<Others>,
    /// What is usual for each node.
    pub by_node: Option<ByNode>,
}

impl Trained {
    /// As the library reads it.
    pub fn baseline(&self) -> Baseline<'_> {
        Baseline { s: self.sequences, knots: &self.knots, values: &self.values }
    }

    /// The greatest length that was trained.
    pub fn last_knot(&self) -> u32 {
        self.knots.last().copied().unwrap_or(0)
    }
}

/// The baseline of the training sequences, if there are any paths in them.
pub fn train(day: &Day, lent: &mut Lent, book: &mut [u8]) -> Result<Option<Trained>, Problem> {
    let paths = day.training_paths() as u32;
    if paths == 0 {
        return Ok(None);
    }
    let sequences = day.sequences.len() as u32;
    let rate = day.rate.map_or_else(|| rate_for(paths as usize) as u32, |rate| rate.value);
    let index = day.sequences.iter().map(|sequence| greatest_index(day, sequence)).max().unwrap_or(1);
    lent.reach(index);
    let places: Vec<u8> = day.sequences.iter().flat_map(Paths::iter).flat_map(place_bytes).collect();
    let lists = Sequences { s: sequences, n: paths, rate, places: &places };
    let (mut knots, mut values) = (vec![0; MAX_KNOTS], vec![0.0; KNOT_VALUES * MAX_KNOTS]);
    let trained = during("the training", || {
        Baseline::train(lent.tables(index), lent.priors(), lists, book, &mut knots, &mut values)
            .map(|baseline| (baseline.knots.to_vec(), baseline.values.to_vec()))
    });
    let told_at = |refusal| told(day, lent.last_index(), day.sequences[0].line(0))(refusal);
    match trained {
        Ok((knots, values)) => {
            let (greatest_index, others, by_node) = (index, None, None);
            let mut trained =
                Trained { sequences, paths, rate, knots, values, greatest_index, others, by_node };
            if day.sequences.len() * day.training_paths() <= LONG {
                trained.others = against_others(day, lent, book, &trained).map_err(told_at)?;
                trained.by_node = Some(ByNode::of(day, lent, book, &trained).map_err(told_at)?);
            }
            Ok(Some(trained))
        }
        Err(refusal) => Err(where_stopped(day, lent, book, rate, refusal)),
    }
}

/// Adds the paths of a sequence, those up to a knot in one call, and calls `at` at each knot with its
/// number. A refusal comes with the index of its path.
pub fn at_knots(
    sequence: &Paths,
    book: &mut [u8],
    rate: u32,
    mut at: impl FnMut(usize, &Tracker) -> Result<(), Refusal>,
) -> Result<(), (usize, Refusal)> {
    let mut tracker = Tracker::open(0, book, &mut []).map_err(|refusal| (0, refusal))?;
    let (rate, mut from) = (rate as usize, 0);
    while from < sequence.len() {
        let knot = from.next_multiple_of(rate);
        let to = sequence.len().min(knot + 1);
        let places: Vec<u8> = (from..to).flat_map(|index| place_bytes(sequence.steps(index))).collect();
        tracker.add_paths(&places).map_err(|stopped| (from + stopped.taken as usize, stopped.refusal))?;
        if knot < to {
            at(knot / rate, &tracker).map_err(|refusal| (knot, refusal))?;
        }
        from = to;
    }
    Ok(())
}

/// The greatest index that the tables are read at in a sequence.
fn greatest_index(day: &Day, sequence: &Paths) -> u64 {
    let mut counts = Counts::new(day, sequence, 0);
    (0..sequence.len()).for_each(|index| counts.add(index));
    counts.greatest()
}

/// The rate for sequences of so many paths: the least one that puts a knot on the last path and
/// has about a hundred knots; where there is none, as many knots as there can be.
fn rate_for(paths: usize) -> usize {
    let few = paths.div_ceil(KNOTS)..=(paths / 8).max(1);
    few.into_iter()
        .find(|rate| (paths - 1).is_multiple_of(*rate))
        .unwrap_or_else(|| paths.div_ceil(MAX_KNOTS))
}

/// A training tells no path, so its work is done again, up to the path that is refused.
fn where_stopped(day: &Day, lent: &Lent, book: &mut [u8], rate: u32, stopped: Refusal) -> Problem {
    let told_at = |line| told(day, lent.last_index(), line);
    let read = |tracker: &Tracker| tracker.kl_div_stats(lent.tables(lent.last_index()), lent.priors());
    let again = day.sequences.iter().try_for_each(|sequence| {
        at_knots(sequence, book, rate, |_, tracker| read(tracker).map(|_| ()))
            .map_err(|(index, refusal)| told_at(sequence.line(index))(refusal))
    });
    again.err().unwrap_or_else(|| told_at(day.sequences[0].line(0))(stopped))
}

#[cfg(test)]
mod tests {
    use super::rate_for;

    #[test]
    fn a_rate_puts_a_knot_on_the_last_path() {
        // Paths, rate, knots.
        let cases =
            [(1_usize, 1, 1), (2, 1, 2), (40, 1, 40), (128, 1, 128), (1_024, 11, 94), (65_536, 771, 86)];
        for (paths, rate, knots) in cases {
            assert_eq!((rate_for(paths), paths.div_ceil(rate)), (rate, knots), "{}", paths);
            assert_eq!((paths - 1) % rate, 0, "{}", paths);
        }
        // One path less is a prime number: every path, as long as there are few enough.
        assert_eq!(rate_for(180), 1);
        assert_eq!(rate_for(5_004), 5);
    }

    #[test]
    fn no_rate_gives_too_many_knots() {
        for paths in (1..=2_100_usize).chain(65_000..=65_536) {
            assert!(paths.div_ceil(rate_for(paths)) <= 1_024, "{}", paths);
        }
    }
}
