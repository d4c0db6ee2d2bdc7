//! Training: each sequence is one recount with window 0 and the lent book's capacity; after
//! path i, where i mod rate is 0, its statistics go to the knot i + 1. Tested first are 1 to
//! 7 and 22, 9 on the book's size, 16 and 13; 10, 12, 14 and 15 stop it and leave zeros.

use crate::batch::path_in;
use crate::limits::{KNOT_VALUES, MAX_KNOTS, MAX_PATHS, PLACE_BYTES, SEQUENCES};
use crate::priors::{check_priors, LentPriors, Priors};
use crate::readings::{statistics, KLDivergenceStats};
use crate::recount::{book_len_holds, Recount};
use crate::refusal::{refuse, Refusal};
use crate::tables::{check_tables, LentTables};

/// The sequences as lent: `sequences` times `paths` queue places, one sequence after another.
#[derive(Debug, Clone, Copy)]
pub struct Sequences<'a> {
    /// s, the number of sequences.
    pub sequences: u32,
    /// n, the paths of each.
    pub paths: u32,
    /// Every how many paths a knot is taken.
    pub rate: u32,
    /// The places.
    pub places: &'a [u8],
}

/// A lent baseline: knots, and ten values a knot.
#[derive(Debug)]
pub struct Baseline<'a> {
    /// The knots.
    pub knots: &'a mut [u32],
    /// Sums and sums of squares of the five figures in turn.
    pub values: &'a mut [f64],
}

impl Sequences<'_> {
    /// How many i below n have i mod rate = 0.
    fn knots(&self) -> usize {
        self.paths.div_ceil(self.rate) as usize
    }

    /// Refusal 16.
    fn check(&self) -> Result<(), Refusal> {
        let bytes = PLACE_BYTES as u64 * u64::from(self.sequences) * u64::from(self.paths);
        let numbers_hold = self.rate != 0 && SEQUENCES.contains(&self.sequences) && self.paths <= MAX_PATHS;
        refuse(16, !numbers_hold || self.places.len() as u64 != bytes || self.knots() > MAX_KNOTS)
    }
}

/// Trains; gives the number of knots. The book is all zero afterwards, unless the call is
/// refused before its work begins.
pub fn train(
    tables: LentTables,
    priors: LentPriors,
    book: &mut [u8],
    sequences: Sequences,
    baseline: &mut Baseline,
) -> Result<u32, Refusal> {
    check_tables(tables)?;
    let priors = check_priors(priors)?;
    refuse(9, !book_len_holds(book.len()))?;
    sequences.check()?;
    let room = baseline.knots.len().min(baseline.values.len() / KNOT_VALUES);
    refuse(13, room < sequences.knots())?;
    let worked = work(tables, &priors, book.len(), sequences);
    book.fill(0);
    match worked {
        Ok((knots, values)) => {
            baseline.knots[..knots.len()].copy_from_slice(&knots);
            baseline.values[..values.len()].copy_from_slice(&values);
            Ok(knots.len() as u32)
        }
        Err(refusal) => {
            baseline.knots.fill(0);
            baseline.values.fill(0.0);
            Err(refusal)
        }
    }
}

/// The knots and their values, or what the recount first gets.
fn work(
    tables: LentTables,
    priors: &Priors,
    book_len: usize,
    sequences: Sequences,
) -> Result<(Vec<u32>, Vec<f64>), Refusal> {
    let knots: Vec<u32> = (0..sequences.paths).step_by(sequences.rate as usize).map(|i| i + 1).collect();
    let mut values = vec![0.0; KNOT_VALUES * knots.len()];
    for sequence in 0..sequences.sequences as usize {
        let mut recount = Recount::open(0, book_len, 0)?;
        for path in 0..sequences.paths as usize {
            let start = PLACE_BYTES * (sequence * sequences.paths as usize + path);
            recount.add_path(path_in(&sequences.places[start..start + PLACE_BYTES])?)?;
            if path % sequences.rate as usize == 0 {
                let knot = path / sequences.rate as usize;
                let stats = statistics(&recount.counted(), tables, priors)?;
                add(&mut values[KNOT_VALUES * knot..KNOT_VALUES * (knot + 1)], &stats);
            }
        }
    }
    Ok((knots, values))
}

/// Adds one record to a knot: each figure and its square.
fn add(knot: &mut [f64], stats: &KLDivergenceStats) {
    let figures = [stats.max, stats.min, f64::from(stats.nz_count), stats.moment1_nz, stats.moment2_nz];
    for (pair, figure) in knot.chunks_mut(2).zip(figures) {
        pair[0] += figure;
        pair[1] += figure * figure;
    }
}
