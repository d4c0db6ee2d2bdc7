//! What the run of a day gives: a place for each path, and what is told of the day as a whole.

use crate::known::Found;
use crate::moved::Moved;
use crate::seldom::Often;
use crate::stretches::Stretch;
use crate::training::Trained;
use crate::usual::{hold, Held, Usual, Why};
use std::collections::BTreeMap;
use teakpool::{Address, KLDivergenceStats};

/// What became of a path.
#[derive(Debug)]
pub enum Place {
    /// It is added, and the statistics are read after it.
    Read(Reading),
    /// It is added, and the next reading covers it: all paths count, and the day is long.
    Unread,
    /// It is not added.
    LeftOut(LeftOut),
}

/// Why a path is not added.
#[derive(Debug, Clone, Copy, PartialEq, Eq, PartialOrd, Ord)]
pub enum LeftOut {
    /// It does what was never seen, which is a finding.
    NeverSeen,
    /// With it the counts of this node would pass the tables' end.
    PastTables(Address),
    /// It has nodes or transitions for which the book has no room.
    BookFull,
    /// The tracker has taken as many paths as it can.
    PathsFull,
}

/// The statistics after a path, how sum and maximum are held against the baseline, and what that
/// says.
#[derive(Debug, Clone, Copy)]
pub struct Reading {
    pub stats: KLDivergenceStats,
    pub sum: Held,
    pub maximum: Held,
    pub judged: Judged,
}

/// What a reading says.
#[derive(Debug, Clone, Copy, PartialEq)]
pub enum Judged {
    Calm,
    /// Sum or maximum is by so many deviations above the mean.
    Drift(f64),
    /// What good days do seldom is done more often, by so many deviations.
    Often(f64),
    Not(Why),
}

impl Reading {
    /// Judges statistics; `visits` are those of nodes with a prior in the window. One of the two
    /// figures is enough to find drift; that there is none needs both, and trained lengths.
    pub fn of(stats: KLDivergenceStats, visits: u64, usual: Usual, drift: f64) -> Reading {
        let unusable = if visits == 0 { Some(Why::NothingWatched) } else { usual.unusable };
        let (sum, maximum) = match (unusable, usual.figures) {
            (None, Some(figures)) => {
                // Without a divergence there is no maximum, and nothing that could lie above.
                let any = stats.number > 0;
                let maximum = if any { hold(stats.maximum, figures.maximum) } else { Held::NotAbove };
                (hold(stats.sum, figures.sum), maximum)
            }
            _ => (Held::Not, Held::Not),
        };
        let judged = match (unusable, above(sum, maximum)) {
            (Some(why), _) => Judged::Not(why),
            (None, Some(above)) if above > drift => Judged::Drift(above),
            _ if [sum, maximum].contains(&Held::Not) => Judged::Not(Why::NoSpread),
            _ if usual.carried_on => Judged::Not(Why::CarriedOn),
            _ => Judged::Calm,
        };
        Reading { stats, sum, maximum, judged }
    }

    /// How far the figures lie above, where one can say so.
    pub fn above(&self) -> Option<f64> {
        above(self.sum, self.maximum)
    }

    /// Judges by how often something is done too, where that is nearly drift, or is.
    pub fn or_often(self, often: Option<Often>, drift: f64) -> Reading {
        let judged = match (self.judged, often.map(|often| often.deviations)) {
            (Judged::Drift(above), Some(often)) if above >= often => Judged::Drift(above),
            (_, Some(often)) if often > drift => Judged::Often(often),
            (Judged::Calm | Judged::Not(Why::CarriedOn), Some(_)) => Judged::Not(Why::MoreOften),
            (judged, _) => judged,
        };
        Reading { judged, ..self }
    }
}

fn above(sum: Held, maximum: Held) -> Option<f64> {
    [sum, maximum].into_iter().filter_map(Held::deviations).reduce(f64::max)
}

/// What is told of the whole day.
#[derive(Debug, Clone, Copy, PartialEq, Eq)]
pub enum Verdict {
    /// All of it is judged, and none of it drifts.
    NoDrift,
    /// Some of it drifts, or does what was never seen.
    Drift,
    /// No drift is found in what is judged, and not all of it is.
    NotAllJudged,
}

/// Why a path is not judged.
#[derive(Debug, Clone, Copy, PartialEq, Eq, PartialOrd, Ord)]
pub enum Unjudged {
    Reading(Why),
    LeftOut(LeftOut),
}

/// The paths that are not judged for one reason.
#[derive(Debug, Clone, PartialEq, Eq)]
pub struct Part {
    pub why: Unjudged,
    pub paths: usize,
    /// Indexes of the first and last path of each run of them; of many runs the first.
    pub runs: Vec<[usize; 2]>,
    /// The index of the last of all.
    pub last: usize,
}

/// Runs of a part that are kept.
const RUNS: usize = 4;

/// How many paths there are of each kind: judged, not judged or left out.
#[derive(Debug, Clone, Copy, Default, PartialEq, Eq)]
pub struct Tally {
    pub judged: usize,
    pub unjudged: usize,
    pub left_out: usize,
    /// Those that have no reading of their own, judged or not as the one that covers them.
    pub unread: usize,
}

/// The tidies of a book that was full, and dropped entries of paths that had left the window.
#[derive(Debug, Clone, Copy, PartialEq, Eq)]
pub struct Tidied {
    pub times: usize,
    /// The index of the path before the first of them.
    pub first: usize,
    /// Entries that the added paths need in their order and with the day's window, with tidies.
    pub needed: usize,
}

/// All that a report needs.
pub struct Watched {
    pub trained: Option<Trained>,
    /// One for each path of the day.
    pub places: Vec<Place>,
    pub stretches: Vec<Stretch>,
    pub found: Vec<Found>,
    /// What is done more often over the whole day than in the training, so that it is drift or
    /// nearly.
    pub over_day: Vec<Often>,
    pub over_day_drifts: bool,
    /// Paths of the day and of the training that end where the prior has no ending, and are added.
    pub new_endings: [usize; 2],
    /// The nodes with the greatest divergences after the last path, and how many more there are.
    pub nodes: Vec<Moved>,
    pub more_nodes: usize,
    /// Nodes without a prior that the added paths have met.
    pub skipped: usize,
    /// Entries that the added paths need in a book that is not tidied.
    pub needed: usize,
    pub tidied: Option<Tidied>,
}

impl Watched {
    /// The readings, with the indexes of their paths.
    pub fn readings(&self) -> impl DoubleEndedIterator<Item = (usize, &Reading)> {
        self.places.iter().enumerate().filter_map(|(index, place)| match place {
            Place::Read(reading) => Some((index, reading)),
            Place::Unread | Place::LeftOut(_) => None,
        })
    }

    /// What is usual at a length.
    pub fn usual(&self, length: u64) -> Usual {
        self.trained.as_ref().map_or(Usual::UNKNOWN, |trained| trained.usual(length))
    }

    /// What is told of the whole day.
    pub fn verdict(&self) -> Verdict {
        match self.tally() {
            _ if !(self.stretches.is_empty() && self.found.is_empty()) => Verdict::Drift,
            _ if self.over_day_drifts => Verdict::Drift,
            Tally { unjudged: 0, left_out: 0, .. } if self.over_day.is_empty() => Verdict::NoDrift,
            _ => Verdict::NotAllJudged,
        }
    }

    /// For each path why it is not judged; an unread one is as the reading that covers it.
    pub fn judgements(&self) -> Vec<Option<Unjudged>> {
        // The last path that is added has a reading.
        let mut covering = Some(Unjudged::Reading(Why::NothingWatched));
        let judgement = |place: &Place| {
            match place {
                Place::LeftOut(why) => return Some(Unjudged::LeftOut(*why)),
                Place::Read(Reading { judged: Judged::Not(why), .. }) => {
                    covering = Some(Unjudged::Reading(*why))
                }
                Place::Read(_) => covering = None,
                Place::Unread => {}
            }
            covering
        };
        let mut judgements: Vec<Option<Unjudged>> = self.places.iter().rev().map(judgement).collect();
        judgements.reverse();
        judgements
    }

    /// How many paths there are of each kind.
    pub fn tally(&self) -> Tally {
        let mut tally = Tally::default();
        for judgement in self.judgements() {
            match judgement {
                None => tally.judged += 1,
                Some(Unjudged::Reading(_)) => tally.unjudged += 1,
                Some(Unjudged::LeftOut(_)) => tally.left_out += 1,
            }
        }
        tally.unread = self.places.iter().filter(|place| matches!(place, Place::Unread)).count();
        tally
    }

    /// What is not judged, by its reason. What was never seen is a finding and stands elsewhere.
    pub fn unjudged(&self) -> Vec<Part> {
        let mut parts: BTreeMap<Unjudged, Part> = BTreeMap::new();
        for (index, judgement) in self.judgements().into_iter().enumerate() {
            let elsewhere = Unjudged::LeftOut(LeftOut::NeverSeen);
            let Some(why) = judgement.filter(|why| *why != elsewhere) else {
                continue;
            };
            let part = parts.entry(why).or_insert(Part { why, paths: 0, runs: Vec::new(), last: index });
            let kept = part.runs.len();
            match part.runs.last_mut().filter(|run| run[1] == part.last && part.last + 1 == index) {
                Some(run) => run[1] = index,
                None if kept < RUNS => part.runs.push([index, index]),
                None => {}
            }
            (part.paths, part.last) = (part.paths + 1, index);
        }
        let mut parts: Vec<Part> = parts.into_values().collect();
        parts.sort_by_key(|part| part.runs[0]);
        parts
    }
}

#[cfg(test)]
mod tests {
    use super::{Judged, Reading};
    use crate::usual::{Usual, Why};
    use teakpool::{BaselineStats, KLDivergenceStats, MeanVariance};

    /// Statistics with this sum and maximum, 0 for no divergence.
    fn stats(sum: f64, maximum: f64) -> KLDivergenceStats {
        KLDivergenceStats {
            maximum: if maximum > 0.0 { maximum } else { f64::MIN },
            minimum: if maximum > 0.0 { maximum } else { f64::MAX },
            number: u64::from(maximum > 0.0),
            sum,
            sum_of_squares: 0.0,
            sequence_length: 3,
            skipped: 0,
        }
    }

    /// Means of 2, and these variances of sum and maximum.
    fn usual(sum: f64, maximum: f64) -> Usual {
        let of = |variance: f64| MeanVariance { mean: 2.0, variance };
        let (sum, maximum, none) = (of(sum), of(maximum), of(0.0));
        let figures = BaselineStats { maximum, minimum: none, number: none, sum, sum_of_squares: none };
        Usual { figures: Some(figures), unusable: None, carried_on: false }
    }

    fn judged(stats: KLDivergenceStats, usual: Usual) -> Judged {
        Reading::of(stats, 1, usual, 3.0).judged
    }

    #[test]
    fn a_figure_above_a_mean_without_a_spread_is_never_calm() {
        assert_eq!(judged(stats(2.5, 2.1), usual(1.0, 1.0)), Judged::Calm);
        assert_eq!(judged(stats(2.5, 2.1), usual(1.0, 0.0)), Judged::Not(Why::NoSpread));
        assert_eq!(judged(stats(2.5, 2.1), usual(0.0, 1.0)), Judged::Not(Why::NoSpread));
        assert_eq!(judged(stats(2.5, 2.0), usual(1.0, 0.0)), Judged::Calm);
        assert_eq!(judged(stats(6.0, 2.1), usual(1.0, 0.0)), Judged::Drift(4.0));
        // Without a divergence nothing lies above.
        assert_eq!(judged(stats(0.0, 0.0), usual(1.0, f64::INFINITY)), Judged::Calm);
    }

    #[test]
    fn what_is_carried_on_can_drift_but_is_never_calm() {
        let carried_on = Usual { carried_on: true, ..usual(1.0, 1.0) };
        assert_eq!(judged(stats(2.5, 2.1), carried_on), Judged::Not(Why::CarriedOn));
        assert_eq!(judged(stats(6.0, 2.1), carried_on), Judged::Drift(4.0));
    }
}
