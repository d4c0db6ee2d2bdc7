//! What good days do seldom: endings where the prior has none, and paths that meet no node with a
//! prior. The divergences fall by both, so that more and more of them would pass for calm. How
//! often the last paths do so is held against how often the training does, in deviations too.

use crate::known::{endings, Known, Odd};
use std::collections::{BTreeMap, VecDeque};

/// From this share of the deviations that are drift on, what so many paths do so many times as
/// often as in the training does not pass for calm.
const NEARLY: f64 = 2.0 / 3.0;
const NEARLY_PATHS: usize = 2;
const NEARLY_TIMES: usize = 3;

/// How often something is done, beside the training.
#[derive(Debug, Clone, Copy, PartialEq)]
pub struct Often {
    pub what: Odd,
    /// So many of so many paths do it.
    pub paths: usize,
    pub of: usize,
    /// And so many of so many in the training.
    pub in_training: usize,
    pub training: usize,
    pub deviations: f64,
}

impl Often {
    /// True where it is done at least so many times as often as in the training.
    fn is_times(&self, times: usize) -> bool {
        self.paths * self.training >= times * self.in_training * self.of
    }

    /// True where it is drift, or nearly.
    fn is_above(&self, drift: f64) -> bool {
        let many = self.paths >= NEARLY_PATHS && self.is_times(NEARLY_TIMES);
        let limit = if many { NEARLY * drift } else { drift };
        self.deviations > limit
    }
}

/// What the paths do, as the day goes by.
pub struct Rates {
    /// Paths that are looked at together.
    window: usize,
    last: VecDeque<Option<Odd>>,
    in_last: BTreeMap<Odd, usize>,
    all: BTreeMap<Odd, usize>,
    paths: usize,
}

impl Rates {
    /// Over so many paths, 1 or more.
    pub fn over(window: usize) -> Rates {
        let (in_last, all) = (BTreeMap::new(), BTreeMap::new());
        Rates { window, last: VecDeque::new(), in_last, all, paths: 0 }
    }

    /// Counts what a path does, and takes the one that leaves the window away.
    pub fn add(&mut self, odd: Option<Odd>) {
        self.paths += 1;
        let leaving = if self.last.len() == self.window { self.last.pop_front() } else { None };
        self.last.push_back(odd);
        if let Some(odd) = odd {
            *self.in_last.entry(odd).or_default() += 1;
            *self.all.entry(odd).or_default() += 1;
        }
        if let Some(odd) = leaving.flatten() {
            let left = self.in_last.get(&odd).map_or(0, |count| count - 1);
            match left {
                0 => drop(self.in_last.remove(&odd)),
                left => drop(self.in_last.insert(odd, left)),
            }
        }
    }

    /// What the last paths do furthest above the training, where that is drift or nearly.
    pub fn most(&self, known: &Known, drift: f64) -> Option<Often> {
        let by_deviations = |one: &Often, other: &Often| one.deviations.total_cmp(&other.deviations);
        above(known, &self.in_last, self.last.len(), drift).max_by(by_deviations)
    }

    /// What all paths together do so.
    pub fn over_day(&self, known: &Known, drift: f64) -> Vec<Often> {
        above(known, &self.all, self.paths, drift).collect()
    }

    /// Paths that end where the prior has no ending.
    pub fn new_endings(&self) -> usize {
        endings(&self.all)
    }
}

/// What is done more often than in the training, so that it is drift or nearly.
fn above<'a>(
    known: &'a Known,
    counts: &'a BTreeMap<Odd, usize>,
    of: usize,
    drift: f64,
) -> impl Iterator<Item = Often> + 'a {
    let more = move |(odd, paths): &(&Odd, &usize)| **paths * known.paths > known.times(**odd) * of;
    let often = move |(odd, paths): (&Odd, &usize)| {
        let (what, paths, in_training, training) = (*odd, *paths, known.times(*odd), known.paths);
        let deviations = deviations([paths, of], [in_training, training]);
        Often { what, paths, of, in_training, training, deviations }
    };
    counts.iter().filter(more).map(often).filter(move |often| often.is_above(drift))
}

/// How far one share lies above another, each so many of so many. Shares differ by chance the less
/// the nearer they are to 0 or 1; their arcs differ nearly alike everywhere.
fn deviations(one: [usize; 2], other: [usize; 2]) -> f64 {
    let arc = |[count, of]: [usize; 2]| ((count as f64 + 0.375) / (of as f64 + 0.75)).sqrt().asin();
    let variance = |[_, of]: [usize; 2]| 0.25 / (of as f64 + 0.5);
    (arc(one) - arc(other)) / (variance(one) + variance(other)).sqrt()
}

#[cfg(test)]
mod tests {
    use super::{deviations, Often, Rates};
    use crate::known::{Known, Odd};
    use crate::reader::read;
    use crate::usual::Why;
    use crate::watched::{Judged, Verdict, Watched};
    use crate::work::watch;
    use cases::rng::Rng;

    #[test]
    fn deviations_grow_with_what_is_more_and_with_how_many_there_are() {
        let at = |one, other| (10.0 * deviations(one, other)).round() / 10.0;
        assert_eq!(at([1, 40], [1, 320]), 1.4);
        assert_eq!(at([4, 40], [1, 320]), 3.2);
        assert_eq!(at([12, 180], [1, 320]), 4.3);
        assert_eq!(at([40, 40], [256, 320]), 4.4);
        assert!(at([10, 40], [80, 320]).abs() < 0.2);
    }

    #[test]
    fn a_common_path_is_not_nearly_too_often_and_one_path_is_not() {
        let above = |[paths, of]: [usize; 2], [in_training, training]: [usize; 2]| {
            let deviations = deviations([paths, of], [in_training, training]);
            let often = Often { what: Odd::Unwatched, paths, of, in_training, training, deviations };
            often.is_above(3.0)
        };
        assert!(above([2, 40], [1, 320]) && above([3, 4], [1, 12]));
        assert!(!above([1, 1], [1, 320]) && !above([15, 40], [64, 320]));
        assert!(above([20, 40], [64, 320]));
    }

    /// Of a thousand good days of 260 paths, on which so many of a hundred end where the prior has
    /// no ending, as in 320 training paths: how many are told as drift or never seen, and as nearly.
    fn good_days(percent: usize) -> [usize; 2] {
        let mut told = [0; 2];
        for seed in 0..1_000 {
            let mut random = Rng::new(seed);
            let mut paths = |count: usize| -> String {
                (0..count)
                    .map(|_| if random.chance(percent) { "path 2/0\n" } else { "path 2/0 1/0\n" })
                    .collect()
            };
            let text = format!("prior 2/0 0 1/0 1\nsequence\n{}day\n{}", paths(320), paths(260));
            let day = read(text.as_bytes()).expect("the day can be read");
            let (known, mut rates) = (Known::of(&day), Rates::over(40));
            let mut most = f64::MIN;
            for steps in day.paths.iter() {
                if !known.never_seen(steps).is_empty() {
                    most = f64::MAX;
                    continue;
                }
                rates.add(known.odd(steps));
                most = rates.most(&known, 3.0).map_or(most, |often| most.max(often.deviations));
            }
            most = rates.over_day(&known, 3.0).iter().map(|often| often.deviations).fold(most, f64::max);
            told[0] += usize::from(most > 3.0);
            told[1] += usize::from(most > 0.0 && most <= 3.0);
        }
        told
    }

    #[test]
    fn good_days_are_seldom_told() {
        // docs/REPORT.md has these numbers.
        assert_eq!([1, 5, 20].map(good_days), [[42, 121], [25, 223], [35, 64]]);
    }

    /// Eight sequences that differ, the first with one path more of an odd kind, and a day.
    fn watched(odd: &str, day: &str) -> Watched {
        watched_in(20, odd, day)
    }

    fn watched_in(window: usize, odd: &str, day: &str) -> Watched {
        let priors = "prior 2/0 0 1/0 50 1/1 50\nprior 1/0 30 0/0 10\nprior 1/1 20 0/0 20\n";
        let path = |number: usize| ["2/0 1/0", "2/0 1/1 0/0", "2/0 1/1", "2/0 1/0 0/0"][number % 4];
        let paths = |from: usize| (from..from + 19).map(|n| format!("path {}\n", path(n * n + n / 3)));
        let sequence = |number: usize| {
            let last = if number == 0 { odd } else { "2/0 1/0" };
            format!("sequence\n{}path {}\n", paths(5 * number).collect::<String>(), last)
        };
        let training: String = (0..8).map(sequence).collect();
        let head = format!("window {}\n{}{}", window, priors, training);
        let text = format!("{}day\n{}{}", head, paths(10).collect::<String>(), day);
        watch(&read(text.as_bytes()).expect("the day can be read")).expect("the day can be run")
    }

    fn repeated(odd: &str, count: usize) -> Verdict {
        watched(odd, &format!("path {}\n", odd).repeat(count)).verdict()
    }

    #[test]
    fn one_odd_path_of_the_training_does_not_hide_many() {
        // Broken off at 2/0, and none of it watched.
        for odd in ["2/0", "9/9 8/8"] {
            assert_eq!(repeated(odd, 1), Verdict::NoDrift, "{}", odd);
            assert_eq!(repeated(odd, 19), Verdict::Drift, "{}", odd);
            let watched = watched(odd, &format!("path {}\n", odd).repeat(19));
            let often = watched.stretches.iter().filter_map(|stretch| stretch.often).next_back();
            let often = often.expect("a stretch by how often it is done");
            assert_eq!((often.in_training, often.training, often.of), (1, 160, 20));
            assert!(watched.readings().any(|(_, reading)| matches!(reading.judged, Judged::Often(_))));
        }
    }

    #[test]
    fn a_small_window_does_not_hide_them() {
        let calm = "path 2/0 1/0\npath 2/0 1/1\n".repeat(300);
        let few = format!("{}{}", "path 2/0\n".repeat(4), calm);
        for window in [1, 2, 5, 20] {
            let watched = watched_in(window, "2/0", &few);
            assert!(watched.stretches.iter().any(|stretch| stretch.often.is_some()), "{}", window);
        }
    }

    #[test]
    fn what_is_nearly_too_often_is_not_judged() {
        let watched = watched("2/0", &"path 2/0\n".repeat(2));
        let judged: Vec<Judged> = watched.readings().map(|(_, reading)| reading.judged).collect();
        assert_eq!(judged[18..], [Judged::Calm, Judged::Calm, Judged::Not(Why::MoreOften)]);
        assert_eq!(watched.verdict(), Verdict::NotAllJudged);
    }

    #[test]
    fn a_few_now_and_then_are_found_over_the_whole_day() {
        let calm = "path 2/0 1/0\npath 2/0 1/1\npath 2/0 1/1 0/0\n";
        let every = |paths: usize| format!("{}path 2/0\n", calm.repeat(paths / 3));
        assert!(watched("2/0", &every(22)).over_day.is_empty());
        let nearly = watched("2/0", &every(22).repeat(8));
        assert_eq!((nearly.over_day.len(), nearly.verdict()), (1, Verdict::NotAllJudged));
        assert_eq!(nearly.tally().unjudged, 0);
        let watched = watched("2/0", &every(10).repeat(20));
        assert!(watched.stretches.iter().all(|stretch| stretch.often.is_none()));
        assert_eq!(watched.verdict(), Verdict::Drift);
        assert_eq!((watched.over_day[0].paths, watched.over_day[0].of), (20, 219));
    }
}
