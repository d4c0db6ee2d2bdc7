//! What no good day has done, by the prior and by the training. A path that does so is a finding
//! of its own, however few there are, and is not added:
//!
//! - a node goes on to a child that its prior does not have. As long as it were in the book, every
//!   reading would get refusal 14.
//! - a path ends where the prior has no ending, and no training path ends there. The divergence
//!   leaves such endings out and falls by them, so that they would pass for calm.
//! - a path meets no node that has a prior, and every training path does. Nothing of it is watched.
//!
//! What a training path does too is added, and `seldom` looks at how often it is done.

use crate::day::Day;
use crate::lookup::Priors;
use std::collections::BTreeMap;
use teakpool::Address;

/// What was never seen.
#[derive(Debug, Clone, Copy, PartialEq, Eq, PartialOrd, Ord)]
pub enum NeverSeen {
    /// The node goes on to a child that its prior does not have.
    Child { node: Address, child: Address },
    /// The path ends at a node where none ends by the prior.
    Ending { node: Address },
    /// The path begins here, and no node of it has a prior.
    Unwatched { begins: Address },
}

/// What was never seen, how many paths did it, and where.
#[derive(Debug, Clone, Copy, PartialEq, Eq)]
pub struct Found {
    pub what: NeverSeen,
    pub paths: usize,
    /// The index of the first path, and the step in it, both from 0.
    pub first: usize,
    pub step: usize,
    /// The index of the last path.
    pub last: usize,
}

/// What the prior does not tell of a path, and what a good day may do seldom.
#[derive(Debug, Clone, Copy, PartialEq, Eq, PartialOrd, Ord)]
pub enum Odd {
    /// It ends at a node where none ends by the prior.
    Ending { node: Address },
    /// It meets no node that has a prior.
    Unwatched,
}

/// The paths among these that end where the prior has no ending.
pub fn endings(odd: &BTreeMap<Odd, usize>) -> usize {
    odd.iter().filter(|(odd, _)| matches!(odd, Odd::Ending { .. })).map(|(_, count)| count).sum()
}

/// What is known of good days.
pub struct Known<'a> {
    priors: &'a Priors,
    /// Training paths.
    pub paths: usize,
    /// How many of them do what the prior does not tell.
    odd: BTreeMap<Odd, usize>,
}

impl<'a> Known<'a> {
    /// By the priors and the training of a day's file.
    pub fn of(day: &'a Day) -> Known<'a> {
        let mut known = Known { priors: &day.priors, paths: 0, odd: BTreeMap::new() };
        for steps in day.sequences.iter().flat_map(|sequence| sequence.iter()) {
            known.paths += 1;
            if let Some(odd) = known.odd(steps) {
                *known.odd.entry(odd).or_default() += 1;
            }
        }
        known
    }

    /// How many training paths do it.
    pub fn times(&self, odd: Odd) -> usize {
        self.odd.get(&odd).copied().unwrap_or(0)
    }

    /// Training paths that end where the prior has no ending.
    pub fn new_endings(&self) -> usize {
        endings(&self.odd)
    }

    /// What a path does that was never seen, each with its step.
    pub fn never_seen(&self, steps: &[Address]) -> Vec<(usize, NeverSeen)> {
        let mut never_seen = Vec::new();
        for (step, pair) in steps.windows(2).enumerate() {
            let (node, child) = (pair[0], pair[1]);
            if self.priors.of(node).is_some_and(|prior| !prior.children.contains_key(&child)) {
                never_seen.push((step, NeverSeen::Child { node, child }));
            }
        }
        match self.odd(steps).filter(|odd| self.times(*odd) == 0) {
            Some(Odd::Ending { node }) => never_seen.push((steps.len() - 1, NeverSeen::Ending { node })),
            Some(Odd::Unwatched) if self.paths > 0 => {
                never_seen.push((0, NeverSeen::Unwatched { begins: steps[0] }))
            }
            _ => {}
        }
        never_seen
    }

    /// What the prior does not tell of a path.
    pub fn odd(&self, steps: &[Address]) -> Option<Odd> {
        let node = *steps.last()?;
        match self.priors.of(node) {
            Some(prior) if prior.ends == 0 => Some(Odd::Ending { node }),
            None if !steps.iter().any(|step| self.priors.of(*step).is_some()) => Some(Odd::Unwatched),
            _ => None,
        }
    }
}

/// Notes what a path does that was never seen.
pub fn note(found: &mut BTreeMap<NeverSeen, Found>, index: usize, never_seen: &[(usize, NeverSeen)]) {
    for (step, what) in never_seen {
        let entry = found.entry(*what);
        let one = entry.or_insert(Found { what: *what, paths: 0, first: index, step: *step, last: index });
        // Twice in one path is one path.
        if one.paths == 0 || one.last != index {
            one.paths += 1;
        }
        one.last = index;
    }
}

#[cfg(test)]
mod tests {
    use super::{note, Found, Known, NeverSeen};
    use crate::day::Day;
    use crate::reader::read;
    use std::collections::BTreeMap;
    use teakpool::Address;

    const PRIORS: &str = "prior 2/0 0 1/0 5 1/1 5\nprior 1/0 4 0/0 1\n";

    fn day(training: &[&str], paths: &str) -> Day {
        let training: String = training.iter().map(|path| format!("sequence\npath {}\n", path)).collect();
        read(format!("{}{}day\npath {}", PRIORS, training, paths).as_bytes()).expect("a day")
    }

    fn never_seen(training: &[&str], path: &str) -> Vec<(usize, NeverSeen)> {
        let day = day(training, path);
        Known::of(&day).never_seen(day.paths.steps(0))
    }

    fn address(scale: i32, point: u32) -> Address {
        Address::new(scale, point)
    }

    #[test]
    fn a_child_that_the_prior_does_not_have() {
        let child = NeverSeen::Child { node: address(1, 0), child: address(0, 9) };
        assert_eq!(never_seen(&["2/0 1/0"], "2/0 1/0 0/9"), [(1, child)]);
        // A node without a prior may go on to any.
        assert_eq!(never_seen(&["2/0 1/0"], "2/0 1/1 0/9"), []);
    }

    #[test]
    fn an_ending_that_neither_the_prior_nor_the_training_has() {
        let ending = NeverSeen::Ending { node: address(2, 0) };
        assert_eq!(never_seen(&["2/0 1/0"], "2/0"), [(0, ending)]);
        assert_eq!(never_seen(&[], "2/0"), [(0, ending)]);
        assert_eq!(never_seen(&["2/0 1/0", "2/0"], "2/0"), []);
        assert_eq!(Known::of(&day(&["2/0 1/0", "2/0"], "2/0")).new_endings(), 1);
        // An ending elsewhere does not make this one usual.
        let two = "prior 3/0 0 2/0 5\nsequence\npath 3/0\nday\npath 3/0 2/0";
        let day = read(format!("{}{}", PRIORS, two).as_bytes()).expect("a day");
        assert_eq!(Known::of(&day).never_seen(day.paths.steps(0)), [(1, ending)]);
        // It has endings by its prior, or no prior.
        assert_eq!(never_seen(&["2/0 1/0"], "2/0 1/0"), []);
        assert_eq!(never_seen(&["2/0 1/0"], "2/0 1/1"), []);
    }

    #[test]
    fn below_the_floor_the_prior_with_the_point_tells_what_was_seen() {
        let text = "prior -5/7 0 -6/9 5\nfloor -3\nday\npath -4/7 -6/8\npath -4/7\npath -3/7 -6/8\n";
        let day = read(text.as_bytes()).expect("a day");
        let (node, child) = (address(-4, 7), address(-6, 8));
        let never_seen = |path: usize| Known::of(&day).never_seen(day.paths.steps(path));
        assert_eq!(never_seen(0), [(0, NeverSeen::Child { node, child })]);
        assert_eq!(never_seen(1), [(0, NeverSeen::Ending { node })]);
        assert_eq!(never_seen(2), []);
    }

    #[test]
    fn a_path_of_which_nothing_is_watched() {
        let unwatched = NeverSeen::Unwatched { begins: address(7, 7) };
        assert_eq!(never_seen(&["2/0 1/0"], "7/7 6/6"), [(0, unwatched)]);
        assert_eq!(never_seen(&["2/0 1/0", "8/8"], "7/7 6/6"), []);
        assert_eq!(never_seen(&[], "7/7 6/6"), []);
        assert_eq!(never_seen(&["2/0 1/0"], "7/7 1/0"), []);
    }

    #[test]
    fn paths_are_counted_once_with_the_first_place() {
        let what = NeverSeen::Child { node: address(1, 0), child: address(0, 9) };
        let mut found = BTreeMap::new();
        note(&mut found, 3, &[(2, what), (5, what)]);
        note(&mut found, 8, &[(0, what)]);
        let all: Vec<Found> = found.into_values().collect();
        assert_eq!(all, [Found { what, paths: 2, first: 3, step: 2, last: 8 }]);
    }
}
