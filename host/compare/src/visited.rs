//! Holds a tracker's counts to the visits of its nodes, after every call from an accepted opening on, and
//! tells what was met of visits. The counts are read from the tracker's bytes, or are goko's.

use crate::entries::entries;
use crate::kept::Kept;
use crate::met::Met;
use crate::{must, Compared};
use cases::calls::Call;
use cases::play::Answer;
use recount::{step_count, visits, Address};
use std::collections::{BTreeMap, BTreeSet};

const HELD: &str = "calls after which all counts were held to the visits";
const REFUSED: &str = "refused calls among these";
const ANEW: &str = "openings among these that follow accepted adds";
const TWICE: &str = "paths taken that visit a node more than once";
const TO_ITSELF: &str = "paths taken that go from a node to itself";
const ALL_LEFT: &str = "adds after which a listed node's total is 0, since its paths have left the window";
const TIDIED: &str = "tidies among these, after which no listed node's total is 0";
const BEGAN: &str = "adds after which a node has visits, and a path that began at it has left the window";
const WITH_GOKO: &str = "openings and adds after which goko's totals were held to the visits";
const ZERO_IN_GOKO: &str = "adds among these after which a node's total is 0 in goko, too";

/// What is to be met without goko and with it.
pub const MET: [&str; 8] = [HELD, REFUSED, ANEW, TIDIED, TWICE, TO_ITSELF, ALL_LEFT, BEGAN];
pub const MET_WITH_GOKO: [&str; 2] = [WITH_GOKO, ZERO_IN_GOKO];

/// A listed node and its evidence total.
pub type Total = (Address, u64);

/// What the window part tells of its nodes.
#[derive(Debug, Default)]
pub struct Visited {
    visits: BTreeMap<Address, u64>,
    /// The nodes that a path of the window part holds, told by the steps alone.
    held: BTreeSet<Address>,
    steps: u64,
    /// The nodes that a path which has left the window began at.
    began: BTreeSet<Address>,
}

impl Visited {
    /// Takes in a call and its answer, which `kept` has heard.
    pub fn hear(&mut self, kept: &Kept, call: &Call, answer: &Answer) {
        match (call, answer) {
            (Call::Open { .. }, Answer::Changed(Ok(()))) => *self = Visited::default(),
            _ if !kept.added().is_empty() => {
                let window_part = kept.window_part();
                self.visits = visits(window_part);
                self.held = window_part.iter().flatten().copied().collect();
                self.steps = step_count(window_part);
                let left = kept.paths.len() - window_part.len();
                self.began = kept.paths[..left].iter().map(|path| path[0]).collect();
            }
            _ => {}
        }
    }

    /// Takes in a call and its answer, which `kept` has heard, and holds what the book's used entries then
    /// count to the visits. After a tidy every listed node has some.
    pub fn hold(
        &mut self,
        kept: &Kept,
        call: &Call,
        answer: &Answer,
        (used, book): (u32, &[u8]),
        met: &mut Met,
    ) -> Compared {
        let had_paths = self.steps > 0;
        self.hear(kept, call, answer);
        let totals = totals(used, book)?;
        self.hold_totals(&totals)?;
        met.count(HELD, true);
        met.count(REFUSED, answer.refusal().is_some());
        match (call, answer) {
            (Call::Open { .. }, Answer::Changed(Ok(()))) => met.count(ANEW, had_paths),
            _ if !kept.added().is_empty() => met.added(kept, self, &totals),
            (Call::Tidy, Answer::Changed(Ok(()))) => {
                let without = totals.iter().find(|(_, total)| *total == 0);
                must(without.is_none(), || format!("{:?} is listed after a tidy", without))?;
                met.count(TIDIED, true);
            }
            _ => {}
        }
        Ok(())
    }

    /// Holds the evidence totals of all listed nodes, ascending, to the visits: each is its node's visits,
    /// and 0 just where no path of the window part holds the node; nodes that are not listed have none;
    /// all together are the window part's steps.
    pub fn hold_totals(&self, totals: &[Total]) -> Compared {
        for (node, total) in totals {
            let visits = self.visits.get(node).copied().unwrap_or(0);
            must(*total == visits, || format!("{:?} has a total of {} and {} visits", node, total, visits))?;
            must((*total > 0) == self.held.contains(node), || {
                format!("{:?} has a total of {}, and the window part holds {:?}", node, total, self.held)
            })?;
        }
        let listed = |node: &Address| totals.binary_search_by_key(node, |(listed, _)| *listed).is_ok();
        let lost = self.visits.keys().find(|node| !listed(node));
        must(lost.is_none(), || format!("{:?} has visits and is not listed", lost))?;
        let counts: u64 = totals.iter().map(|(_, total)| total).sum();
        must(counts == self.steps, || format!("all counts are {}, the steps {}", counts, self.steps))
    }
}

/// The evidence totals of all listed nodes, as the used entries have them.
fn totals(used: u32, book: &[u8]) -> Result<Vec<Total>, String> {
    let mut totals: Vec<Total> = Vec::new();
    for ((node, child), count) in entries(used, book) {
        match totals.last_mut() {
            _ if child.is_none() => totals.push((node, count)),
            Some((listed, total)) if *listed == node => *total += count,
            _ => return Err(format!("{:?} has a child's entry and is not listed", node)),
        }
    }
    Ok(totals)
}

impl Met {
    /// Counts an add that took a path or more, after which the listed nodes have these totals.
    fn added(&mut self, kept: &Kept, visited: &Visited, totals: &[Total]) {
        for path in kept.added() {
            let by_this_path = visits(std::slice::from_ref(path));
            self.count(TWICE, by_this_path.values().any(|visits| *visits > 1));
            self.count(TO_ITSELF, path.windows(2).any(|pair| pair[0] == pair[1]));
        }
        self.count(ALL_LEFT, totals.iter().any(|(_, total)| *total == 0));
        self.count(BEGAN, visited.began.iter().any(|node| visited.visits.contains_key(node)));
    }

    /// Counts an opening or an add after which goko's totals are these, and were held to the visits.
    pub fn goko_visited(&mut self, totals: &[Total]) {
        self.count(WITH_GOKO, true);
        self.count(ZERO_IN_GOKO, totals.iter().any(|(_, total)| *total == 0));
    }
}
