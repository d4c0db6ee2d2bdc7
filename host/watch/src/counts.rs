//! How often the nodes that have a prior stand in the window, as it slides over the paths. A
//! reading looks into the tables as far as a node's prior total and its visits in the window
//! together, and tests every entry that it is lent; so these counts say how much has to be lent,
//! and which path would pass the tables' end.

use crate::day::{Day, Paths};
use crate::lookup::Priors;
use std::collections::{HashMap, VecDeque};
use teakpool::Address;

/// A node with a prior: the prior's total, and its visits in the window. Two nodes can have one
/// prior, and each has its own visits.
#[derive(Clone, Copy)]
struct Node {
    prior: u64,
    visits: u64,
}

impl Node {
    /// A node that is not visited, if it has a prior.
    fn of(priors: &Priors, address: Address) -> Option<Node> {
        priors.of(address).map(|prior| Node { prior: prior.total(), visits: 0 })
    }
}

/// The counts, with the paths that are in the window.
pub struct Counts<'a> {
    priors: &'a Priors,
    paths: &'a Paths,
    window: usize,
    /// The nodes that were met; none for one without a prior.
    nodes: HashMap<Address, Option<Node>>,
    greatest_prior: u64,
    /// Indexes of the paths in the window; none are kept where all paths count.
    held: VecDeque<usize>,
    visits: u64,
    greatest: u64,
}

impl<'a> Counts<'a> {
    /// Nothing is counted yet; a window of 0 keeps all.
    pub fn new(day: &'a Day, paths: &'a Paths, window: u32) -> Counts<'a> {
        let (priors, nodes) = (&day.priors, HashMap::new());
        let greatest_prior = priors.iter().map(|(_, prior)| prior.total()).max().unwrap_or(0);
        let (window, held) = (window as usize, VecDeque::new());
        Counts { priors, paths, window, nodes, greatest_prior, held, visits: 0, greatest: 1 }
    }

    /// The path that leaves the window when one is added.
    fn leaving(&self) -> &'a [Address] {
        let full = self.window > 0 && self.held.len() == self.window;
        self.held.front().filter(|_| full).map_or(&[], |index| self.paths.steps(*index))
    }

    /// Whether no node's prior and visits can pass `last_index` with so many more steps.
    pub fn far_from_end(&self, steps: usize, last_index: u64) -> bool {
        self.greatest_prior + self.visits + steps as u64 <= last_index
    }

    /// The first node, ascending, whose prior and visits would pass `last_index` with this path.
    pub fn past_end(&self, index: usize, last_index: u64) -> Option<Address> {
        let steps = self.paths.steps(index);
        if self.far_from_end(steps.len(), last_index) {
            return None;
        }
        let leaving = self.leaving();
        let times = |steps: &[Address], node: &Address| steps.iter().filter(|step| *step == node).count();
        let passes = |address: &&Address| {
            let met = self.nodes.get(address).copied();
            met.unwrap_or_else(|| Node::of(self.priors, **address)).is_some_and(|node| {
                let after = node.prior + node.visits + times(steps, address) as u64;
                after - times(leaving, address) as u64 > last_index
            })
        };
        steps.iter().filter(passes).min().copied()
    }

    /// Counts a path, and takes the one that leaves the window away.
    pub fn add(&mut self, index: usize) {
        let (priors, steps, leaving) = (self.priors, self.paths.steps(index), self.leaving());
        for step in steps {
            if let Some(node) = self.nodes.entry(*step).or_insert_with(|| Node::of(priors, *step)) {
                node.visits += 1;
                self.visits += 1;
            }
        }
        for step in leaving {
            if let Some(Some(node)) = self.nodes.get_mut(step) {
                node.visits -= 1;
                self.visits -= 1;
            }
        }
        let together = steps.iter().filter_map(|step| self.nodes.get(step).copied().flatten());
        let most = together.map(|node| node.prior + node.visits).max().unwrap_or(0);
        self.greatest = self.greatest.max(most);
        if self.window > 0 {
            if self.held.len() == self.window {
                self.held.pop_front();
            }
            self.held.push_back(index);
        }
    }

    /// Nodes without a prior that were met.
    pub fn without_prior(&self) -> usize {
        self.nodes.values().filter(|node| node.is_none()).count()
    }

    /// Visits of nodes with a prior in the window.
    pub fn visits(&self) -> u64 {
        self.visits
    }

    /// The greatest index that a table was read at so far; 1 at least, as tables have it.
    pub fn greatest(&self) -> u64 {
        self.greatest
    }
}

#[cfg(test)]
mod tests {
    use super::Counts;
    use crate::reader::read;
    use teakpool::Address;

    const DAY: &str = "prior 1/7 1 0/7 2 0/9 3\nprior 0/9 4\nday\n\
                       path 1/7 0/9\npath 1/7 1/7 0/8\npath 0/9\npath 1/7\n";

    fn greatest(window: u32) -> Vec<(u64, u64)> {
        let day = read(DAY.as_bytes()).expect("the lines can be taken");
        let mut counts = Counts::new(&day, &day.paths, window);
        let mut after = |index| {
            counts.add(index);
            (counts.visits(), counts.greatest())
        };
        (0..day.paths.len()).map(&mut after).collect()
    }

    #[test]
    fn the_window_slides_over_the_visits() {
        assert_eq!(greatest(0), [(2, 7), (4, 9), (5, 9), (6, 10)]);
        assert_eq!(greatest(1), [(2, 7), (2, 8), (1, 8), (1, 8)]);
        assert_eq!(greatest(2), [(2, 7), (4, 9), (3, 9), (2, 9)]);
    }

    #[test]
    fn nodes_that_share_a_prior_have_their_own_visits() {
        let text = "prior -5/7 6\nfloor -3\nday\npath -4/7 -5/7\npath -4/7\npath -3/7\n";
        let day = read(text.as_bytes()).expect("the lines can be taken");
        let mut counts = Counts::new(&day, &day.paths, 0);
        assert_eq!((counts.past_end(0, 6), counts.past_end(0, 7)), (Some(Address::new(-5, 7)), None));
        counts.add(0);
        assert_eq!((counts.visits(), counts.greatest()), (2, 7));
        assert_eq!((counts.past_end(1, 7), counts.past_end(2, 7)), (Some(Address::new(-4, 7)), None));
        counts.add(1);
        counts.add(2);
        assert_eq!((counts.visits(), counts.greatest()), (3, 8));
    }

    #[test]
    fn a_path_that_passes_the_end_is_found_before_it_is_added() {
        let day = read(DAY.as_bytes()).expect("the lines can be taken");
        let mut counts = Counts::new(&day, &day.paths, 1);
        assert_eq!(counts.past_end(0, 6), Some(Address::new(1, 7)));
        assert_eq!(counts.past_end(0, 7), None);
        counts.add(0);
        // The path before it leaves, so two visits are left.
        assert_eq!(counts.past_end(1, 7), Some(Address::new(1, 7)));
        assert_eq!(counts.past_end(1, 8), None);
    }
}
