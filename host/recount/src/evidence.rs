//! The evidence that readings use: for each listed node its ending's count and its children's
//! counts, ascending, and the sequence length. `of_history` is the recount's listing.

use crate::address::Address;
use std::collections::BTreeMap;

/// The counts of one listed node; listed children may have count 0.
#[derive(Debug, Clone, PartialEq, Eq, Default)]
pub struct NodeEvidence {
    /// Paths that end here.
    pub ending: u32,
    /// Transitions from here, by child.
    pub children: BTreeMap<Address, u32>,
}

impl NodeEvidence {
    /// The total of all counts.
    pub fn total(&self) -> u64 {
        u64::from(self.ending) + self.children.values().map(|count| u64::from(*count)).sum::<u64>()
    }
}

/// All listed nodes, and the sequence length.
#[derive(Debug, Clone, PartialEq, Eq, Default)]
pub struct Evidence {
    /// The listed nodes, ascending.
    pub nodes: BTreeMap<Address, NodeEvidence>,
    /// Paths in the window part.
    pub sequence_len: u32,
}

impl Evidence {
    /// The nodes and transitions listed: the entries that a book needs.
    pub fn entries(&self) -> usize {
        self.nodes.values().map(|node| 1 + node.children.len()).sum()
    }

    /// Nodes and children are listed over `paths` from number `base` on, counts are occurrences in
    /// the last `window` of all, or in all if the window is 0.
    pub fn of_history(window: u32, paths: &[Vec<Address>], base: usize) -> Evidence {
        let mut evidence = Evidence::default();
        for path in &paths[base..] {
            evidence.list(path);
        }
        let window_part = window_part(window, paths);
        for path in window_part {
            evidence.count(path);
        }
        evidence.sequence_len = window_part.len() as u32;
        evidence
    }

    fn list(&mut self, path: &[Address]) {
        for step in path {
            self.nodes.entry(*step).or_default();
        }
        for pair in path.windows(2) {
            self.nodes.entry(pair[0]).or_default().children.entry(pair[1]).or_insert(0);
        }
    }

    fn count(&mut self, path: &[Address]) {
        for pair in path.windows(2) {
            *self.nodes.entry(pair[0]).or_default().children.entry(pair[1]).or_insert(0) += 1;
        }
        if let Some(last) = path.last() {
            self.nodes.entry(*last).or_default().ending += 1;
        }
    }
}

/// The last `window` paths, or all if the window is 0 or there are fewer.
pub fn window_part(window: u32, paths: &[Vec<Address>]) -> &[Vec<Address>] {
    let kept = match window {
        0 => paths.len(),
        _ => paths.len().min(window as usize),
    };
    &paths[paths.len() - kept..]
}
