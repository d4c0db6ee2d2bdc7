//! The nodes that moved: a node's divergence, and its shares in the window beside the prior's and
//! the training's.

use crate::by_node::ByNode;
use crate::day::Day;
use crate::lent::Lent;
use teakpool::{Address, Output, Refusal, Tracker};

/// A node, its divergence, and where its paths went.
#[derive(Debug)]
pub struct Moved {
    pub node: Address,
    pub divergence: f64,
    /// Its mean divergence in the training at the same length, where that is known.
    pub usual: Option<f64>,
    /// Children ascending, then the ending; none where the node is not in the window.
    pub shares: Vec<Share>,
}

/// A child's share of what its node was left for, now, by the prior and in the training where that
/// meets the node; none for the ending.
#[derive(Debug, Clone, Copy)]
pub struct Share {
    pub child: Option<Address>,
    pub now: f64,
    pub prior: f64,
    pub training: Option<f64>,
}

impl Share {
    /// How much it differs from what good days do: a prior can be off on good days too.
    pub fn change(&self) -> f64 {
        (self.now - self.training.unwrap_or(self.prior)).abs()
    }
}

impl Moved {
    /// The share that differs most.
    pub fn most(&self) -> Option<&Share> {
        self.shares.iter().reduce(|one, other| if other.change() > one.change() { other } else { one })
    }
}

/// The divergences of all nodes in the book that have a prior, greatest first.
pub fn divergences(tracker: &Tracker, lent: &Lent, index: u64) -> Result<Vec<(Address, f64)>, Refusal> {
    // Below the floor several nodes can have one prior; each of them has an entry.
    let room = tracker.state().used as usize;
    let (mut addresses, mut figures) = (vec![0; Address::BYTES * room], vec![0.0; room]);
    let mut output = Output { addresses: &mut addresses, figures: &mut figures };
    let list = tracker.all_node_kl(lent.tables(index), lent.priors(), &mut output)?;
    let mut nodes: Vec<(Address, f64)> = output.places(list.places).collect();
    nodes.sort_by(|one, other| other.1.total_cmp(&one.1));
    Ok(nodes)
}

/// Where a node's paths went, now and in the training.
pub fn shares(
    tracker: &Tracker,
    day: &Day,
    by_node: Option<&ByNode>,
    node: Address,
) -> Result<Vec<Share>, Refusal> {
    let Some(prior) = day.priors.of(node) else {
        return Ok(Vec::new());
    };
    let room = prior.children.len();
    let (mut addresses, mut figures) = (vec![0; Address::BYTES * room], vec![0.0; room]);
    let mut output = Output { addresses: &mut addresses, figures: &mut figures };
    let Some(vector) = tracker.evidence_prob_vector(node, &mut output)? else {
        return Ok(Vec::new());
    };
    let seen: Vec<(Address, f64)> = output.places(vector.places).collect();
    let total = prior.total() as f64;
    let now = |child: &Address| seen.iter().find(|(seen, _)| seen == child).map_or(0.0, |(_, share)| *share);
    let share = |child: Option<Address>, now: f64, count: u32| {
        let training = by_node.and_then(|by_node| by_node.share(node, child));
        Share { child, now, prior: f64::from(count) / total, training }
    };
    let children = prior.children.iter().map(|(child, count)| share(Some(*child), now(child), *count));
    Ok(children.chain([share(None, vector.ending, prior.ends)]).collect())
}
