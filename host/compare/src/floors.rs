//! What was met of floors: priors that the point alone found, what a floor keeps apart, and 22.

use crate::met::Met;
use cases::baselines::Training;
use cases::calls::{Call, PriorBytes};
use cases::play::Answer;
use recount::{check_priors, Address, Priors, Refusal, Tracker};
use std::collections::BTreeSet;

const BY_POINT: &str = "readings that find a prior by point alone";
const SHARED: &str = "readings of all nodes in which two have one prior";
const KEPT_APART: &str = "readings with a node whose point has a record on the other side of the floor alone";
const NAMED: &str = "refusals by 14 or 15 that name a node whose prior's record has another address";
const CLASHES: &str = "readings refused with 22";
const TRAININGS: &str = "trainings that find a prior by point alone";
const TRAINING_CLASHES: &str = "trainings refused with 22";
const WITH_GOKO: &str = "calls held against goko that find a prior by point alone";
const PAST_32_BITS: &str = "calls not compared with goko, whose index of a layer leaves 32 bits";

/// What is to be met without goko and with it.
pub const MET: [&str; 7] = [BY_POINT, SHARED, KEPT_APART, NAMED, CLASHES, TRAININGS, TRAINING_CLASHES];
pub const MET_WITH_GOKO: [&str; 2] = [WITH_GOKO, PAST_32_BITS];

impl Met {
    /// Counts a reading of `tracker` that was lent `priors`.
    pub fn reading(&mut self, call: &Call, answer: &Answer, tracker: &impl Tracker, priors: &PriorBytes) {
        let refusal = answer.refusal();
        self.count(CLASHES, refusal.is_some_and(|refusal| refusal.number == 22));
        let Some(priors) = with_floor(priors) else {
            return;
        };
        match refusal {
            None => {
                let nodes = call.looked_up(tracker);
                self.count(BY_POINT, by_point(&priors, &nodes));
                self.count(SHARED, shared(&priors, &nodes));
                self.count(KEPT_APART, nodes.iter().any(|node| kept_apart(&priors, *node)));
            }
            Some(refusal) => self.count(NAMED, refusal.node.is_some_and(|node| by_point(&priors, &[node]))),
        }
    }

    /// Counts a training.
    pub fn training(&mut self, training: &Training, answer: Result<u32, Refusal>) {
        self.count(TRAINING_CLASHES, matches!(answer, Err(Refusal { number: 22, .. })));
        let found = |priors: Priors| by_point(&priors, &training.nodes());
        self.count(TRAININGS, answer.is_ok() && with_floor(&training.priors).is_some_and(found));
    }

    /// Counts a call that looks these nodes up in `priors` and has an answer of goko's; false where
    /// goko has none, since its index of a layer leaves 32 bits.
    pub fn goko_answers(&mut self, nodes: &[Address], priors: &PriorBytes) -> bool {
        let comparable = nodes.iter().all(|node| has_layer(priors.floor, node.scale));
        self.count(PAST_32_BITS, !comparable);
        let found = |priors: Priors| by_point(&priors, nodes);
        self.count(WITH_GOKO, comparable && with_floor(priors).is_some_and(found));
        comparable
    }
}

/// Priors that are not refused, where some scale is below their floor.
fn with_floor(priors: &PriorBytes) -> Option<Priors> {
    check_priors(priors.lent()).ok().filter(|priors| priors.floor != i32::MIN)
}

/// Whether one of the nodes has a prior whose record has another address.
fn by_point(priors: &Priors, nodes: &[Address]) -> bool {
    nodes.iter().any(|node| priors.found_by_point(*node))
}

/// Whether two of the nodes have one prior.
fn shared(priors: &Priors, nodes: &[Address]) -> bool {
    let found: Vec<Address> =
        nodes.iter().filter_map(|node| priors.node(*node)).map(|prior| prior.address).collect();
    found.iter().collect::<BTreeSet<_>>().len() < found.len()
}

/// Whether a node has no prior, though a record on the other side of the floor has its point.
fn kept_apart(priors: &Priors, node: Address) -> bool {
    let below = |node: Address| node.scale < priors.floor;
    let other_side = |record: Address| record.point == node.point && below(record) != below(node);
    priors.node(node).is_none() && priors.nodes.iter().any(|prior| other_side(prior.address))
}

/// Whether goko's `scale - floor + 1` stays within 32 bits. Where no scale is below the floor the
/// index is compared though it wraps, since it still tells all scales apart.
pub fn has_layer(floor: i32, scale: i32) -> bool {
    let index = scale.checked_sub(floor).and_then(|above| above.checked_add(1));
    floor == i32::MIN || scale < floor || index.is_some()
}
