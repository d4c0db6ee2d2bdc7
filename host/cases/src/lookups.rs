//! Look-ups of children in priors, around the chains there.

use crate::calls::PriorBytes;
use crate::paths::{below, FOREIGN};
use crate::priors;
use crate::rng::Rng;
use recount::limits::RECORD_BYTES;
use recount::{check_priors, Address, ChildLookup, Prior, Priors, Refusal};

/// Look-ups of a random case, and of one with long chains.
const FEW: usize = 8;
const MANY: usize = 80;

/// Priors with the nodes and children to look up in them.
#[derive(Debug, Clone)]
pub struct PriorsCase {
    /// The priors.
    pub priors: PriorBytes,
    /// A node, and a child under it.
    pub asked: Vec<(Address, Address)>,
}

/// What a look-up gives.
pub type Looked = Result<ChildLookup, Refusal>;

impl PriorsCase {
    /// The recount's answers to all of them; `checked` is what 3 to 7 and 22 say of the priors.
    pub fn answers(&self, checked: &Result<Priors, Refusal>) -> Vec<Looked> {
        let answer = |(node, child): &(Address, Address)| match checked {
            Ok(priors) => Ok(priors.child(*node, *child)),
            Err(refusal) => Err(*refusal),
        };
        self.asked.iter().map(answer).collect()
    }
}

/// Some look-ups in the priors given; now and then in ones with long chains instead.
pub fn random(rng: &mut Rng, given: PriorBytes) -> PriorsCase {
    let (priors, most) = if rng.chance(4) { (priors::wide(rng), MANY) } else { (given, FEW) };
    let chains = chains(&priors);
    let asked = (0..most).map(|_| one(rng, &chains, priors.floor)).collect();
    PriorsCase { priors, asked }
}

/// Under each of these node records, all children of its chain and all that lies around them.
pub fn every(priors: PriorBytes, nodes: &[Address]) -> PriorsCase {
    let chosen = chains(&priors).into_iter().filter(|(node, _)| nodes.contains(node));
    let under = |(node, chain): (Address, Vec<Address>)| {
        chain.into_iter().flat_map(around).map(move |child| (node, child))
    };
    PriorsCase { asked: chosen.flat_map(under).collect(), priors }
}

/// Each node record with its chain; where the priors are refused, with all child records.
fn chains(lent: &PriorBytes) -> Vec<(Address, Vec<Address>)> {
    let addresses =
        |records: &[u8]| -> Vec<Address> { records.chunks_exact(RECORD_BYTES).map(Address::read).collect() };
    match check_priors(lent.lent()) {
        Ok(priors) => priors.nodes.iter().map(|prior| (prior.address, chain_of(prior))).collect(),
        Err(_) => addresses(&lent.nodes).into_iter().map(|node| (node, addresses(&lent.children))).collect(),
    }
}

/// The addresses of a prior's chain.
pub(crate) fn chain_of(prior: &Prior) -> Vec<Address> {
    prior.children.iter().map(|(child, _)| *child).collect()
}

/// A look-up of a child or of what lies around one, often the first or the last of its chain; of a node
/// by its record's address, by its point alone, or by an address that may have no record.
fn one(rng: &mut Rng, chains: &[(Address, Vec<Address>)], floor: i32) -> (Address, Address) {
    let Some((record, chain)) = (!chains.is_empty()).then(|| &chains[rng.below(chains.len())]) else {
        return (FOREIGN, FOREIGN);
    };
    let node = match rng.below(10) {
        0 => Address::new(record.scale, record.point ^ 1),
        1..=3 if floor != i32::MIN => Address::new(below(rng, floor), record.point),
        _ => *record,
    };
    let near = match rng.below(4) {
        0 => chain.first().copied(),
        1 => chain.last().copied(),
        _ => (!chain.is_empty()).then(|| rng.pick(chain)),
    };
    let near = near.unwrap_or(*record);
    (node, if rng.chance(30) { near } else { rng.pick(&around(near)) })
}

/// A child, the addresses next to it, its point at other scales, with the other sign among them, other
/// points at its scale, and the least and the greatest address.
fn around(child: Address) -> [Address; 10] {
    let Address { scale, point } = child;
    [
        (scale, point),
        (scale, point.wrapping_sub(1)),
        (scale, point.wrapping_add(1)),
        (scale, point ^ 0x8000_0000),
        (scale.wrapping_sub(1), point),
        (scale.wrapping_add(1), point),
        (scale.wrapping_neg(), point),
        (!scale, point),
        (i32::MIN, 0),
        (i32::MAX, u32::MAX),
    ]
    .map(|(scale, point)| Address::new(scale, point))
}
