//! Priors: whole ones that know every child, ones that lack nodes and children, with chains
//! that interleave and share tails, ones whose records below a floor lie at other scales than the
//! nodes, and damaged ones.

use crate::calls::PriorBytes;
use crate::paths::{below, floor, universe_around, wide_universe};
use crate::rng::Rng;
use recount::limits::{MAX_CHAIN, RECORD_BYTES, STEP_BYTES};
use recount::{record_bytes, Address};
use std::collections::BTreeMap;
use std::ops::Range;

/// One record of either kind.
#[derive(Clone, Copy)]
struct Record {
    address: Address,
    count: u32,
    link: u32,
}

impl Record {
    fn bytes(&self) -> Vec<u8> {
        record_bytes(self.address, self.count, self.link)
    }
}

/// Priors before they become bytes.
struct Records {
    nodes: Vec<Record>,
    children: Vec<Record>,
}

impl Records {
    fn bytes(&self) -> PriorBytes {
        let bytes = |records: &[Record]| records.iter().flat_map(Record::bytes).collect();
        PriorBytes { nodes: bytes(&self.nodes), children: bytes(&self.children), ..PriorBytes::default() }
    }
}

/// Every node of the universe with every child, so that nothing gives 14. Counts are 1 to
/// `most`, singletons 0 to `most`.
pub fn whole(rng: &mut Rng, universe: &[Address], most: usize) -> PriorBytes {
    records(rng, universe, most, (100, 100)).bytes()
}

/// Some nodes only, each with every child: nodes are skipped, and nothing gives 14.
pub fn fewer_nodes(rng: &mut Rng, universe: &[Address], most: usize) -> PriorBytes {
    records(rng, universe, most, (60, 100)).bytes()
}

/// Each node and each child with a chance of `percent`; chains may go on in one another.
pub fn sparse(rng: &mut Rng, universe: &[Address], most: usize, percent: usize) -> PriorBytes {
    let mut records = records(rng, universe, most, (percent, percent));
    share_tails(rng, &mut records);
    records.bytes()
}

/// Nodes and children, each kind with its own chance in a hundred.
fn records(rng: &mut Rng, universe: &[Address], most: usize, (nodes, children): (usize, usize)) -> Records {
    let mut sorted = universe.to_vec();
    sorted.sort();
    let mut records = Records { nodes: Vec::new(), children: Vec::new() };
    let mut chains: Vec<(usize, Vec<Address>)> = Vec::new();
    for address in &sorted {
        if rng.chance(nodes) {
            let chain: Vec<Address> = sorted.iter().filter(|_| rng.chance(children)).copied().collect();
            let least = usize::from(chain.is_empty());
            let count = rng.between(least, most) as u32;
            chains.push((records.nodes.len(), chain));
            records.nodes.push(Record { address: *address, count, link: 0 });
        }
    }
    lay_out(rng, &mut records, chains, most);
    records
}

/// A few nodes with chains of up to 64 children each, half of them with a floor.
pub fn wide(rng: &mut Rng) -> PriorBytes {
    let mut known = wide_universe(rng, MAX_CHAIN + 3);
    let mut nodes: Vec<Address> = known.drain(..rng.between(1, 3)).collect();
    nodes.sort();
    let mut chains = Vec::new();
    for index in 0..nodes.len() {
        let length = rng.pick(&[0, 1, 2, 31, MAX_CHAIN - 1, MAX_CHAIN, MAX_CHAIN]);
        let mut chain = known[..length].to_vec();
        chain.sort();
        chains.push((index, chain));
        known.reverse();
    }
    let node = |address: Address| Record { address, count: 1 + address.point % 5, link: 0 };
    let mut records = Records { nodes: nodes.into_iter().map(node).collect(), children: Vec::new() };
    lay_out(rng, &mut records, chains, 1 << 20);
    share_tails(rng, &mut records);
    let floor = floor(rng, 50);
    floored(rng, records.bytes(), floor)
}

/// Puts the chains' records down in a random mixture, each chain in its own order.
fn lay_out(rng: &mut Rng, records: &mut Records, mut chains: Vec<(usize, Vec<Address>)>, most: usize) {
    let mut last_of_node: Vec<Option<usize>> = vec![None; records.nodes.len()];
    chains.retain(|(_, chain)| !chain.is_empty());
    while !chains.is_empty() {
        let index = rng.below(chains.len());
        let (node, chain) = &mut chains[index];
        let count = rng.between(1, most) as u32;
        records.children.push(Record { address: chain.remove(0), count, link: 0 });
        let number = records.children.len() as u32;
        match last_of_node[*node] {
            None => records.nodes[*node].link = number,
            Some(last) => records.children[last].link = number,
        }
        last_of_node[*node] = Some(number as usize - 1);
        chains.retain(|(_, chain)| !chain.is_empty());
    }
}

/// Lets some chains go on at a later record with a higher address, and some nodes without
/// children begin at any record.
fn share_tails(rng: &mut Rng, records: &mut Records) {
    let total = records.children.len();
    for index in 0..total {
        let own = records.children[index];
        let later = (index + 1..total).find(|later| records.children[*later].address > own.address);
        if own.link == 0 && rng.chance(15) {
            records.children[index].link = later.map_or(0, |later| later as u32 + 1);
        }
    }
    for node in &mut records.nodes {
        if node.link == 0 && total > 0 && rng.chance(50) {
            node.link = rng.between(1, total) as u32;
        }
    }
}

/// The same with a floor: of the node records below it that have one point one stays, at some scale
/// below it. Now and then one stands at the floor itself, too, or 22 has two to refuse.
pub fn floored(rng: &mut Rng, priors: PriorBytes, floor: i32) -> PriorBytes {
    if floor == i32::MIN {
        return priors;
    }
    let mut nodes: BTreeMap<Address, &[u8]> = BTreeMap::new();
    let mut fine: BTreeMap<u32, &[u8]> = BTreeMap::new();
    for record in priors.nodes.chunks(RECORD_BYTES) {
        let address = Address::read(record);
        if address.scale >= floor {
            nodes.insert(address, record);
        } else if rng.chance(60) || !fine.contains_key(&address.point) {
            fine.insert(address.point, record);
        }
    }
    for (point, record) in &fine {
        let own = Address::read(record).scale;
        let scale = if rng.chance(30) { own } else { below(rng, floor) };
        nodes.insert(Address::new(scale, *point), record);
        let other = match rng.below(12) {
            0 => floor,
            1 => below(rng, floor),
            _ => continue,
        };
        nodes.entry(Address::new(other, *point)).or_insert(record);
    }
    let moved = |(address, record): (Address, &[u8])| [&address.bytes()[..], &record[STEP_BYTES..]].concat();
    PriorBytes { nodes: nodes.into_iter().flat_map(moved).collect(), floor, ..priors }
}

/// Good priors with one thing changed, often to something that 3 to 7 refuse.
pub fn damaged(rng: &mut Rng, universe: &[Address]) -> PriorBytes {
    let mut priors = sparse(rng, universe, 4, 70);
    damage(rng, &mut priors);
    priors
}

/// Priors over few addresses, a third of them with a floor, which are often refused.
pub fn refusable(rng: &mut Rng) -> PriorBytes {
    let (count, floor) = (rng.between(1, 5), floor(rng, 33));
    let universe = universe_around(rng, count, floor);
    let good = sparse(rng, &universe, 4, 70);
    let mut priors = floored(rng, good, floor);
    damage(rng, &mut priors);
    priors
}

fn damage(rng: &mut Rng, priors: &mut PriorBytes) {
    match rng.below(10) {
        0 | 1 => swap_fields(rng, &mut priors.children, 0..8),
        2 => set_field(rng, &mut priors.children, 2),
        3 => set_field(rng, &mut priors.children, 3),
        _ => damage_either(rng, priors),
    }
}

fn damage_either(rng: &mut Rng, priors: &mut PriorBytes) {
    let bytes = if rng.chance(50) { &mut priors.nodes } else { &mut priors.children };
    match rng.below(6) {
        0 => bytes.truncate(bytes.len().saturating_sub(rng.between(1, 17))),
        1 => bytes.push(0),
        2 => swap_fields(rng, bytes, 0..16),
        3 => bytes.extend_from_within(..bytes.len().min(16)),
        _ => {
            let field = rng.below(4);
            set_field(rng, bytes, field);
        }
    }
}

/// Swaps the same bytes of two records.
fn swap_fields(rng: &mut Rng, bytes: &mut [u8], part: Range<usize>) {
    let total = bytes.len() / 16;
    if total > 1 {
        let (one, other) = (16 * rng.below(total), 16 * rng.below(total));
        part.for_each(|at| bytes.swap(one + at, other + at));
    }
}

/// Sets a field of some record to a value around the limits.
fn set_field(rng: &mut Rng, bytes: &mut [u8], field: usize) {
    let total = bytes.len() / 16;
    if total > 0 {
        let start = 16 * rng.below(total) + 4 * field;
        let value = rng.pick(&[0, 0, 0, 1, 2, total as u32, total as u32 + 1, u32::MAX]);
        bytes[start..start + 4].copy_from_slice(&value.to_le_bytes());
    }
}

/// The node (1,0) with a singleton count, and one child, (0,0) with 1.
pub fn one_child(singleton_count: u32) -> PriorBytes {
    one_chain((Address::new(1, 0), singleton_count), &[Address::new(0, 0)], i32::MIN)
}

/// The node (1,0) whose chain has `length` children, for the limit of 64: half of them at the scale -1,
/// the others at 0, with every second point.
pub fn long_chain(length: usize) -> PriorBytes {
    let scale = |index: usize| if index < length / 2 { -1 } else { 0 };
    let child = |index: usize| Address::new(scale(index), 2 * index as u32 + 1);
    one_chain((Address::new(1, 0), 0), &(0..length).map(child).collect::<Vec<_>>(), i32::MIN)
}

/// A node with its singleton count and a chain of these children, with counts from 1 up.
pub fn one_chain((node, singleton): (Address, u32), children: &[Address], floor: i32) -> PriorBytes {
    let child = |(index, address): (usize, &Address)| {
        let own = index as u32 + 1;
        let link = if index + 1 < children.len() { own + 1 } else { 0 };
        Record { address: *address, count: own, link }
    };
    let nodes = vec![Record { address: node, count: singleton, link: u32::from(!children.is_empty()) }];
    let children = children.iter().enumerate().map(child).collect();
    PriorBytes { floor, ..Records { nodes, children }.bytes() }
}
