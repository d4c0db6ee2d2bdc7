//! The lent priors (refusals 3 to 7 and 22) and look-ups: of a node by exact address or, below the
//! floor, by point; of a child by exact address. Node records are address, singleton count, first
//! link; child records, numbered from 1, are address, count, next link; 0 ends a chain. Each number
//! is tested over all records before the next one.

use crate::address::{word, Address};
use crate::limits::{MAX_CHAIN, MAX_CHILDREN, MAX_NODES, RECORD_BYTES};
use crate::refusal::{refuse, Refusal};

/// Node records, child records and a floor as lent.
#[derive(Debug, Clone, Copy)]
pub struct LentPriors<'a> {
    /// The node records.
    pub nodes: &'a [u8],
    /// The child records.
    pub children: &'a [u8],
    /// The floor scale; no scale is below `i32::MIN`.
    pub floor: i32,
}

/// One node's prior.
#[derive(Debug, Clone, PartialEq, Eq)]
pub struct Prior {
    /// The address of its record.
    pub address: Address,
    /// Its singleton count.
    pub singleton: u32,
    /// Its chain of children with their counts.
    pub children: Vec<(Address, u32)>,
}

impl Prior {
    /// The total of all counts.
    pub fn total(&self) -> u64 {
        let children: u64 = self.children.iter().map(|(_, count)| u64::from(*count)).sum();
        u64::from(self.singleton) + children
    }

    /// A child's count.
    pub fn child(&self, child: Address) -> Option<u32> {
        self.children.iter().find(|(address, _)| *address == child).map(|(_, count)| *count)
    }

    /// How many records of the chain a child's look-up reads: all those below the address wanted, and
    /// one more if the chain has any other.
    fn read(&self, child: Address) -> u32 {
        let below = self.children.iter().filter(|(address, _)| *address < child).count();
        let goes_on = self.children.len() > below;
        below as u32 + u32::from(goes_on)
    }
}

/// What a child's look-up tells.
#[derive(Debug, Clone, Copy, PartialEq, Eq, Default)]
pub struct ChildLookup {
    /// The child's count; none if the node has no prior, or its prior no such child.
    pub count: Option<u32>,
    /// Child records read, told where there is no count as well; 0 if the node has no prior.
    pub read: u32,
}

/// Priors that passed 3 to 7 and 22.
#[derive(Debug, Clone, PartialEq, Eq)]
pub struct Priors {
    /// One a node, ascending.
    pub nodes: Vec<Prior>,
    /// The floor scale.
    pub floor: i32,
}

impl Priors {
    /// The prior of a node: where its scale is below the floor, that with the same point among those
    /// below the floor, else that at exactly this address.
    pub fn node(&self, address: Address) -> Option<&Prior> {
        let below = |address: Address| address.scale < self.floor;
        let fits = |record: Address| match below(address) {
            true => below(record) && record.point == address.point,
            false => record == address,
        };
        self.nodes.iter().find(|prior| fits(prior.address))
    }

    /// A child, by exact address, in the prior of a node.
    pub fn child(&self, node: Address, child: Address) -> ChildLookup {
        let look_up = |prior: &Prior| ChildLookup { count: prior.child(child), read: prior.read(child) };
        self.node(node).map(look_up).unwrap_or_default()
    }

    /// Whether the node has a prior whose record has another address.
    pub fn found_by_point(&self, address: Address) -> bool {
        self.node(address).is_some_and(|prior| prior.address != address)
    }
}

/// A record of either kind: address, count, link.
struct Record {
    address: Address,
    count: u32,
    link: usize,
}

/// A record's bytes.
pub fn record_bytes(address: Address, count: u32, link: u32) -> Vec<u8> {
    [&address.bytes()[..], &count.to_le_bytes(), &link.to_le_bytes()].concat()
}

fn records(bytes: &[u8]) -> Vec<Record> {
    let record = |bytes: &[u8]| Record {
        address: Address::read(bytes),
        count: word(bytes, 2),
        link: word(bytes, 3) as usize,
    };
    bytes.chunks(RECORD_BYTES).map(record).collect()
}

/// Refusals 3 to 7 and 22; else the priors by node.
pub fn check_priors(lent: LentPriors) -> Result<Priors, Refusal> {
    let whole = |bytes: &[u8], most: usize| {
        bytes.len().is_multiple_of(RECORD_BYTES) && bytes.len() / RECORD_BYTES <= most
    };
    refuse(3, !(whole(lent.nodes, MAX_NODES) && whole(lent.children, MAX_CHILDREN)))?;
    let nodes = records(lent.nodes);
    let children = records(lent.children);
    refuse(4, !nodes.windows(2).all(|pair| pair[0].address < pair[1].address))?;
    refuse(5, !links_hold(&nodes, &children))?;
    let priors: Vec<Prior> = nodes.iter().map(|node| prior(node, &children)).collect();
    refuse(5, priors.iter().any(|prior| prior.children.len() > MAX_CHAIN))?;
    let ascending = |prior: &Prior| prior.children.windows(2).all(|pair| pair[0].0 < pair[1].0);
    refuse(6, !priors.iter().all(ascending))?;
    let counts_hold = children.iter().all(|child| child.count > 0);
    refuse(7, !(counts_hold && priors.iter().all(|prior| prior.total() > 0)))?;
    refuse(22, points_meet(&nodes, lent.floor))?;
    Ok(Priors { nodes: priors, floor: lent.floor })
}

/// A child's look-up in lent priors; refusals 3 to 7 and 22.
pub fn child(lent: LentPriors, node: Address, child: Address) -> Result<ChildLookup, Refusal> {
    check_priors(lent).map(|priors| priors.child(node, child))
}

/// Whether two node records below the floor have one point.
fn points_meet(nodes: &[Record], floor: i32) -> bool {
    let below: Vec<Address> =
        nodes.iter().map(|node| node.address).filter(|node| node.scale < floor).collect();
    let met = |(index, one): (usize, &Address)| below[..index].iter().any(|other| other.point == one.point);
    below.iter().enumerate().any(met)
}

/// Every single link, reached or not: a first link is 0 or a record's number, a next link is
/// 0 or the number of a later record.
fn links_hold(nodes: &[Record], children: &[Record]) -> bool {
    let last = children.len();
    let next_holds = |(index, child): (usize, &Record)| {
        let own_number = index + 1;
        child.link == 0 || (own_number < child.link && child.link <= last)
    };
    nodes.iter().all(|node| node.link <= last) && children.iter().enumerate().all(next_holds)
}

/// A node with its chain, as far as one record past the longest that 5 allows.
fn prior(node: &Record, children: &[Record]) -> Prior {
    let mut chain = Vec::new();
    let mut link = node.link;
    while link != 0 && chain.len() <= MAX_CHAIN {
        let child = &children[link - 1];
        chain.push((child.address, child.count));
        link = child.link;
    }
    Prior { address: node.address, singleton: node.count, children: chain }
}
