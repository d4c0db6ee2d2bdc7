//! What both sides are given: 2,000 nodes with 7 children each, 14,000 transitions in all, so
//! that a full book has 16,000 entries; ten-step paths over them; priors that know every child;
//! tables.

use cases::rng::Rng;
use cases::tables::gamma;
use teakpool::{Address, PriorRecords};

/// Nodes, children of each, steps of a path.
pub const NODES: usize = 2_000;
pub const CHILDREN: usize = 7;
const STEPS: usize = 10;
/// The last index of the tables.
const LAST: usize = 4_095;

/// A prior: a node, its singleton count, its children with their counts.
pub type Prior = (Address, u32, Vec<(Address, u32)>);

/// The address of a node by its index, ascending with it.
type Addresses = fn(usize) -> Address;

/// All of it, made from a seed.
pub struct Load {
    address: Addresses,
    children: Vec<Vec<usize>>,
    rng: Rng,
    /// The priors, ascending.
    pub priors: Vec<Prior>,
    /// The priors as lent.
    pub records: PriorRecords,
    /// ln gamma and digamma.
    pub tables: cases::calls::Tables,
}

/// Four scales of both signs.
pub fn four_scales(index: usize) -> Address {
    Address::new((index / (NODES / 4)) as i32 - 2, index as u32)
}

/// Ten scales below 0, and points that go round the scales, so that each scale has its points between
/// those of the others.
pub fn ten_fine_scales(index: usize) -> Address {
    let (scale, place) = (index / (NODES / 10), index % (NODES / 10));
    Address::new(scale as i32 - 10, (10 * place + (7 * scale + 3) % 10) as u32)
}

impl Load {
    /// A load whose nodes have these addresses.
    pub fn new(seed: u64, address: Addresses) -> Load {
        let mut rng = Rng::new(seed);
        let mut children = Vec::new();
        let (mut priors, mut records) = (Vec::new(), PriorRecords::default());
        for node in 0..NODES {
            let mut own: Vec<usize> = Vec::new();
            while own.len() < CHILDREN {
                let child = rng.below(NODES);
                if !own.contains(&child) {
                    own.push(child);
                }
            }
            own.sort();
            let counted: Vec<(Address, u32)> =
                own.iter().map(|child| (address(*child), rng.between(1, 3) as u32)).collect();
            let singleton = rng.between(1, 3) as u32;
            records.node(address(node), singleton, &counted);
            priors.push((address(node), singleton, counted));
            children.push(own);
        }
        Load { address, children, rng, priors, records, tables: gamma(LAST) }
    }

    /// A random path.
    pub fn path(&mut self) -> Vec<Address> {
        let mut node = self.rng.below(NODES);
        let mut path = vec![(self.address)(node)];
        while path.len() < STEPS {
            node = self.rng.pick(&self.children[node]);
            path.push((self.address)(node));
        }
        path
    }

    /// `count` random paths.
    pub fn paths(&mut self, count: usize) -> Vec<Vec<Address>> {
        (0..count).map(|_| self.path()).collect()
    }

    /// Paths that take every transition.
    pub fn all_transitions(&mut self) -> Vec<Vec<Address>> {
        let mut unused = self.children.clone();
        let mut paths = Vec::new();
        while let Some(first) = unused.iter().position(|children| !children.is_empty()) {
            let mut node = first;
            let mut path = vec![(self.address)(node)];
            while path.len() < STEPS {
                node = match unused[node].pop() {
                    Some(child) => child,
                    None => self.rng.pick(&self.children[node]),
                };
                path.push((self.address)(node));
            }
            paths.push(path);
        }
        paths
    }

    /// The prior of a node.
    pub fn prior(&self, node: Address) -> &Prior {
        let at = self.priors.binary_search_by_key(&node, |(address, ..)| *address);
        &self.priors[at.expect("every node has a prior")]
    }

    /// Some node.
    pub fn node(&mut self) -> Address {
        (self.address)(self.rng.below(NODES))
    }
}
