//! Visits and steps, told by the paths alone: no count of a tracker is looked at.

use crate::address::Address;
use std::collections::BTreeMap;

/// How often these paths visit each node: the neighbouring pairs that it is the second of, with repeats,
/// and the paths that begin at it. A node without visits is missing.
pub fn visits(paths: &[Vec<Address>]) -> BTreeMap<Address, u64> {
    let beginnings = paths.iter().filter_map(|path| path.first());
    let children = paths.iter().flat_map(|path| path.windows(2)).map(|pair| &pair[1]);
    let mut visits = BTreeMap::new();
    for node in beginnings.chain(children) {
        *visits.entry(*node).or_insert(0) += 1;
    }
    visits
}

/// The steps of these paths together.
pub fn step_count(paths: &[Vec<Address>]) -> u64 {
    paths.iter().map(|path| path.len() as u64).sum()
}
