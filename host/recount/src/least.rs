//! The least capacity that serves paths, told by the paths alone: no listing is looked at.

use crate::address::Address;
use std::collections::BTreeSet;

/// The different addresses in these paths and the different pairs of neighbours in them, taken together. A
/// pair has an order, and a step to the same address is a pair as any other.
pub fn least(paths: &[impl AsRef<[Address]>]) -> usize {
    let addresses: BTreeSet<&Address> = paths.iter().flat_map(|path| path.as_ref()).collect();
    let pairs: BTreeSet<&[Address]> = paths.iter().flat_map(|path| path.as_ref().windows(2)).collect();
    addresses.len() + pairs.len()
}
