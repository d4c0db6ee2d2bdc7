//! Both sides of a row must have the same figures, or its times compare nothing.

use crate::load::Prior;
use crate::sides::goko_address;
use oracle::{Goko, NodeAddress, Panic};
use recount::{same_figure, same_figures};
use std::collections::BTreeMap;
use teakpool::{Address, KLDivergenceStats, Output, ProbVector, ENTRY_BYTES};

/// Counts by node and child, an ending's without a child.
type Counts = BTreeMap<(NodeAddress, Option<NodeAddress>), u64>;

fn field(entry: &[u8], at: usize) -> u32 {
    u32::from_le_bytes(entry[at..at + 4].try_into().expect("four bytes"))
}

fn address(entry: &[u8], at: usize) -> NodeAddress {
    goko_address(Address::from_bytes(entry[at..at + 8].try_into().expect("eight bytes")))
}

/// The book's used entries hold goko's counts.
pub fn counts(used: usize, book: &[u8], goko: &Goko) {
    let mut ours = Counts::new();
    for entry in book.chunks(ENTRY_BYTES).take(used) {
        let child = (field(entry, 8) == 1).then(|| address(entry, 12));
        ours.insert((address(entry, 0), child), u64::from(field(entry, 20)));
    }
    let mut theirs = Counts::new();
    for evidence in goko.evidence() {
        theirs.insert((evidence.node, None), evidence.ending as u64);
        for (child, count) in evidence.children {
            theirs.insert((evidence.node, Some(child)), count as u64);
        }
    }
    assert!(ours == theirs, "both have the same counts");
}

/// A filled output holds goko's figures; with a hash map goko's list of nodes is in another order.
pub fn places(number: u32, output: &Output, mut theirs: Vec<(NodeAddress, f64)>) {
    theirs.sort_by_key(|(node, _)| *node);
    let ours: Vec<(NodeAddress, f64)> =
        output.places(number).map(|(node, figure)| (goko_address(node), figure)).collect();
    let nodes = |places: &[(NodeAddress, f64)]| places.iter().map(|(node, _)| *node).collect::<Vec<_>>();
    let figures =
        |places: &[(NodeAddress, f64)]| places.iter().map(|(_, figure)| *figure).collect::<Vec<_>>();
    assert!(nodes(&ours) == nodes(&theirs), "both have the same places");
    assert!(same_figures(&figures(&ours), &figures(&theirs)), "both have the same figures");
}

/// A divergence is goko's.
pub fn figure(ours: Option<f64>, theirs: Option<f64>) {
    let same = |(ours, theirs): (f64, f64)| same_figure(ours, theirs);
    assert!(ours.is_some() == theirs.is_some(), "both have a divergence or none");
    assert!(ours.zip(theirs).is_none_or(same), "both have the same divergence");
}

/// A child's count in a prior is that of goko's `ln_pdf`, which tells ln of its share.
pub fn share(count: Option<u32>, (_, singleton, children): &Prior, theirs: Result<Option<f64>, Panic>) {
    let total = singleton + children.iter().map(|(_, count)| count).sum::<u32>();
    let ours = f64::from(count.unwrap_or(0)).ln() - f64::from(total).ln();
    let theirs = theirs.expect("goko answers").expect("the node has a prior");
    assert!(same_figure(ours, theirs), "both have the same share");
}

/// A probability vector is goko's.
pub fn vector(ours: Option<ProbVector>, output: &Output, theirs: Option<oracle::ProbVector>) {
    match (ours, theirs) {
        (None, None) => {}
        (Some(ours), Some((children, ending))) => {
            assert!(same_figure(ours.ending, ending), "both have the same ending");
            places(ours.places, output, children);
        }
        _ => panic!("one side has no vector"),
    }
}

/// Statistics are goko's. With a hash map its sums go in another order.
pub fn stats(ours: &KLDivergenceStats, goko: &Goko) {
    let (theirs, skipped) = goko.kl_div_stats().expect("goko answers");
    assert_eq!(ours.skipped, skipped, "both skip as many nodes");
    assert_eq!(ours.number, theirs.nz_count, "both count as many");
    let extremes = same_figures(&[ours.maximum, ours.minimum], &[theirs.max, theirs.min]);
    assert!(extremes, "both have the same extremes");
    let sums = same_figures(&[ours.sum, ours.sum_of_squares], &[theirs.moment1_nz, theirs.moment2_nz]);
    assert!(sums || !hashbrown::ORDERED, "both have the same sums");
}
