//! The two sides: a tracker of the archive's with its memory, and one of goko's, filled with the
//! same paths until 16,000 entries are used and the window is full.

use crate::load::{Load, CHILDREN, NODES};
use oracle::{Goko, NodeAddress};
use teakpool::{Address, State, Tracker, ENTRY_BYTES, PLACE_BYTES};

/// The window of both.
pub const WINDOW: u32 = 1_024;
/// Entries used.
pub const ENTRIES: usize = NODES * (CHILDREN + 1);
/// Entries that a book may have at most.
pub const MOST_ENTRIES: usize = 16_384;

/// goko's form of an address.
pub fn goko_address(address: Address) -> NodeAddress {
    (address.scale, address.point as usize)
}

/// goko's form of a path.
pub fn goko_path(path: &[Address]) -> Vec<NodeAddress> {
    path.iter().map(|step| goko_address(*step)).collect()
}

/// goko's form of the priors.
pub fn goko_priors(load: &Load) -> Vec<oracle::Prior> {
    let prior = |(node, singleton, children): &crate::load::Prior| oracle::Prior {
        address: goko_address(*node),
        singleton_count: *singleton,
        children: children.iter().map(|(child, count)| (goko_address(*child), *count)).collect(),
    };
    load.priors.iter().map(prior).collect()
}

/// Book and queue of one tracker.
pub struct Memory {
    /// 24 bytes an entry.
    pub book: Vec<u8>,
    /// A place for each path of the window.
    pub queue: Vec<u8>,
}

impl Memory {
    /// Memory for a book of `capacity` entries and a queue of the window's places.
    pub fn new(capacity: usize) -> Memory {
        Memory { book: vec![0; ENTRY_BYTES * capacity], queue: vec![0; PLACE_BYTES * WINDOW as usize] }
    }
}

/// Memory that holds what a first lot of paths left in it, the state for it, and goko's tracker
/// with the same paths.
pub fn filled(load: &mut Load, capacity: usize) -> (Memory, State, Goko) {
    let mut memory = Memory::new(capacity);
    let mut ours = Tracker::open(WINDOW, &mut memory.book, &mut memory.queue).expect("the sizes are taken");
    let mut theirs = Goko::open(WINDOW as usize);
    theirs.lend_priors(&goko_priors(load), i32::MIN);
    oracle::lend_tables(&load.tables.g, &load.tables.d);
    let mut add = |path: Vec<Address>| {
        ours.add_path(&path).expect("the book has room");
        theirs.add_path(&goko_path(&path)).expect("goko takes it");
    };
    load.all_transitions().into_iter().for_each(&mut add);
    load.paths(WINDOW as usize).into_iter().for_each(add);
    let state = ours.state();
    assert_eq!(state.used as usize, ENTRIES, "all nodes and transitions are listed");
    (memory, state, theirs)
}
