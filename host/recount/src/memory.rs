//! One call on given state, book and queue, whoever wrote them. Each call but an opening
//! tests the form first (9). An add then adds, takes away the path that leaves, never below
//! 0 and passing over what is missing, and writes its place whole. Bytes past the new used
//! entries stay as they were. An add of several paths does so with each in turn, and tests the
//! form no more. A tidy drops entries, by counts alone, and zeroes those bytes.

use crate::address::{steps, word, Address};
use crate::batch::{in_turn, Batch};
use crate::evidence::Evidence;
use crate::limits::{ENTRY_BYTES, MAX_ACCEPTED, MAX_COUNT, MAX_STEPS, MAX_WINDOW, PLACE_BYTES, STEP_BYTES};
use crate::readings::Tracker;
use crate::recount::{check_opening, check_path, lengths_hold, place_bytes, used_entries};
use crate::refusal::{refuse, Refusal};
use crate::State;
use std::collections::BTreeSet;

/// A tracker as it is lent to a reading.
#[derive(Debug, Clone, Copy)]
pub struct Memory<'a> {
    /// The state.
    pub state: State,
    /// The book.
    pub book: &'a [u8],
    /// The queue.
    pub queue: &'a [u8],
}

/// One book entry.
#[derive(Debug, Clone, Copy, PartialEq, Eq)]
struct Entry {
    node: Address,
    kind: u32,
    child: Address,
    count: u32,
}

impl Entry {
    fn key(&self) -> (Address, u32, Address) {
        (self.node, self.kind, self.child)
    }
}

/// An opening: 8, then 9; else both are zeroed.
pub fn open(window: u32, book: &mut [u8], queue: &mut [u8]) -> Result<State, Refusal> {
    check_opening(window, book.len(), queue.len())?;
    book.fill(0);
    queue.fill(0);
    Ok(State { window, used: 0, accepted: 0 })
}

/// An add: 9, 10, 11, 12; else the new state, with book and queue changed.
pub fn add_path(state: State, book: &mut [u8], queue: &mut [u8], path: &[u8]) -> Result<State, Refusal> {
    refuse(9, !Memory { state, book, queue }.form_holds())?;
    add_formed(state, book, queue, path)
}

/// Adds of the paths in lent places, up to the first that is refused. 9 is tested once, before them all; a
/// count past 2^30, which only memory that others wrote comes to, does not stop them.
pub fn add_paths(state: &mut State, book: &mut [u8], queue: &mut [u8], places: &[u8]) -> Batch {
    if !(Memory { state: *state, book, queue }).form_holds() {
        return Batch { taken: 0, refusal: Some(Refusal::plain(9)) };
    }
    in_turn(places, |path| {
        *state = add_formed(*state, book, queue, path)?;
        Ok(())
    })
}

/// An add behind its form test: 10, 11, 12.
fn add_formed(state: State, book: &mut [u8], queue: &mut [u8], path: &[u8]) -> Result<State, Refusal> {
    check_path(path)?;
    refuse(11, state.accepted >= MAX_ACCEPTED)?;
    let mut evidence = Memory { state, book, queue }.counted();
    let path = steps(path);
    add(&mut evidence, &path);
    refuse(12, evidence.entries() > book.len() / ENTRY_BYTES)?;
    if state.window != 0 {
        let start = PLACE_BYTES * (state.accepted % state.window) as usize;
        let place = &mut queue[start..start + PLACE_BYTES];
        if state.accepted >= state.window {
            take_away(&mut evidence, &place_steps(place));
        }
        place.copy_from_slice(&place_bytes(&path));
    }
    let used = used_entries(&evidence);
    book[..used.len()].copy_from_slice(&used);
    Ok(State { used: evidence.entries() as u32, accepted: state.accepted + 1, ..state })
}

/// A tidy: 9; else the new state. Of the used entries a child's stays where its count is not 0, an ending
/// where one or more counts of its node are not; zeros follow to the book's end.
pub fn tidy(state: State, book: &mut [u8], queue: &[u8]) -> Result<State, Refusal> {
    let lent = Memory { state, book, queue };
    refuse(9, !lent.form_holds())?;
    let entries = lent.entries();
    let counted: BTreeSet<Address> =
        entries.iter().filter(|entry| entry.count > 0).map(|entry| entry.node).collect();
    let stays = |entry: &Entry| match entry.kind {
        0 => counted.contains(&entry.node),
        _ => entry.count > 0,
    };
    let lent = book.chunks(ENTRY_BYTES).zip(&entries);
    let kept: Vec<u8> =
        lent.filter(|(_, entry)| stays(entry)).flat_map(|(bytes, _)| bytes.to_vec()).collect();
    book.fill(0);
    book[..kept.len()].copy_from_slice(&kept);
    Ok(State { used: (kept.len() / ENTRY_BYTES) as u32, ..state })
}

impl Memory<'_> {
    /// Whether state, used entries and filled places are as the form asks.
    pub fn form_holds(&self) -> bool {
        let State { window, used, accepted } = self.state;
        window <= MAX_WINDOW
            && lengths_hold(window, self.book.len(), self.queue.len())
            && used as usize <= self.book.len() / ENTRY_BYTES
            && accepted <= MAX_ACCEPTED
            && entries_hold(&self.entries())
            && self.places_hold()
    }

    fn entries(&self) -> Vec<Entry> {
        let entry = |bytes: &[u8]| Entry {
            node: Address::read(bytes),
            kind: word(bytes, 2),
            child: Address::read(&bytes[12..]),
            count: word(bytes, 5),
        };
        self.book.chunks(ENTRY_BYTES).take(self.state.used as usize).map(entry).collect()
    }

    /// What the used entries count, whatever the form.
    fn counted(&self) -> Evidence {
        let State { window, accepted, .. } = self.state;
        let mut evidence = Evidence::default();
        for entry in self.entries() {
            let node = evidence.nodes.entry(entry.node).or_default();
            match entry.kind {
                0 => node.ending = entry.count,
                _ => {
                    node.children.insert(entry.child, entry.count);
                }
            }
        }
        evidence.sequence_len = if window == 0 { accepted } else { window.min(accepted) };
        evidence
    }

    fn places_hold(&self) -> bool {
        let filled = self.state.window.min(self.state.accepted) as usize;
        let length_holds = |place: &[u8]| (1..=MAX_STEPS).contains(&(word(place, 0) as usize));
        self.queue.chunks(PLACE_BYTES).take(filled).all(length_holds)
    }
}

impl Tracker for Memory<'_> {
    fn evidence(&self) -> Result<Evidence, Refusal> {
        refuse(9, !self.form_holds())?;
        Ok(self.counted())
    }
}

/// Every entry by itself, and each against the one before: the first is an ending, a child
/// follows an entry of its own node, keys ascend strictly.
fn entries_hold(entries: &[Entry]) -> bool {
    let alone = |entry: &Entry| {
        let ending_holds = entry.kind == 0 && entry.child == Address::default();
        (ending_holds || entry.kind == 1) && entry.count <= MAX_COUNT
    };
    let follows =
        |pair: &[Entry]| pair[0].key() < pair[1].key() && (pair[1].kind == 0 || pair[0].node == pair[1].node);
    entries.first().is_none_or(|first| first.kind == 0)
        && entries.iter().all(alone)
        && entries.windows(2).all(follows)
}

/// Adds a path: all its nodes are listed, its transitions and its ending gain 1.
fn add(evidence: &mut Evidence, path: &[Address]) {
    for step in path {
        evidence.nodes.entry(*step).or_default();
    }
    for pair in path.windows(2) {
        let node = evidence.nodes.entry(pair[0]).or_default();
        *node.children.entry(pair[1]).or_insert(0) += 1;
    }
    let last = path[path.len() - 1];
    evidence.nodes.entry(last).or_default().ending += 1;
}

/// Takes a path away: 0 stays 0, what is missing is passed over.
fn take_away(evidence: &mut Evidence, path: &[Address]) {
    for pair in path.windows(2) {
        let node = evidence.nodes.get_mut(&pair[0]);
        if let Some(count) = node.and_then(|node| node.children.get_mut(&pair[1])) {
            *count = count.saturating_sub(1);
        }
    }
    let last = path[path.len() - 1];
    if let Some(node) = evidence.nodes.get_mut(&last) {
        node.ending = node.ending.saturating_sub(1);
    }
}

/// The steps of a filled place.
fn place_steps(place: &[u8]) -> Vec<Address> {
    let length = word(place, 0) as usize;
    steps(&place[4..4 + STEP_BYTES * length])
}
