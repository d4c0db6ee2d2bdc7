//! The plain recount: W, H and where listing begins in H, fed the calls' arguments alone. State, book
//! bytes and queue bytes are images of these, worked out afresh whenever they are asked for.

use crate::address::{path_bytes, steps, Address};
use crate::batch::{in_turn, Batch};
use crate::evidence::{window_part, Evidence};
use crate::limits::{ENTRY_BYTES, MAX_ACCEPTED, MAX_ENTRIES, MAX_STEPS, MAX_WINDOW, PLACE_BYTES, STEP_BYTES};
use crate::readings::Tracker;
use crate::refusal::{refuse, Refusal};
use crate::State;

/// A tracker's history since its opening. A later accepted opening makes another `Recount`;
/// a refused one gives none, so that the one before it stands.
#[derive(Debug, Clone, PartialEq, Eq)]
pub struct Recount {
    window: u32,
    paths: Vec<Vec<Address>>,
    /// How many paths of H lay before the window part at the last tidy; 0 where there was none.
    base: usize,
    book_len: usize,
    queue_len: usize,
}

impl Recount {
    /// An opening with a window and the lengths of the lent book and queue: 8, then 9.
    pub fn open(window: u32, book_len: usize, queue_len: usize) -> Result<Recount, Refusal> {
        check_opening(window, book_len, queue_len)?;
        Ok(Recount { window, paths: Vec::new(), base: 0, book_len, queue_len })
    }

    /// An add of a path's lent bytes: 10, 11, 12.
    pub fn add_path(&mut self, bytes: &[u8]) -> Result<(), Refusal> {
        check_path(bytes)?;
        refuse(11, self.paths.len() >= MAX_ACCEPTED as usize)?;
        self.paths.push(steps(bytes));
        let needed = self.counted().entries();
        if needed > self.book_len / ENTRY_BYTES {
            self.paths.pop();
            return Err(Refusal::plain(12));
        }
        Ok(())
    }

    /// Adds of the paths in lent places, up to the first that is refused: 10, 11, 12.
    pub fn add_paths(&mut self, places: &[u8]) -> Batch {
        in_turn(places, |path| self.add_path(path))
    }

    /// A tidy: what the window part holds stays listed, and what left it is listed no more. W and H stay,
    /// and it is never refused.
    pub fn tidy(&mut self) {
        self.base = self.paths.len() - window_part(self.window, &self.paths).len();
    }

    /// W, the nodes and transitions listed, the paths in H.
    pub fn state(&self) -> State {
        State {
            window: self.window,
            used: self.counted().entries() as u32,
            accepted: self.paths.len() as u32,
        }
    }

    /// The book, byte for byte.
    pub fn book(&self) -> Vec<u8> {
        let mut book = used_entries(&self.counted());
        book.resize(self.book_len, 0);
        book
    }

    /// The queue, byte for byte: path k in place k mod window, zeros elsewhere.
    pub fn queue(&self) -> Vec<u8> {
        let mut queue = vec![0; self.queue_len];
        if self.window != 0 {
            for (number, path) in self.paths.iter().enumerate() {
                let start = PLACE_BYTES * (number % self.window as usize);
                queue[start..start + PLACE_BYTES].copy_from_slice(&place_bytes(path));
            }
        }
        queue
    }

    /// The nodes and transitions of H from the base on, and their counts in its window part.
    pub fn counted(&self) -> Evidence {
        Evidence::of_history(self.window, &self.paths, self.base)
    }
}

impl Tracker for Recount {
    fn evidence(&self) -> Result<Evidence, Refusal> {
        Ok(self.counted())
    }
}

/// Refusals 8 and 9 of an opening.
pub(crate) fn check_opening(window: u32, book_len: usize, queue_len: usize) -> Result<(), Refusal> {
    refuse(8, window > MAX_WINDOW)?;
    refuse(9, !lengths_hold(window, book_len, queue_len))
}

/// The lengths that 9 asks for.
pub(crate) fn lengths_hold(window: u32, book_len: usize, queue_len: usize) -> bool {
    book_len_holds(book_len) && queue_len >= PLACE_BYTES * window as usize
}

/// The book's part of them.
pub(crate) fn book_len_holds(book_len: usize) -> bool {
    book_len.is_multiple_of(ENTRY_BYTES) && (1..=MAX_ENTRIES).contains(&(book_len / ENTRY_BYTES))
}

/// Refusal 10: one to 64 whole steps.
pub(crate) fn check_path(bytes: &[u8]) -> Result<(), Refusal> {
    let whole = bytes.len().is_multiple_of(STEP_BYTES);
    refuse(10, !(whole && (1..=MAX_STEPS).contains(&(bytes.len() / STEP_BYTES))))
}

/// The bytes of an entry: of a node's ending, or of a child under the node.
pub fn entry_bytes(node: Address, child: Option<Address>, count: u32) -> [u8; ENTRY_BYTES] {
    let mut bytes = [0; ENTRY_BYTES];
    bytes[..8].copy_from_slice(&node.bytes());
    bytes[8..12].copy_from_slice(&u32::from(child.is_some()).to_le_bytes());
    bytes[12..20].copy_from_slice(&child.unwrap_or_default().bytes());
    bytes[20..].copy_from_slice(&count.to_le_bytes());
    bytes
}

/// The used entries: nodes ascending, the ending first, then children ascending.
pub(crate) fn used_entries(evidence: &Evidence) -> Vec<u8> {
    let mut bytes = Vec::new();
    for (node, counted) in &evidence.nodes {
        bytes.extend(entry_bytes(*node, None, counted.ending));
        for (child, count) in &counted.children {
            bytes.extend(entry_bytes(*node, Some(*child), *count));
        }
    }
    bytes
}

/// A queue place: length, steps, zeros.
pub(crate) fn place_bytes(path: &[Address]) -> Vec<u8> {
    let mut place = (path.len() as u32).to_le_bytes().to_vec();
    place.extend(path_bytes(path));
    place.resize(PLACE_BYTES, 0);
    place
}
