//! A book's used entries, read from its bytes.

use recount::limits::ENTRY_BYTES;
use recount::{word, Address};

/// What an entry is of: a node's ending, or a child under the node.
pub type Key = (Address, Option<Address>);

/// The used entries in their order: what each is of, and its count.
pub fn entries(used: u32, book: &[u8]) -> impl Iterator<Item = (Key, u64)> + '_ {
    let entry = |entry: &[u8]| {
        let child = (word(entry, 2) != 0).then(|| Address::read(&entry[12..]));
        ((Address::read(entry), child), u64::from(word(entry, 5)))
    };
    book.chunks(ENTRY_BYTES).take(used as usize).map(entry)
}
