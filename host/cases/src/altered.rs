//! Single adds on memory that others wrote: books in form whose counts fit no queue, queues
//! whose paths the book does not know, and every way in which the form can break. The same memory is
//! there to be tidied, and for adds of several paths.

use crate::paths::{lent_path, lent_places, path, place, universe};
use crate::rng::Rng;
use recount::limits::{ENTRY_BYTES, MAX_ACCEPTED, MAX_COUNT, MAX_WINDOW, PLACE_BYTES};
use recount::{entry_bytes, path_bytes, Address, Memory, State};

/// An add with all that it is lent.
#[derive(Debug, Clone, PartialEq, Eq)]
pub struct AlteredAdd {
    /// The state.
    pub state: State,
    /// The book.
    pub book: Vec<u8>,
    /// The queue.
    pub queue: Vec<u8>,
    /// The path's bytes.
    pub path: Vec<u8>,
}

impl AlteredAdd {
    /// The tracker as it is lent to a reading.
    pub fn memory(&self) -> Memory<'_> {
        Memory { state: self.state, book: &self.book, queue: &self.queue }
    }
}

/// An add on altered memory, with a queue of at most `places` places.
pub fn altered_add(rng: &mut Rng, places: usize) -> AlteredAdd {
    let count = rng.between(1, 4);
    let addresses = universe(rng, count);
    let entries = entries(rng, &addresses);
    let used = entries.len() / ENTRY_BYTES;
    let mut book = entries;
    let spare = rng.pick(&[0, 1, 2, 4, 8]);
    let spare = if used + spare == 0 { 1 } else { spare };
    let tail = rng.pick(&[0, 0xa5]);
    book.resize(book.len() + ENTRY_BYTES * spare, tail);
    let window = rng.between(0, places) as u32;
    let accepted = accepted(rng, window);
    let queue = queue(rng, &addresses, window);
    let path = lent_path(rng, &addresses, 4, 10);
    let state = State { window, used: used as u32, accepted };
    let mut add = AlteredAdd { state, book, queue, path };
    if rng.chance(45) {
        damage(rng, &mut add);
    }
    add
}

/// Places of up to five paths over what the book names: often the one before again, now and then the add's own,
/// seldom none.
pub fn batch(rng: &mut Rng, add: &AlteredAdd) -> Vec<u8> {
    let entries = add.book.chunks_exact(ENTRY_BYTES).take(4);
    let named = entries.flat_map(|entry| [Address::read(entry), Address::read(&entry[12..])]);
    let addresses: Vec<Address> = named.chain([Address::new(0, 1)]).collect();
    let mut paths: Vec<Vec<u8>> = Vec::new();
    for _ in 0..rng.between(0, 5) {
        paths.push(match paths.last() {
            Some(last) if rng.chance(50) => last.clone(),
            _ if rng.chance(20) => add.path.clone(),
            _ => lent_path(rng, &addresses, 3, 4),
        });
    }
    lent_places(rng, &paths, 10)
}

/// Entries in form over the addresses.
fn entries(rng: &mut Rng, addresses: &[Address]) -> Vec<u8> {
    let mut sorted = addresses.to_vec();
    sorted.sort();
    let mut bytes = Vec::new();
    for node in &sorted {
        if rng.chance(75) {
            bytes.extend(entry_bytes(*node, None, count(rng)));
            for child in &sorted {
                if rng.chance(45) {
                    bytes.extend(entry_bytes(*node, Some(*child), count(rng)));
                }
            }
        }
    }
    bytes
}

fn count(rng: &mut Rng) -> u32 {
    rng.pick(&[0, 0, 1, 1, 2, 3, MAX_COUNT - 1, MAX_COUNT])
}

fn accepted(rng: &mut Rng, window: u32) -> u32 {
    let around = (window + 1).saturating_sub(rng.between(0, 2) as u32);
    rng.pick(&[0, around, around, window + 7, MAX_ACCEPTED - 1, MAX_ACCEPTED])
}

/// Places with paths, each with its own filling after the steps, and sometimes a tail.
fn queue(rng: &mut Rng, addresses: &[Address], window: u32) -> Vec<u8> {
    let mut queue = Vec::new();
    for _ in 0..window {
        let steps = path(rng, addresses, 3);
        queue.extend(place(steps.len() as u32, &path_bytes(&steps), rng.pick(&[0, 0x5a])));
    }
    let tail = rng.pick(&[0, 0, 4, 515]);
    queue.resize(queue.len() + tail, 0x77);
    queue
}

/// Changes one thing, often to something that the form test refuses.
fn damage(rng: &mut Rng, add: &mut AlteredAdd) {
    let used = add.state.used as usize;
    match rng.below(10) {
        0 => add.state.window = rng.pick(&[MAX_WINDOW + 1, u32::MAX, add.state.window + 1]),
        1 => add.state.used = rng.pick(&[(add.book.len() / ENTRY_BYTES) as u32 + 1, u32::MAX]),
        2 => add.state.used = rng.between(0, add.book.len() / ENTRY_BYTES) as u32,
        3 => add.state.accepted = rng.pick(&[MAX_ACCEPTED + 1, u32::MAX]),
        4 => add.book.truncate(add.book.len() - rng.between(1, ENTRY_BYTES)),
        5 => add.queue.truncate(add.queue.len().saturating_sub(rng.between(1, PLACE_BYTES))),
        6 if !add.queue.is_empty() => {
            let place = rng.below(add.queue.len().div_ceil(PLACE_BYTES));
            set_field(&mut add.queue, PLACE_BYTES * place, rng.pick(&[0, 1, 64, 65, u32::MAX]));
        }
        _ if used > 0 => {
            let entry = ENTRY_BYTES * rng.below(used);
            let field = rng.below(6);
            let value = rng.pick(&[0, 1, 2, MAX_COUNT, MAX_COUNT + 1, u32::MAX]);
            set_field(&mut add.book, entry + 4 * field, value);
        }
        _ => add.state.accepted = MAX_ACCEPTED,
    }
}

fn set_field(bytes: &mut [u8], start: usize, value: u32) {
    if let Some(field) = bytes.get_mut(start..start + 4) {
        field.copy_from_slice(&value.to_le_bytes());
    }
}
