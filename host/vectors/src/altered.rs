//! altered.bin: single adds on memory that others wrote, with all bytes before and after.

use crate::limits::{within, PATH_BYTES, SMALL};
use crate::words::{Case, Reader};
use cases::altered::AlteredAdd;
use cases::sample;
use recount::{memory, State};

pub fn record() -> Vec<Case> {
    sample::altered_adds().iter().map(record_add).collect()
}

fn record_add(add: &AlteredAdd) -> Case {
    let mut case = Case::default();
    write_memory(&mut case, add.state, &add.book, &add.queue);
    case.bytes(&add.path);
    write_answer(&mut case, add);
    case
}

fn write_memory(case: &mut Case, state: State, book: &[u8], queue: &[u8]) {
    case.0.extend([state.window, state.used, state.accepted]);
    case.bytes(book);
    case.places(queue);
}

/// The number that refuses the add, then state, book and queue as they are afterwards.
fn write_answer(case: &mut Case, add: &AlteredAdd) {
    let (mut book, mut queue) = (add.book.clone(), add.queue.clone());
    let answer = memory::add_path(add.state, &mut book, &mut queue, &add.path);
    case.word(answer.err().map_or(0, |refusal| refusal.number));
    write_memory(case, answer.unwrap_or(add.state), &book, &queue);
}

pub fn replay(reader: &mut Reader) -> Result<(), String> {
    let state = State { window: reader.word()?, used: reader.word()?, accepted: reader.word()? };
    let (book, queue) = (reader.bytes()?, reader.places()?);
    let add = AlteredAdd { state, book, queue, path: reader.bytes()? };
    within("book", add.book.len(), SMALL.book_bytes)?;
    within("queue", add.queue.len(), SMALL.queue_bytes)?;
    within("path", add.path.len(), PATH_BYTES)?;
    let mut now = Case::default();
    write_answer(&mut now, &add);
    reader.expect(&now.0)
}
