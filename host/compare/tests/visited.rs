//! What holds counts to visits, on books that count wrong: each must be told.

mod held;

use cases::calls::Call;
use compare::Visited;
use held::Held;
use recount::limits::{ENTRY_BYTES, PLACE_BYTES};
use recount::{path_bytes, word, Address};

const ONE: Address = Address::new(-1, 7);
const TWO: Address = Address::new(0, 3);

const OPEN: Call = Call::Open { window: 1, book_len: 6 * ENTRY_BYTES, queue_len: PLACE_BYTES };

/// Window 1: the path (ONE, TWO, ONE) has left it, the path (TWO, TWO) is in it. The used entries are ONE's
/// ending with 0, ONE to TWO with 0, TWO's ending with 1, TWO to ONE with 0 and TWO to TWO with 1.
fn two_adds() -> Held<Visited> {
    let add = |path: &[Address]| Call::Add { path: path_bytes(path) };
    Held::after(Visited::hold, &[OPEN, add(&[ONE, TWO, ONE]), add(&[TWO, TWO])])
}

/// Whether entries in place of those that the bytes have pass, after a call that has changed nothing.
fn passes(held: Held<Visited>, used: u32, book: &[u8]) -> bool {
    held.passes(&Call::KlDivStats, used, book)
}

#[test]
fn the_bytes_themselves() {
    let (used, book) = two_adds().used_and_book();
    let counts: Vec<u32> = book.chunks(ENTRY_BYTES).take(5).map(|entry| word(entry, 5)).collect();
    assert_eq!((used, &counts[..]), (5, &[0, 0, 1, 0, 1][..]));
    assert!(passes(two_adds(), used, &book));
}

#[test]
fn a_count_too_many_or_too_few() {
    let (_, book) = two_adds().used_and_book();
    for entry in 0..5 {
        for count in [0, 1, 2] {
            let mut altered = book.clone();
            altered[ENTRY_BYTES * entry + 20] = count;
            let right = altered == book;
            assert_eq!(passes(two_adds(), 5, &altered), right, "entry {} with count {}", entry, count);
        }
    }
}

#[test]
fn a_count_of_another_node() {
    let (_, mut book) = two_adds().used_and_book();
    book[20] = 1;
    book[ENTRY_BYTES * 2 + 20] = 0;
    assert!(!passes(two_adds(), 5, &book), "all counts together are the steps, but each node's are not");
}

#[test]
fn a_node_that_is_not_listed() {
    let (_, book) = two_adds().used_and_book();
    assert!(!passes(two_adds(), 2, &book), "TWO has visits");
    assert!(!passes(two_adds(), 4, &book), "TWO has one visit more");
    assert!(!passes(two_adds(), 0, &book), "nothing is listed");
    let without_ending = [&book[..ENTRY_BYTES * 2], &book[ENTRY_BYTES * 3..]].concat();
    assert!(!passes(two_adds(), 4, &without_ending), "TWO has children's entries alone");
}

#[test]
fn entries_after_an_opening() {
    let (_, book) = two_adds().used_and_book();
    let anew = || Held::after(Visited::hold, &[OPEN]);
    assert!(passes(anew(), 0, &book) && !passes(anew(), 5, &book));
}

/// A tidy leaves no node without visits, and no visit uncounted. That TWO to ONE goes is another law's
/// matter.
#[test]
fn a_tidy() {
    let (_, book) = two_adds().used_and_book();
    let tidied = |used: u32, book: &[u8]| two_adds().passes(&Call::Tidy, used, book);
    let two = &book[ENTRY_BYTES * 2..];
    assert!(tidied(3, two) && passes(two_adds(), 5, &book));
    assert!(!tidied(5, &book), "ONE has no visits");
    assert!(!tidied(2, two) && !tidied(0, two), "a count is lost");
}
