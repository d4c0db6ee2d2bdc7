//! What holds entries to the window at the last tidy and the paths since, on books that list wrong: each must
//! be told. And the recorded lists with tidies show everything that such a list can show.

mod held;

use cases::calls::Call;
use cases::sample;
use compare::{in_tidied_lists, own, Listed, Tally};
use held::Held;
use recount::limits::{ENTRY_BYTES, PLACE_BYTES};
use recount::{entry_bytes, path_bytes, Address};

const ONE: Address = Address::new(-1, 7);
const TWO: Address = Address::new(0, 3);
const THREE: Address = Address::new(0, 7);

const OPEN: Call = Call::Open { window: 1, book_len: 7 * ENTRY_BYTES, queue_len: PLACE_BYTES };

fn add(path: &[Address]) -> Call {
    Call::Add { path: path_bytes(path) }
}

/// Window 1: a path has left it, and (TWO, ONE) is in it.
fn two_adds() -> Vec<Call> {
    vec![OPEN, add(&[THREE, ONE, TWO]), add(&[TWO, ONE])]
}

/// All entries after the two adds, in order.
const ALL: [(Address, Option<Address>, u32); 6] = [
    (ONE, None, 1),
    (ONE, Some(TWO), 0),
    (TWO, None, 0),
    (TWO, Some(ONE), 1),
    (THREE, None, 0),
    (THREE, Some(ONE), 0),
];

/// The choices of entries, a bit each from the last on, that pass after these calls and one more, and that
/// the bytes themselves have.
fn passing(calls: &[Call], call: &Call) -> (Vec<u32>, u32) {
    let book = |chosen: u32| -> Vec<u8> {
        let entries = ALL.iter().enumerate().filter(|(index, _)| chosen >> (5 - index) & 1 == 1);
        entries.flat_map(|(_, (node, child, count))| entry_bytes(*node, *child, *count)).collect()
    };
    let passes =
        |chosen: &u32| Held::after(Listed::hold, calls).passes(call, chosen.count_ones(), &book(*chosen));
    let (used, _) = Held::after(Listed::hold, &[calls, &[call.clone()]].concat()).used_and_book();
    ((0..64).filter(passes).collect(), used)
}

/// Shuts out a tidy that keeps what left, that drops an ending of 0 whose node has a child that counts, or
/// that drops more.
#[test]
fn one_choice_of_entries_passes() {
    let calls = two_adds();
    assert_eq!(passing(&calls, &Call::KlDivStats), (vec![0b111111], 6));
    assert_eq!(passing(&calls, &Call::Tidy), (vec![0b101100], 3));
    assert_eq!(passing(&[&calls[..], &[Call::Tidy]].concat(), &Call::Tidy), (vec![0b101100], 3));
    assert_eq!(passing(&calls, &OPEN), (vec![0], 0));
}

/// Shuts out listing from the tidy on alone: what stood in the window at it stays listed when it leaves.
#[test]
fn what_leaves_after_a_tidy() {
    let tidied = [&two_adds()[..], &[Call::Tidy]].concat();
    assert_eq!(passing(&tidied, &add(&[TWO])), (vec![0b101100], 3));
    assert_eq!(passing(&tidied, &add(&[THREE, ONE])), (vec![0b101111], 5));
    assert_eq!(passing(&tidied, &add(&[])), (vec![0b101100], 3));
    let again = [&tidied[..], &[add(&[TWO]), Call::Tidy]].concat();
    assert_eq!(passing(&again, &Call::KlDivStats), (vec![0b001000], 1));
}

#[test]
fn entries_in_another_order() {
    let held = || Held::after(Listed::hold, &two_adds());
    let (used, book) = held().used_and_book();
    assert!(held().passes(&Call::KlDivStats, used, &book));
    let (first, rest) = book.split_at(2 * ENTRY_BYTES);
    assert!(!held().passes(&Call::KlDivStats, used, &[&rest[..4 * ENTRY_BYTES], first].concat()));
}

#[test]
fn the_recorded_lists_show_everything() {
    let mut tally = Tally::default();
    for list in sample::tidy_lists() {
        own::check_list(&list, &mut tally).expect("the recount's two parts agree");
    }
    let missing = tally.met.missing();
    for what in in_tidied_lists() {
        assert!(!missing.contains(&what), "no recorded list has {}", what);
    }
}
