//! What holds an order to the least capacity, on answers that are wrong: each must be told.

use cases::calls::CallList;
use cases::exhaustive::Ordered;
use compare::Played;

/// Whether these numbers, the opening's first, pass in a book of so many entries for paths that need three,
/// with so many used at the end.
fn passes(capacity: usize, numbers: &[u32], used: u32) -> bool {
    let list = CallList { fill: 0, calls: Vec::new() };
    Played { numbers: numbers.to_vec(), used }.hold_order(&Ordered { list, capacity, least: 3 }).is_ok()
}

#[test]
fn from_the_least_capacity_on() {
    for capacity in [3, 4] {
        assert!(passes(capacity, &[0, 0, 0], 3));
        assert!(!passes(capacity, &[0, 12, 0], 3), "12 in a book that serves");
        assert!(!passes(capacity, &[0, 10, 0], 3), "another number");
        assert!(!passes(capacity, &[9, 0, 0], 3), "a refused opening");
        assert!(!passes(capacity, &[0, 0, 0], 2) && !passes(capacity, &[0, 0, 0], 4), "another number used");
    }
}

#[test]
fn below_it() {
    for capacity in [1, 2] {
        assert!(passes(capacity, &[0, 12, 0], 1) && passes(capacity, &[0, 12, 12], 0));
        assert!(!passes(capacity, &[0, 0, 0], 1), "no 12 in a book that is too small");
        assert!(!passes(capacity, &[0, 12, 11], 1), "another number beside a 12");
        assert!(!passes(capacity, &[12, 0, 0], 1), "12 for the opening alone");
        assert!(!passes(capacity, &[0, 12, 0], 3), "more used than there are");
    }
}
