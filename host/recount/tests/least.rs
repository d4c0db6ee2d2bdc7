//! The least capacity, worked by hand: different addresses and different pairs of neighbours, a pair having
//! an order. A book of as many entries takes a list in any order; a smaller one answers some add with 12
//! and takes each that it does not, in the history and on lent bytes alike.

use recount::limits::{ENTRY_BYTES, MAX_WINDOW, PLACE_BYTES};
use recount::*;

const ONE: Address = Address::new(2, 1);
const TWO: Address = Address::new(1, 1);
const THREE: Address = Address::new(-1, 7);

/// The numbers that adds of these paths are answered, and the entries used after them.
fn added(window: u32, capacity: usize, paths: &[&[Address]]) -> (Vec<u32>, usize) {
    let mut book = vec![0xff; ENTRY_BYTES * capacity];
    let mut queue = vec![0xff; PLACE_BYTES * window as usize];
    let mut history = Recount::open(window, book.len(), queue.len()).unwrap();
    let mut state = memory::open(window, &mut book, &mut queue).unwrap();
    let mut add = |path: &&[Address]| {
        let answer = memory::add_path(state, &mut book, &mut queue, &path_bytes(path));
        assert_eq!(history.add_path(&path_bytes(path)), answer.map(|_| ()));
        state = answer.unwrap_or(state);
        answer.err().map_or(0, |refusal| refusal.number)
    };
    let numbers = paths.iter().map(&mut add).collect();
    assert_eq!(history.state(), state);
    (numbers, state.used as usize)
}

/// The list needs `needed` entries: these take it, and with one less it is answered as `short` says.
fn needs(paths: &[&[Address]], needed: usize, short: &[u32]) {
    assert_eq!(least(paths), needed);
    let backwards: Vec<&[Address]> = paths.iter().rev().copied().collect();
    for window in [0, 1, 2, MAX_WINDOW] {
        for order in [paths, &backwards] {
            for capacity in [needed, needed + 1] {
                assert_eq!(added(window, capacity, order), (vec![0; paths.len()], needed));
            }
        }
        if needed > 1 {
            assert_eq!(added(window, needed - 1, paths).0, short);
        }
    }
}

#[test]
fn addresses_and_pairs() {
    let none: [&[Address]; 0] = [];
    assert_eq!(least(&none), 0);
    needs(&[&[ONE]], 1, &[]);
    needs(&[&[ONE, TWO]], 3, &[12]);
    needs(&[&[ONE, TWO, THREE]], 5, &[12]);
    needs(&[&[ONE], &[TWO]], 2, &[0, 12]);
}

/// Shuts out 12 where the entries, with those of the path, are as many as the capacity.
#[test]
fn the_last_entry_is_used() {
    needs(&[&[ONE], &[TWO, TWO]], 3, &[0, 12]);
    needs(&[&[ONE, ONE], &[ONE], &[ONE, ONE, ONE]], 2, &[12, 0, 12]);
}

/// Shuts out room by 2n - 1 keys that are not looked up: the second path, of five, finds two entries free.
#[test]
fn what_is_listed_needs_no_room() {
    needs(&[&[ONE, TWO], &[ONE, TWO, THREE], &[ONE, TWO, THREE]], 5, &[0, 12, 12]);
    needs(&[&[ONE, TWO, ONE, TWO, ONE]], 4, &[12]);
}

/// Shuts out endings that are listed only where a path ends: by those the first path would need two entries.
#[test]
fn a_node_that_no_path_ends_at() {
    needs(&[&[ONE, TWO], &[TWO]], 3, &[12, 0]);
    needs(&[&[ONE, TWO, THREE], &[THREE]], 5, &[12, 0]);
}

/// Shuts out pairs without an order, by which the second path would bring nothing.
#[test]
fn a_pair_in_both_directions() {
    needs(&[&[ONE, TWO], &[TWO, ONE]], 4, &[0, 12]);
    needs(&[&[ONE, TWO, ONE]], 4, &[12]);
}

/// A node that goes to itself has one such pair, however often it does, and no second address.
#[test]
fn from_a_node_to_itself() {
    needs(&[&[ONE, ONE]], 2, &[12]);
    needs(&[&[ONE, ONE, ONE], &[ONE, ONE]], 2, &[12, 12]);
}

/// Repeats bring nothing, nor does a refused path: what comes after it goes on as if it had not been.
#[test]
fn after_a_12() {
    let paths: [&[Address]; 4] = [&[ONE, TWO], &[TWO, THREE], &[ONE], &[TWO, ONE]];
    needs(&paths, 6, &[0, 0, 0, 12]);
    assert_eq!(added(0, 4, &paths), (vec![0, 12, 0, 0], 4));
    assert_eq!(added(1, 3, &paths), (vec![0, 12, 0, 12], 3));
    assert_eq!(added(0, 2, &paths), (vec![12, 12, 0, 12], 1));
    assert_eq!(added(0, 1, &paths), (vec![12, 12, 0, 12], 1));
}
