//! Visits, worked by hand: in the paths of the window part a node is visited where a path begins at it and
//! where it is a child. After every call the evidence total of each listed node is its visits, and all
//! counts together are the steps, in the history and on lent bytes alike.

mod both;

use both::Both;
use recount::limits::MAX_WINDOW;
use recount::*;

const ONE: Address = Address::new(2, 1);
const TWO: Address = Address::new(1, 1);
const THREE: Address = Address::new(-1, 7);

fn plain(paths: &[&[Address]]) -> Vec<Vec<Address>> {
    paths.iter().map(|path| path.to_vec()).collect()
}

/// The visits of `ONE`, `TWO` and `THREE` in these paths.
fn visits_in(paths: &[&[Address]]) -> [u64; 3] {
    let visits = visits(&plain(paths));
    [ONE, TWO, THREE].map(|node| visits.get(&node).copied().unwrap_or(0))
}

impl Both {
    /// The totals of `ONE`, `TWO` and `THREE`, none of a node that is not listed, and all counts together.
    fn totals(&self) -> ([Option<u64>; 3], u64) {
        let nodes = self.evidence().nodes;
        let total = |node: &Address| nodes.get(node).map(NodeEvidence::total);
        ([ONE, TWO, THREE].map(|node| total(&node)), nodes.values().map(NodeEvidence::total).sum())
    }

    /// The window part is `window_part`, with these totals and steps by hand, and its visits are the totals.
    fn must_have(&self, window_part: &[&[Address]], totals: [Option<u64>; 3], steps: u64) {
        assert_eq!(self.totals(), (totals, steps));
        assert_eq!(visits_in(window_part), totals.map(|total| total.unwrap_or(0)));
        assert_eq!(step_count(&plain(window_part)), steps);
    }
}

#[test]
fn beginnings_and_children() {
    assert_eq!(visits_in(&[]), [0, 0, 0]);
    assert_eq!(visits_in(&[&[ONE]]), [1, 0, 0], "a beginning that is an end, too");
    assert_eq!(visits_in(&[&[ONE, TWO]]), [1, 1, 0], "the last step is no beginning");
    assert_eq!(visits_in(&[&[ONE, TWO, THREE], &[TWO]]), [1, 2, 1]);
    assert_eq!(visits(&plain(&[&[ONE, TWO]])).len(), 2, "a node without visits is missing");
    assert_eq!(step_count(&plain(&[&[ONE, TWO, ONE], &[ONE]])), 4);
}

/// Shuts out a path that counts once for a node, and endings that are not counted (then `ONE` has 1).
#[test]
fn a_node_twice_in_a_path() {
    let path: &[Address] = &[ONE, TWO, ONE];
    Both::open(0, 9).after(&[path]).must_have(&[path], [Some(2), Some(1), None], 3);
}

/// Shuts out pairs without repeats (2 in place of 3), and pairs with a node itself that are passed over.
#[test]
fn from_a_node_to_itself() {
    let path: &[Address] = &[ONE, ONE];
    Both::open(0, 9).after(&[path]).must_have(&[path], [Some(2), None, None], 2);
    let path: &[Address] = &[ONE, ONE, ONE];
    Both::open(0, 9).after(&[path]).must_have(&[path], [Some(3), None, None], 3);
}

/// The same pair in two paths, and twice in one. Shuts out pairs without repeats.
#[test]
fn a_pair_again() {
    let paths: [&[Address]; 2] = [&[ONE, TWO, ONE, TWO], &[ONE, TWO]];
    Both::open(0, 9).after(&paths).must_have(&paths, [Some(3), Some(3), None], 6);
}

/// Shuts out beginnings over H, by which `ONE` would have 2, then 1 where it has none.
#[test]
fn a_path_that_began_here_has_left() {
    let paths: [&[Address]; 3] = [&[ONE, TWO], &[TWO, ONE], &[THREE]];
    let first_two = Both::open(1, 9).after(&paths[..2]);
    first_two.must_have(&paths[1..2], [Some(1), Some(1), None], 2);
    assert_eq!(visits_in(&paths[..2]), [2, 2, 0]);
    first_two.after(&paths[2..]).must_have(&paths[2..], [Some(0), Some(0), Some(1)], 1);
}

/// Shuts out a path that is taken away before the window is full, or one too late.
#[test]
fn around_a_full_window() {
    let paths: [&[Address]; 5] = [&[ONE], &[ONE, TWO], &[TWO, THREE, ONE], &[TWO], &[THREE, THREE]];
    let expected = [
        ([Some(1), None, None], 1),
        ([Some(2), Some(1), None], 3),
        ([Some(3), Some(2), Some(1)], 6),
        ([Some(2), Some(3), Some(1)], 6),
        ([Some(1), Some(2), Some(3)], 6),
    ];
    for (count, (totals, steps)) in (1..).zip(expected) {
        let window_part = &paths[usize::saturating_sub(count, 3)..count];
        Both::open(3, 9).after(&paths[..count]).must_have(window_part, totals, steps);
    }
}

/// Paths of one step are beginnings and endings alone. Shuts out endings that are not counted, by which the
/// counts together would be the steps less the paths, so 0.
#[test]
fn paths_of_one_step() {
    let paths: [&[Address]; 3] = [&[ONE], &[ONE], &[TWO]];
    Both::open(0, 9).after(&paths).must_have(&paths, [Some(2), Some(1), None], 3);
    Both::open(2, 9).after(&paths).must_have(&paths[1..], [Some(1), Some(1), None], 2);
}

/// Shuts out a refused path that is counted, or that moves the window on.
#[test]
fn a_refused_add_in_between() {
    let refused = [TWO, ONE, ONE];
    for window in [0, 2] {
        let mut both = Both::open(window, 3).after(&[&[ONE, TWO]]);
        assert_eq!(both.add(&refused), 12);
        both.must_have(&[&[ONE, TWO]], [Some(1), Some(1), None], 2);
        both.after(&[&[TWO]]).must_have(&[&[ONE, TWO], &[TWO]], [Some(1), Some(2), None], 3);
    }
    let mut both = Both::open(1, 3).after(&[&[ONE, TWO]]);
    assert_eq!((both.add(&refused), both.add(&[])), (12, 10));
    both.after(&[&[TWO]]).must_have(&[&[TWO]], [Some(0), Some(1), None], 1);
}

/// Shuts out counts, and a window, that outlive their tracker; a refused opening leaves it as it is.
#[test]
fn a_further_opening() {
    let mut both = Both::open(1, 9).after(&[&[ONE, TWO], &[TWO, TWO]]);
    let refused = memory::open(MAX_WINDOW + 1, &mut both.book, &mut both.queue);
    assert_eq!(refused, Err(Refusal::plain(8)));
    both.must_have(&[&[TWO, TWO]], [Some(0), Some(2), None], 2);
    both.state = memory::open(0, &mut both.book, &mut both.queue).unwrap();
    both.history = Recount::open(0, both.book.len(), both.queue.len()).unwrap();
    both.must_have(&[], [None, None, None], 0);
    let paths: [&[Address]; 2] = [&[ONE], &[THREE, ONE]];
    both.after(&paths).must_have(&paths, [Some(2), None, Some(1)], 3);
}

/// Shuts out a tidy that drops what still counts, or that forgets the window: what leaves it later would be
/// missing, or be taken away too late.
#[test]
fn tidies_in_between() {
    let paths: [&[Address]; 4] = [&[ONE, TWO], &[TWO, THREE], &[THREE], &[THREE, THREE]];
    let full = Both::open(2, 9).after(&paths[..2]).tidied();
    full.must_have(&paths[..2], [Some(1), Some(2), Some(1)], 4);
    let passed = full.after(&paths[2..3]);
    passed.must_have(&paths[1..3], [Some(0), Some(1), Some(2)], 3);
    let passed = passed.tidied();
    passed.must_have(&paths[1..3], [None, Some(1), Some(2)], 3);
    passed.after(&paths[3..]).must_have(&paths[2..], [None, Some(0), Some(3)], 3);
}
