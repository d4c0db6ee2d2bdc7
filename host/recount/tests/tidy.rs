//! A tidy, worked by hand: in a list of calls, where what is listed is what stood in the window at the last
//! tidy or in a path accepted since, and on memory that others wrote, where counts alone decide.

mod both;

use both::Both;
use recount::limits::*;
use recount::*;
use std::collections::BTreeSet;

const A: Address = Address::new(-1, 7);
const B: Address = Address::new(0, 3);
const C: Address = Address::new(0, 7);

/// An entry by its words: an ending, or a child under its node.
type Row = (Address, Option<Address>, u32);

fn row(entry: &[u8]) -> Row {
    (Address::read(entry), (word(entry, 2) == 1).then(|| Address::read(&entry[12..])), word(entry, 5))
}

/// A book of these entries, followed by two that hold `tail` everywhere.
fn book_of(rows: &[Row], tail: u8) -> Vec<u8> {
    let mut book: Vec<u8> =
        rows.iter().flat_map(|(node, child, count)| entry_bytes(*node, *child, *count)).collect();
    book.resize(book.len() + 2 * ENTRY_BYTES, tail);
    book
}

/// The entries that a tidy of these leaves, in a book whose tail is not zero. State, tail, queue and a second
/// tidy are as they must be.
fn kept(rows: &[Row]) -> Vec<Row> {
    let before = State { window: 2, used: rows.len() as u32, accepted: 7 };
    let mut book = book_of(rows, 0xa5);
    let queue = [[1, 0, 0, 0].to_vec(), vec![0x5a; PLACE_BYTES - 4]].concat().repeat(2);
    let state = memory::tidy(before, &mut book, &queue).unwrap();
    assert_eq!(state, State { used: state.used, ..before }, "window and accepted stay");
    let (used, tail) = book.split_at(ENTRY_BYTES * state.used as usize);
    assert!(tail.iter().all(|byte| *byte == 0), "zeros to the book's end");
    let mut again = book.clone();
    assert_eq!(memory::tidy(state, &mut again, &queue), Ok(state));
    assert_eq!(again, book, "a second tidy changes nothing");
    used.chunks(ENTRY_BYTES).map(row).collect()
}

impl Both {
    /// The used entries.
    fn rows(&self) -> Vec<Row> {
        self.book.chunks(ENTRY_BYTES).take(self.state.used as usize).map(row).collect()
    }
}

/// Nodes and transitions of these paths.
fn named(paths: &[&[Address]]) -> BTreeSet<(Address, Option<Address>)> {
    let nodes = paths.iter().flat_map(|path| path.iter()).map(|node| (*node, None));
    let pairs = paths.iter().flat_map(|path| path.windows(2)).map(|pair| (pair[0], Some(pair[1])));
    nodes.chain(pairs).collect()
}

/// Shuts out a tail of which only the places given up are zeroed.
#[test]
fn nothing_used_and_bytes_that_are_not_zero() {
    let mut book = vec![0xa5; ENTRY_BYTES];
    let state = State { window: 0, used: 0, accepted: 0 };
    assert_eq!(memory::tidy(state, &mut book, &[]), Ok(state));
    assert_eq!(book, vec![0; ENTRY_BYTES]);
    assert_eq!(kept(&[]), []);
}

/// Shuts out an ending of 0 that goes though a child of its node counts, and a node of zeros that stays.
#[test]
fn only_counts_decide() {
    let rows = [(A, None, 0), (A, Some(B), 1), (B, None, 0)];
    assert_eq!(kept(&rows), rows[..2], "B goes, though A names it");
    let rows = [(A, None, 1), (A, Some(C), 1), (B, None, 1)];
    assert_eq!(kept(&rows), rows, "C is no node, and stays a child");
    let rows = [(A, None, 0), (A, Some(A), 0), (A, Some(B), 0), (B, None, 0), (B, Some(B), 0)];
    assert_eq!(kept(&rows), [], "all go");
}

/// Shuts out a child of 0 that stays because its node does, and gaps that are not closed.
#[test]
fn children_of_a_node_that_stays() {
    let rows = [
        (A, None, 3),
        (A, Some(A), 0),
        (A, Some(B), MAX_COUNT),
        (A, Some(C), 0),
        (B, None, 0),
        (B, Some(A), 0),
        (C, None, 0),
        (C, Some(A), 0),
        (C, Some(B), 2),
    ];
    assert_eq!(kept(&rows), [rows[0], rows[2], rows[6], rows[8]]);
    assert_eq!(kept(&rows[..4]), [rows[0], rows[2]], "the last entry used is one that goes");
    assert_eq!(kept(&rows[..1]), rows[..1], "nothing goes");
}

/// Every way in which the form breaks is a 9, and then nothing changes; each next to it is taken.
#[test]
fn a_form_that_is_broken() {
    let rows = [(A, None, 1), (A, Some(B), 0), (B, None, 0)];
    let answer = |state: State, rows: &[Row], queue: &[u8]| {
        let mut book = book_of(rows, 0xa5);
        let before = book.clone();
        let answer = memory::tidy(state, &mut book, queue);
        assert!(answer.is_ok() || book == before, "a refused tidy changed the book");
        answer.map_or_else(|refusal| refusal.number, |_| 0)
    };
    let state = State { window: 1, used: 3, accepted: 1 };
    let queue = [&1_u32.to_le_bytes()[..], &[0; PLACE_BYTES]].concat();
    let with = |state: State| answer(state, &rows, &queue);
    assert_eq!(with(state), 0);
    assert_eq!((with(State { used: 6, ..state }), with(State { used: u32::MAX, ..state })), (9, 9));
    assert_eq!(with(State { window: 2, ..state }), 9, "the queue has one place");
    assert_eq!((with(State { window: 0, ..state }), with(State { window: 1_025, ..state })), (0, 9));
    assert_eq!(with(State { accepted: MAX_ACCEPTED, ..state }), 0, "11 is an add's");
    assert_eq!(with(State { accepted: MAX_ACCEPTED + 1, ..state }), 9);
    assert_eq!(answer(state, &[rows[2], rows[0], rows[1]], &queue), 9, "nodes that do not ascend");
    let two = State { used: 2, ..state };
    assert_eq!((answer(two, &rows[..2], &queue), answer(two, &rows[1..], &queue)), (0, 9));
    let most = |count: u32| answer(state, &[(A, None, count), rows[1], rows[2]], &queue);
    assert_eq!((most(MAX_COUNT), most(MAX_COUNT + 1)), (0, 9));
    let filled = |length: u32| answer(state, &rows, &[&length.to_le_bytes()[..], &[0; 512]].concat());
    assert_eq!((filled(0), filled(1), filled(64), filled(65)), (9, 0, 0, 9));
    assert_eq!(answer(state, &rows, &queue[..PLACE_BYTES - 1]), 9);
    assert_eq!(memory::tidy(state, &mut vec![0; 73], &queue), Err(Refusal::plain(9)), "no whole entries");
}

/// The most entries: all with a count of 0, none, and each second one.
#[test]
fn the_largest_book() {
    let node = |index: usize| Address::new(0, index as u32);
    let left = |count: fn(usize) -> u32| {
        let entry = |index: usize| entry_bytes(node(index), None, count(index));
        let mut book: Vec<u8> = (0..MAX_ENTRIES).flat_map(entry).collect();
        let state = State { window: 0, used: MAX_ENTRIES as u32, accepted: 0 };
        let state = memory::tidy(state, &mut book, &[]).unwrap();
        let (used, tail) = book.split_at(ENTRY_BYTES * state.used as usize);
        assert!(tail.iter().all(|byte| *byte == 0));
        used.chunks(ENTRY_BYTES).map(row).collect::<Vec<Row>>()
    };
    assert_eq!(left(|_| 0), []);
    assert!(left(|_| 2).into_iter().eq((0..MAX_ENTRIES).map(|index| (node(index), None, 2))));
    let odd = (0..MAX_ENTRIES).filter(|index| index % 2 == 1).map(|index| (node(index), None, 1));
    assert!(left(|index| index as u32 % 2).into_iter().eq(odd));
}

/// A child of 0 goes and its node stays, in the window part and on lent bytes alike.
#[test]
fn what_left_the_window() {
    let both = Both::open(1, 9).after(&[&[A, B, C], &[A, C]]);
    let all = [(A, None, 0), (A, Some(B), 0), (A, Some(C), 1), (B, None, 0), (B, Some(C), 0), (C, None, 1)];
    assert_eq!(both.rows(), all);
    let both = both.tidied();
    assert_eq!(both.rows(), [all[0], all[2], all[5]]);
    assert_eq!(both.state, State { window: 1, used: 3, accepted: 2 });
    assert_eq!(both.evidence().sequence_len, 1);
}

/// Shuts out base := the length of H: (A, B) still stands in the window at the tidy, and stays listed with
/// counts of 0 when it leaves.
#[test]
fn what_leaves_after_the_tidy() {
    let both = Both::open(2, 9).after(&[&[C], &[A, B], &[B]]);
    let both = both.tidied().after(&[&[C]]);
    assert_eq!(
        both.rows(),
        [(A, None, 0), (A, Some(B), 0), (B, None, 1), (C, None, 1)],
        "C was dropped and is listed again"
    );
    assert_eq!(both.tidied().rows(), [(B, None, 1), (C, None, 1)]);
}

/// Shuts out a tidy that begins anew: the path numbered k goes to place k mod window, and 11 comes after as
/// many paths as without it.
#[test]
fn accepted_and_places_go_on() {
    let both = Both::open(2, 9).after(&[&[A], &[B], &[C]]).tidied();
    assert_eq!(both.state.accepted, 3);
    let both = both.after(&[&[A, A]]);
    let step = |place: usize| Address::read(&both.queue[PLACE_BYTES * place + 4..]);
    assert_eq!((step(0), step(1), both.state.accepted), (C, A, 4));
    assert_eq!(both.rows(), [(A, None, 1), (A, Some(A), 1), (B, None, 0), (C, None, 1)]);

    let mut both = Both::open(0, 9).after(&[&[A]]);
    let full = State { accepted: MAX_ACCEPTED, ..both.state };
    assert_eq!(memory::tidy(full, &mut both.book, &both.queue), Ok(full));
    let refused = memory::add_path(full, &mut both.book, &mut both.queue, &path_bytes(&[A]));
    assert_eq!(refused, Err(Refusal::plain(11)));
}

/// With window 0, before the window is full, and without paths a tidy changes nothing; nor does a second one.
#[test]
fn tidies_that_change_nothing() {
    let paths: [&[Address]; 3] = [&[A, B], &[B, C], &[C, C]];
    for (window, count) in [(0, 3), (3, 3), (3, 2), (1, 1), (0, 0), (2, 0)] {
        let both = Both::open(window, 9).after(&paths[..count]);
        let (state, book) = (both.state, both.book.clone());
        let both = both.tidied();
        assert_eq!((both.state, both.book), (state, book), "window {}, {} paths", window, count);
    }
    let once = Both::open(1, 9).after(&paths).tidied();
    let (state, history) = (once.state, once.history.clone());
    let twice = once.tidied();
    assert_eq!((twice.state, twice.history), (state, history));
}

/// Shuts out 12 by what was listed before the tidy, and 12 that counts the window part alone.
#[test]
fn the_places_of_what_left() {
    let mut both = Both::open(1, 4).after(&[&[A, B], &[C]]);
    assert_eq!((both.add(&[C, C]), both.add(&[B, C])), (12, 12), "A, A to B, B and C are listed");
    let mut both = both.tidied();
    assert_eq!((both.state.used, both.add(&[B, C])), (1, 0));
    assert_eq!(both.add(&[A]), 0, "C, B and B to C are listed, and one entry is free");
    assert_eq!(both.add(&[A, A]), 12, "what has left since the tidy has its places");
    let mut both = both.tidied();
    assert_eq!((both.add(&[B, A]), both.state.used), (0, 3));
    assert_eq!((both.add(&[B, C]), both.add(&[A, A])), (12, 0));
}

/// An accepted opening starts afresh; a refused one leaves the tidied tracker.
#[test]
fn openings_after_a_tidy() {
    let paths: [&[Address]; 2] = [&[A, B], &[C]];
    let mut both = Both::open(1, 9).after(&paths).tidied();
    let refused = memory::open(MAX_WINDOW + 1, &mut both.book, &mut both.queue);
    assert_eq!((refused, both.rows()), (Err(Refusal::plain(8)), vec![(C, None, 1)]));
    both.state = memory::open(1, &mut both.book, &mut both.queue).unwrap();
    both.history = Recount::open(1, both.book.len(), both.queue.len()).unwrap();
    assert_eq!(both.after(&paths).rows(), [(A, None, 0), (A, Some(B), 0), (B, None, 0), (C, None, 1)]);
}

/// Listed exactly when it stood in the window at the last tidy or in a path accepted since: after every add
/// of a list, with a tidy at every choice of places, refused adds in between.
#[test]
fn listed_exactly_when() {
    let paths: [&[Address]; 5] = [&[A, B], &[C, A, B], &[B], &[], &[B, B, C]];
    for (window, places) in (0..4).flat_map(|window| (0..32).map(move |places| (window, places))) {
        let mut both = Both::open(window, 9);
        let (mut taken, mut at_tidy, mut since) = (Vec::new(), Vec::new(), Vec::new());
        for (number, path) in paths.into_iter().enumerate() {
            if both.add(path) == 0 {
                taken.push(path);
                since.push(path);
            }
            if places >> number & 1 == 1 {
                both = both.tidied();
                let first = if window == 0 { 0 } else { taken.len().saturating_sub(window as usize) };
                (at_tidy, since) = (taken[first..].to_vec(), Vec::new());
            }
            let listed: BTreeSet<_> = both.rows().into_iter().map(|(node, child, _)| (node, child)).collect();
            let expected = &named(&at_tidy) | &named(&since);
            assert_eq!(listed, expected, "window {}, tidies {:b}, path {}", window, places, number);
        }
    }
}

/// Readings go by what is listed: places, nodes skipped, and 14 and 15 of what no longer counts.
#[test]
fn readings_after_a_tidy() {
    let both = Both::open(1, 9).after(&[&[A, B], &[A, C], &[C]]);
    let g: Vec<f64> = (0..8).map(f64::from).collect();
    let told = |both: &Both, last: usize, children: &[u8]| {
        let (nodes, floor) = (record_bytes(A, 4, 1), i32::MIN);
        let tables = LentTables { g: &g[..=last], d: &g[..=last] };
        let lent = Memory { state: both.state, book: &both.book, queue: &both.queue };
        kl_div_stats(&lent, tables, LentPriors { nodes: &nodes, children, floor }).map(|stats| stats.skipped)
    };
    let known = [record_bytes(B, 1, 2), record_bytes(C, 1, 0)].concat();
    let lacks_c = record_bytes(B, 1, 0);
    assert_eq!(told(&both, 7, &known), Ok(2));
    assert_eq!(told(&both, 7, &lacks_c), Err(Refusal::at(14, A)));
    assert_eq!(told(&both, 5, &known), Err(Refusal::at(15, A)));
    let both = both.tidied();
    assert_eq!(both.rows(), [(C, None, 1)]);
    for (last, children) in [(7, &known), (7, &lacks_c), (5, &known)] {
        assert_eq!(told(&both, last, children), Ok(1));
    }
    let both = Both::open(1, 9).after(&[&[A, B], &[A, C]]).tidied();
    let mut output = Output { addresses: &mut [0; 16], figures: &mut [-1.0; 2] };
    let vector = evidence_prob_vector(&both.history, A, &mut output).unwrap().unwrap();
    assert_eq!((vector.places, Address::read(output.addresses)), (1, C), "the zero child has no place");
}
