//! Each refusal on both sides of its limit, and the order among them.

use recount::limits::*;
use recount::*;

fn number<T>(result: Result<T, Refusal>) -> u32 {
    result.err().map_or(0, |refusal| refusal.number)
}

fn record(scale: i32, point: u32, count: u32, link: u32) -> Vec<u8> {
    record_bytes(Address::new(scale, point), count, link)
}

/// Priors without a floor.
fn lent<'a>(nodes: &'a [u8], children: &'a [u8]) -> LentPriors<'a> {
    LentPriors { nodes, children, floor: i32::MIN }
}

fn priors(nodes: &[Vec<u8>], children: &[Vec<u8>]) -> u32 {
    number(check_priors(lent(&nodes.concat(), &children.concat())))
}

fn tables(g: &[f64], d: &[f64]) -> u32 {
    number(check_tables(LentTables { g, d }))
}

#[test]
fn table_lengths() {
    for (length, expected) in [(0, 1), (1, 1), (2, 0), (1_048_576, 0), (1_048_577, 1)] {
        let table = vec![0.0; length];
        assert_eq!(tables(&table, &table), expected, "{} entries", length);
    }
    assert_eq!(tables(&[0.0; 3], &[0.0; 2]), 1);
}

#[test]
fn table_entries() {
    let bound = MAX_TABLE_ENTRY;
    for entry in [bound, -bound, -0.0, 5.0e-324] {
        assert_eq!(tables(&[f64::NAN, entry], &[f64::INFINITY, entry]), 0);
    }
    for entry in [bound.next_up(), (-bound).next_down(), f64::NAN, f64::INFINITY, f64::NEG_INFINITY] {
        assert_eq!(tables(&[0.0, entry], &[0.0, 0.0]), 2);
        assert_eq!(tables(&[0.0, 0.0], &[0.0, entry]), 2);
    }
}

#[test]
fn numbers_of_records() {
    let nodes = |count: u32| (0..count).map(|point| record(0, point, 1, 0)).collect::<Vec<_>>();
    assert_eq!((priors(&nodes(4_096), &[]), priors(&nodes(4_097), &[])), (0, 3));
    assert_eq!((priors(&[], &nodes(16_384)), priors(&[], &nodes(16_385))), (0, 3));
    assert_eq!(priors(&[vec![0; 15]], &[]), 3);
    assert_eq!(priors(&[], &[vec![0; 17]]), 3);
}

#[test]
fn node_order_is_by_signed_scale() {
    assert_eq!(priors(&[record(-1, 5, 1, 0), record(0, 0, 1, 0)], &[]), 0);
    assert_eq!(priors(&[record(0, 0, 1, 0), record(-1, 5, 1, 0)], &[]), 4);
    assert_eq!(priors(&[record(0, 5, 1, 0), record(0, 5, 1, 0)], &[]), 4);
}

#[test]
fn links() {
    let child = |link: u32| record(0, 0, 1, link);
    assert_eq!(priors(&[record(0, 0, 1, 2)], &[child(0)]), 5);
    assert_eq!(priors(&[], &[child(1)]), 5, "a record that links to itself, reached or not");
    assert_eq!(priors(&[], &[child(2), child(0)]), 0, "an unreached chain may be out of order");
    assert_eq!(priors(&[record(0, 0, 1, 2)], &[child(0), child(0)]), 0);
}

#[test]
fn chain_lengths() {
    let chain = |length: u32| -> Vec<Vec<u8>> {
        (1..=length).map(|own| record(0, own, 1, if own < length { own + 1 } else { 0 })).collect()
    };
    let node = [record(0, 0, 0, 1)];
    assert_eq!((priors(&node, &chain(64)), priors(&node, &chain(65))), (0, 5));
    assert_eq!(priors(&[], &chain(65)), 0, "a chain starts at a node");
}

#[test]
fn chain_order_and_counts() {
    let node = [record(0, 0, 1, 1)];
    assert_eq!(priors(&node, &[record(0, 2, 1, 2), record(0, 2, 1, 0)]), 6);
    assert_eq!(priors(&node, &[record(0, 2, 1, 2), record(-1, 3, 1, 0)]), 6);
    assert_eq!(priors(&[], &[record(0, 2, 0, 0)]), 7, "an unreached child with count 0");
    assert_eq!(priors(&[record(0, 0, 0, 0)], &[]), 7);
    assert_eq!(priors(&[record(0, 0, u32::MAX, 1)], &[record(0, 0, u32::MAX, 0)]), 0, "totals do not wrap");
}

#[test]
fn lower_numbers_first_over_all_records() {
    let out_of_order = [record(0, 2, 0, 2), record(0, 1, 1, 0)];
    assert_eq!(priors(&[record(1, 0, 1, 1), record(0, 0, 1, 9)], &out_of_order), 4);
    assert_eq!(priors(&[record(0, 0, 1, 1), record(1, 0, 1, 9)], &out_of_order), 5);
    assert_eq!(priors(&[record(0, 0, 1, 1), record(1, 0, 0, 0)], &out_of_order), 6);
}

#[test]
fn openings() {
    let open = |window: u32, book: usize, queue: usize| number(Recount::open(window, book, queue));
    assert_eq!(open(MAX_WINDOW + 1, 1, 0), 8, "8 comes before 9");
    for (book, expected) in [(0, 9), (23, 9), (24, 0), (25, 9), (24 * 16_384, 0), (24 * 16_385, 9)] {
        assert_eq!(open(0, book, 0), expected, "a book of {} bytes", book);
    }
    for (window, queue, expected) in
        [(1, 515, 9), (1, 516, 0), (2, 1_031, 9), (2, 1_033, 0), (0, 0, 0), (0, 7, 0)]
    {
        assert_eq!(open(window, 24, queue), expected, "window {}, queue of {} bytes", window, queue);
    }
}

#[test]
fn path_bytes_of_an_add() {
    for (length, expected) in [(0, 10), (7, 10), (8, 0), (9, 10), (504, 0), (512, 0), (513, 10), (520, 10)] {
        let mut recount = Recount::open(0, 240, 0).unwrap();
        assert_eq!(number(recount.add_path(&vec![0; length])), expected, "{} bytes", length);
    }
}

/// A book of one node with one child, and a queue of one path.
fn in_form() -> (State, Vec<u8>, Vec<u8>) {
    let (mut book, mut queue) = (vec![0; 3 * ENTRY_BYTES], vec![0; PLACE_BYTES]);
    let state = memory::open(1, &mut book, &mut queue).unwrap();
    let node = Address::new(0, 1);
    let state = memory::add_path(state, &mut book, &mut queue, &path_bytes(&[node, node])).unwrap();
    (state, book, queue)
}

/// The number that an add of `path` gets after `change`.
fn add_after(change: impl FnOnce(&mut State, &mut Vec<u8>, &mut Vec<u8>), path: &[u8]) -> u32 {
    let (mut state, mut book, mut queue) = in_form();
    change(&mut state, &mut book, &mut queue);
    number(memory::add_path(state, &mut book, &mut queue, path))
}

#[test]
fn the_form() {
    let path = path_bytes(&[Address::new(0, 1)]);
    let field =
        |bytes: &mut [u8], at: usize, value: u32| bytes[at..at + 4].copy_from_slice(&value.to_le_bytes());
    assert_eq!(add_after(|_, _, _| (), &path), 0);
    assert_eq!(add_after(|state, _, _| state.window = 1_025, &path), 9);
    assert_eq!(add_after(|state, _, _| state.used = 4, &path), 9);
    assert_eq!(add_after(|state, _, _| state.accepted = MAX_ACCEPTED + 1, &path), 9);
    assert_eq!(add_after(|_, _, queue| queue.truncate(515), &path), 9);
    assert_eq!(add_after(|_, book, _| book.truncate(71), &path), 9);
    assert_eq!(add_after(|_, book, _| field(book, 8, 1), &path), 9, "the first entry is an ending");
    assert_eq!(add_after(|_, book, _| field(book, 12, 1), &path), 9, "an ending has no child");
    assert_eq!(add_after(|_, book, _| field(book, 20, MAX_COUNT), &path), 0);
    assert_eq!(add_after(|_, book, _| field(book, 20, MAX_COUNT + 1), &path), 9);
    assert_eq!(add_after(|_, book, _| field(book, 32, 2), &path), 9, "kinds are 0 and 1");
    assert_eq!(add_after(|_, book, _| field(book, 28, 2), &path), 9, "a child follows its node's ending");
    assert_eq!(add_after(|_, _, queue| field(queue, 0, 0), &path), 9);
    assert_eq!(add_after(|_, _, queue| field(queue, 0, 65), &path), 9);
    assert_eq!(
        add_after(
            |state, _, queue| {
                state.accepted = 0;
                field(queue, 0, 65)
            },
            &path
        ),
        0,
        "not filled"
    );
    assert_eq!(add_after(|_, book, _| field(book, 2 * ENTRY_BYTES, 7), &path), 0, "past the used entries");
}

#[test]
fn order_of_an_adds_refusals() {
    let full = |state: &mut State| state.accepted = MAX_ACCEPTED;
    let unknown = path_bytes(&[Address::new(5, 5), Address::new(6, 6)]);
    assert_eq!(
        add_after(
            |state, _, _| {
                full(state);
                state.used = 4
            },
            &[]
        ),
        9
    );
    assert_eq!(add_after(|state, _, _| full(state), &[]), 10);
    assert_eq!(add_after(|state, _, _| full(state), &unknown), 11);
    assert_eq!(add_after(|state, _, _| state.accepted = MAX_ACCEPTED - 1, &unknown), 12);
}

#[test]
fn adding_comes_before_taking_away() {
    let (state, mut book, mut queue) = in_form();
    book[44..48].fill(0);
    let node = Address::new(0, 1);
    let state = memory::add_path(state, &mut book, &mut queue, &path_bytes(&[node, node])).unwrap();
    let counted = Memory { state, book: &book, queue: &queue }.evidence().unwrap();
    assert_eq!(counted.nodes[&node].children[&node], 0);
    assert_eq!(counted.nodes[&node].ending, 1);
}

#[test]
fn training_numbers() {
    let places = vec![0; PLACE_BYTES];
    let train_with = |sequences: u32, paths: u32, rate: u32, bytes: &[u8], book: usize, knots: usize| {
        let (mut book, mut knots, mut values) = (vec![1; book], vec![1; knots], vec![1.0; 10 * knots]);
        let sequences = Sequences { sequences, paths, rate, places: bytes };
        let mut baseline = Baseline { knots: &mut knots, values: &mut values };
        let tables = LentTables { g: &[0.0; 2], d: &[0.0; 2] };
        number(train(tables, lent(&[], &[]), &mut book, sequences, &mut baseline))
    };
    assert_eq!(train_with(0, 1, 1, &places, 23, 0), 9, "9 before 16");
    assert_eq!(train_with(0, 1, 1, &places, 24, 0), 16, "16 before 13");
    assert_eq!(train_with(1, 1, 1, &places, 24, 0), 13);
    assert_eq!(train_with(1, 1, 1, &places, 24, 1), 10, "a place of length 0");
    assert_eq!(train_with(1, 1, 0, &places, 24, 1), 16);
    assert_eq!(train_with(1, 0, 0, &[], 24, 1), 16, "rate 0 also without paths");
    assert_eq!((train_with(1, 0, 1, &[], 24, 0), train_with(64, 0, 1, &[], 24, 0)), (0, 0));
    assert_eq!((train_with(65, 0, 1, &[], 24, 0), train_with(1, 2, 1, &places, 24, 2)), (16, 16));
    let many = vec![0; PLACE_BYTES * 1_025];
    assert_eq!(train_with(1, 1_025, 1, &many, 24, 2_000), 16);
    assert_eq!(train_with(1, 1_025, 2, &many, 24, 2_000), 10);
}

#[test]
fn the_longest_sequence() {
    let places = vec![0; PLACE_BYTES * 65_537];
    let trained = |paths: u32| {
        let places = &places[..PLACE_BYTES * paths as usize];
        let sequences = Sequences { sequences: 1, paths, rate: 65_537, places };
        let mut baseline = Baseline { knots: &mut [0; 1], values: &mut [0.0; 10] };
        let tables = LentTables { g: &[0.0; 2], d: &[0.0; 2] };
        number(train(tables, lent(&[], &[]), &mut [0; 24], sequences, &mut baseline))
    };
    assert_eq!(trained(65_536), 10, "16 lets it through, and its first place has length 0");
    assert_eq!(trained(65_537), 16);
}

#[test]
fn stats_numbers() {
    let asked = |sequences: u32, knots: &[u32], values: usize, length: u32| {
        number(stats(sequences, knots, &vec![0.0; values], length))
    };
    assert_eq!(
        (asked(0, &[], 0, 1), asked(1, &[], 0, 1), asked(64, &[], 0, 1), asked(65, &[], 0, 1)),
        (17, 0, 0, 17)
    );
    assert_eq!((asked(1, &[1, 1], 20, 1), asked(1, &[2, 1], 20, 1), asked(1, &[0, 1], 20, 9)), (17, 17, 0));
    assert_eq!((asked(1, &[1], 9, 1), asked(1, &[1], 11, 1), asked(1, &[1], 10, 1)), (17, 17, 0));
    assert_eq!((asked(1, &[4], 10, 3), asked(1, &[4], 10, 4), asked(1, &[4], 10, 5)), (0, 0, 18));
    let knots: Vec<u32> = (0..1_025).collect();
    assert_eq!((asked(1, &knots[..1_024], 10_240, 9_999), asked(1, &knots, 10_250, 9_999)), (0, 17));
}

#[test]
fn a_15_at_a_lower_node_comes_before_a_14_at_a_higher_one() {
    let (low, high) = (Address::new(0, 0), Address::new(1, 0));
    let nodes = [record(0, 0, 2, 0), record(1, 0, 1, 0)].concat();
    let lent = lent(&nodes, &[]);
    let mut recount = Recount::open(0, 240, 0).unwrap();
    recount.add_path(&path_bytes(&[high, low])).unwrap();
    let refused =
        |table: &[f64]| kl_div_stats(&recount, LentTables { g: table, d: table }, lent).unwrap_err();
    assert_eq!(refused(&[0.0; 3]), Refusal::at(15, low));
    assert_eq!(refused(&[0.0; 4]), Refusal::at(14, high));
    let mut output = Output { addresses: &mut [0; 8], figures: &mut [0.0; 1] };
    let list = all_node_kl(&recount, LentTables { g: &[0.0; 3], d: &[0.0; 3] }, lent, &mut output);
    assert_eq!(list, Err(Refusal::plain(13)), "13 comes before both");
}

#[test]
fn a_divergence_at_the_threshold_does_not_count() {
    let nodes = record(0, 0, 1, 1);
    let children = record(0, 0, 1, 0);
    let lent = lent(&nodes, &children);
    let d: Vec<f64> = (0..5).map(|k| f64::from(k) * THRESHOLD).collect();
    let tables = LentTables { g: &[0.0; 5], d: &d };
    let at = Address::new(0, 0);
    let mut recount = Recount::open(1, 240, PLACE_BYTES).unwrap();
    recount.add_path(&path_bytes(&[at])).unwrap();
    assert_eq!(posterior_kl_divergence(&recount, tables, lent, at), Ok(Some(THRESHOLD)));
    assert_eq!(kl_div_stats(&recount, tables, lent).unwrap().nz_count, 0);
    recount.add_path(&path_bytes(&[at, at])).unwrap();
    assert_eq!(kl_div_stats(&recount, tables, lent).unwrap().nz_count, 1);
}

#[test]
fn order_of_a_readings_refusals() {
    let (state, book, queue) = in_form();
    let broken = Memory { state: State { used: 4, ..state }, book: &book, queue: &queue };
    let whole = Memory { state, book: &book, queue: &queue };
    let at = Address::new(0, 1);
    let nodes = record(0, 1, 1, 0);
    let asked = |tracker: &Memory, g: &[f64], nodes: &[u8], places: usize| {
        let (mut addresses, mut figures) = (vec![7; 8 * places], vec![7.0; places]);
        let mut output = Output { addresses: &mut addresses, figures: &mut figures };
        let answer = all_node_kl(tracker, LentTables { g, d: &[0.0, 0.0] }, lent(nodes, &[]), &mut output);
        assert!(addresses.iter().all(|byte| *byte == 7) && figures.iter().all(|figure| *figure == 7.0));
        number(answer)
    };
    assert_eq!(asked(&broken, &[0.0], &nodes[1..], 0), 1);
    assert_eq!(asked(&broken, &[0.0, f64::NAN], &nodes[1..], 0), 2);
    assert_eq!(asked(&broken, &[0.0, 0.0], &nodes[1..], 0), 3);
    assert_eq!(asked(&broken, &[0.0, 0.0], &nodes, 0), 9);
    assert_eq!(asked(&whole, &[0.0, 0.0], &nodes, 0), 13);
    assert_eq!(asked(&whole, &[0.0, 0.0], &nodes, 1), 14);
    let mut output = Output { addresses: &mut [], figures: &mut [] };
    assert_eq!(number(evidence_prob_vector(&broken, at, &mut output)), 9);
    assert_eq!(number(evidence_prob_vector(&whole, at, &mut output)), 13);
    let none = evidence_prob_vector(&whole, Address::new(9, 9), &mut output);
    assert!(matches!(none, Ok(None)), "none is never a 13");
}
