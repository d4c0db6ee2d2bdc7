//! The kit's check rows, which docs/RULES.md has as worked examples. G(k) = k × k and D(k) = 4k up
//! to index 7; the prior of (1,7) has singleton 1 and children (0,7) with 2 and (0,9) with 3; the
//! window is 1. Figures are held equal by their bits. After the rows: where minus zero comes out of
//! `stats`, and where it does not.

use recount::limits::{ENTRY_BYTES, PLACE_BYTES};
use recount::*;

const NODE: Address = Address::new(1, 7);
const SEVEN: Address = Address::new(0, 7);
const NINE: Address = Address::new(0, 9);

/// The figures' bits: plus zero and minus zero are two figures.
fn bits<const N: usize>(figures: [f64; N]) -> [u64; N] {
    figures.map(f64::to_bits)
}

struct Kit {
    g: Vec<f64>,
    d: Vec<f64>,
    nodes: Vec<u8>,
    children: Vec<u8>,
}

impl Kit {
    fn up_to(last: u32) -> Kit {
        Kit {
            g: (0..=last).map(|k| f64::from(k * k)).collect(),
            d: (0..=last).map(|k| f64::from(4 * k)).collect(),
            nodes: record_bytes(NODE, 1, 1),
            children: [record_bytes(SEVEN, 2, 2), record_bytes(NINE, 3, 0)].concat(),
        }
    }
    fn tables(&self) -> LentTables<'_> {
        LentTables { g: &self.g, d: &self.d }
    }
    fn priors(&self) -> LentPriors<'_> {
        LentPriors { nodes: &self.nodes, children: &self.children, floor: i32::MIN }
    }
}

fn opened(entries: usize) -> Recount {
    Recount::open(1, ENTRY_BYTES * entries, PLACE_BYTES).unwrap()
}

fn first_add() -> Recount {
    let mut recount = opened(8);
    recount.add_path(&path_bytes(&[NODE, NINE])).unwrap();
    recount
}

fn second_add() -> Recount {
    let mut recount = first_add();
    recount.add_path(&path_bytes(&[NODE])).unwrap();
    recount
}

#[test]
fn the_first_add() {
    let (kit, recount) = (Kit::up_to(7), first_add());
    let (mut addresses, mut figures) = ([0; 16], [-1.0; 2]);
    let mut output = Output { addresses: &mut addresses, figures: &mut figures };
    let list = all_node_kl(&recount, kit.tables(), kit.priors(), &mut output).unwrap();
    assert_eq!(list, NodeKlList { places: 1, skipped: 1 });
    assert_eq!((Address::read(&addresses), bits(figures)), (NODE, bits([6.0, -1.0])));
    let stats = kl_div_stats(&recount, kit.tables(), kit.priors()).unwrap();
    let told = [stats.max, stats.min, stats.moment1_nz, stats.moment2_nz];
    assert_eq!((bits(told), stats.nz_count, stats.skipped), (bits([6.0, 6.0, 6.0, 36.0]), 1, 1));
}

#[test]
fn the_second_add() {
    let (kit, recount) = (Kit::up_to(7), second_add());
    let counted = &recount.counted().nodes[&NODE];
    assert_eq!((counted.ending, counted.children.get(&NINE)), (1, Some(&0)));
    let divergence = posterior_kl_divergence(&recount, kit.tables(), kit.priors(), NODE).unwrap();
    assert_eq!(divergence.map(f64::to_bits), Some(10.0_f64.to_bits()));
    assert_eq!(recount.counted().sequence_len, 1);
}

#[test]
fn the_probabilities() {
    let (kit, recount) = (Kit::up_to(7), second_add());
    let (mut addresses, mut figures) = ([0; 16], [0.0; 2]);
    let mut output = Output { addresses: &mut addresses, figures: &mut figures };
    let vector = prob_vector(&recount, kit.priors(), NODE, &mut output).unwrap().unwrap();
    let none = evidence_prob_vector(&recount, NINE, &mut output).unwrap();
    assert_eq!((vector.places, vector.ending.to_bits()), (2, (2.0_f64 / 7.0).to_bits()));
    assert_eq!(bits(figures), bits([2.0 / 7.0, 3.0 / 7.0]));
    assert_eq!((Address::read(&addresses), Address::read(&addresses[8..])), (SEVEN, NINE));
    assert!(none.is_none());
}

#[test]
fn tables_that_end_at_6() {
    let (kit, recount) = (Kit::up_to(6), second_add());
    let refusal = kl_div_stats(&recount, kit.tables(), kit.priors()).unwrap_err();
    assert_eq!(refusal, Refusal::at(15, NODE));
}

#[test]
fn a_book_of_two_entries() {
    let path = path_bytes(&[NODE, NINE]);
    assert_eq!(opened(2).add_path(&path), Err(Refusal::plain(12)));
    assert_eq!(opened(3).add_path(&path), Ok(()));
}

/// Ten values a knot of two sequences whose maxima are `first` and `second`.
fn maxima(first: f64, second: f64) -> Vec<f64> {
    let mut values = vec![0.0; 10];
    values[..2].copy_from_slice(&[first + second, first * first + second * second]);
    values
}

#[test]
fn two_sequences() {
    assert_eq!(maximum(2, &[1], &maxima(6.0, 10.0), 1), bits([8.0, 4.0]));
}

#[test]
fn means_between_and_past_knots() {
    let values = [maxima(6.0, 10.0), maxima(10.0, 10.0)].concat();
    let mean = |length: u32| maximum(2, &[1, 11], &values, length)[0];
    assert_eq!([mean(6), mean(21), mean(0)], bits([9.0, 12.0, 0.0]));
}

#[test]
fn one_knot() {
    let values = maxima(6.0, 10.0);
    assert!(stats(2, &[1], &values, 1).is_ok());
    assert_eq!(stats(2, &[1], &values, 2).unwrap_err(), Refusal::plain(18));
}

/// The bits of mean and variance of the maxima.
fn maximum(sequences: u32, knots: &[u32], values: &[f64], length: u32) -> [u64; 2] {
    let MeanVariance { mean, variance } = stats(sequences, knots, values, length).unwrap().max;
    bits([mean, variance])
}

/// A knot's values: the maxima's sum and squares, and zeros for the other figures.
fn knot(sum: f64, squares: f64) -> Vec<f64> {
    [vec![sum, squares], vec![0.0; 8]].concat()
}

/// The figure next below 0, -5e-324.
const NEXT_BELOW: f64 = -f64::from_bits(1);

#[test]
fn minus_zero_at_a_knot() {
    let at = |sum: f64, squares: f64, sequences: u32| maximum(sequences, &[1], &knot(sum, squares), 1);
    assert_eq!(at(-0.0, 0.0, 1), bits([-0.0, 0.0]));
    assert_eq!(at(NEXT_BELOW, 0.0, 2), bits([-0.0, 0.0]));
    assert_eq!(at(0.0, -0.0, 1), bits([0.0, -0.0]));
    assert_eq!(at(-0.0, -0.0, 1), bits([-0.0, -0.0]));
}

#[test]
fn minus_zero_between_and_past_knots() {
    let along = |left: f64, right: f64, length: u32| {
        maximum(1, &[1, 5], &[knot(left, 0.0), knot(right, 0.0)].concat(), length)
    };
    assert_eq!(along(-0.0, NEXT_BELOW, 2), bits([-0.0, 0.0]));
    for length in [0, 2, 9] {
        assert_eq!(along(-0.0, -0.0, length), bits([0.0, 0.0]), "length {}", length);
    }
    assert_eq!(maximum(1, &[], &[], 0), bits([0.0, 0.0]));
}

#[test]
fn path_lengths_and_windows() {
    let steps = |count: usize| path_bytes(&vec![NODE; count]);
    for (count, answer) in
        [(0, Err(Refusal::plain(10))), (1, Ok(())), (64, Ok(())), (65, Err(Refusal::plain(10)))]
    {
        assert_eq!(opened(8).add_path(&steps(count)), answer, "{} steps", count);
    }
    let open = |window: u32| Recount::open(window, ENTRY_BYTES, PLACE_BYTES * window as usize).map(|_| ());
    assert_eq!((open(1_024), open(1_025)), (Ok(()), Err(Refusal::plain(8))));
}

#[test]
fn training_on_the_rows_prior() {
    let kit = Kit::up_to(7);
    let place = |path: &[Address]| {
        let mut place = [&(path.len() as u32).to_le_bytes()[..], &path_bytes(path)].concat();
        place.resize(PLACE_BYTES, 0xee);
        place
    };
    let places = [place(&[NODE, NINE]), place(&[NODE])].concat();
    let sequences = Sequences { sequences: 2, paths: 1, rate: 1, places: &places };
    let (mut book, mut knots, mut values) = (vec![0xee; 8 * ENTRY_BYTES], [9; 2], [9.0; 20]);
    let mut baseline = Baseline { knots: &mut knots, values: &mut values };
    let answer = train(kit.tables(), kit.priors(), &mut book, sequences, &mut baseline);
    assert_eq!(answer, Ok(1));
    // The second sequence ends at (1,7): G(6) - G(1) - G(7) + G(2) - (D(1) - D(6)) = 10.
    let sums = [16.0, 136.0, 16.0, 136.0, 2.0, 2.0, 16.0, 136.0, 136.0, 11_296.0];
    assert!(same_figures(&values, &[sums, [9.0; 10]].concat()));
    assert_eq!(knots, [1, 9]);
    assert!(book.iter().all(|byte| *byte == 0));
}
