//! Node look-ups with a floor, on both sides of it, and refusal 22 in its place. G and D are zeros
//! but where a figure is asked for.

use recount::limits::{ENTRY_BYTES, KNOT_VALUES, PLACE_BYTES};
use recount::*;

const MIN: i32 = i32::MIN;
const MAX: i32 = i32::MAX;

/// Node records without children, each with its own singleton count.
fn records(nodes: &[(i32, u32, u32)]) -> Vec<u8> {
    let record = |(scale, point, singleton): &(i32, u32, u32)| {
        record_bytes(Address::new(*scale, *point), *singleton, 0)
    };
    nodes.iter().flat_map(record).collect()
}

/// What 3 to 7 and 22 say of node records under a floor.
fn checked(nodes: &[(i32, u32, u32)], floor: i32) -> Result<Priors, Refusal> {
    check_priors(LentPriors { nodes: &records(nodes), children: &[], floor })
}

fn number<T>(result: Result<T, Refusal>) -> u32 {
    result.err().map_or(0, |refusal| refusal.number)
}

/// The singleton count of the record that a node's look-up finds.
fn found(priors: &Priors, scale: i32, point: u32) -> Option<u32> {
    priors.node(Address::new(scale, point)).map(|prior| prior.singleton)
}

#[test]
fn below_the_floor_the_point_alone_finds() {
    let priors = checked(&[(-5, 1, 10), (-3, 2, 20), (0, 1, 30), (2, 2, 40)], 0).unwrap();
    for scale in [MIN, -5, -4, -1] {
        assert_eq!((found(&priors, scale, 1), found(&priors, scale, 2)), (Some(10), Some(20)), "{}", scale);
    }
    assert_eq!((found(&priors, 0, 1), found(&priors, 0, 2)), (Some(30), None), "exact at the floor");
    assert_eq!((found(&priors, 2, 2), found(&priors, 1, 2)), (Some(40), None), "exact above it");
    assert_eq!(found(&priors, -1, 3), None);
}

#[test]
fn the_floors_own_scale_is_not_below_it() {
    let nodes = [(0, 1, 10)];
    let at = |floor: i32| checked(&nodes, floor).unwrap();
    assert_eq!((found(&at(0), 0, 1), found(&at(0), -1, 1)), (Some(10), None), "never found from below");
    assert_eq!((found(&at(1), 0, 1), found(&at(1), -1, 1)), (Some(10), Some(10)));
    assert_eq!(found(&at(1), 1, 1), None, "a record below is never found from the floor");
}

#[test]
fn the_least_floor_has_nothing_below_it() {
    let priors = checked(&[(MIN, 1, 10), (-1, 1, 20), (MAX, 1, 30)], MIN).unwrap();
    assert_eq!((found(&priors, MIN, 1), found(&priors, MIN + 1, 1)), (Some(10), None));
    assert_eq!((found(&priors, -1, 1), found(&priors, MAX, 1)), (Some(20), Some(30)));
    let priors = checked(&[(MIN, 1, 10), (-1, 1, 20)], MIN + 1).unwrap();
    assert_eq!((found(&priors, MIN, 1), found(&priors, MIN + 1, 1)), (Some(10), None));
}

#[test]
fn the_greatest_floor_leaves_one_scale_exact() {
    let priors = checked(&[(MAX - 1, 1, 10), (MAX, 1, 20)], MAX).unwrap();
    assert_eq!((found(&priors, MAX, 1), found(&priors, MAX, 2)), (Some(20), None));
    assert_eq!((found(&priors, MIN, 1), found(&priors, MAX - 1, 1)), (Some(10), Some(10)));
}

#[test]
fn one_point_twice_below_the_floor() {
    let nodes = [(-2, 7, 1), (-1, 3, 1), (0, 7, 1), (5, 7, 1)];
    for (floor, expected) in [(MIN, 0), (-2, 0), (-1, 0), (0, 0), (1, 22), (5, 22), (6, 22), (MAX, 22)] {
        assert_eq!(number(checked(&nodes, floor)), expected, "floor {}", floor);
    }
    assert_eq!(number(checked(&[(MIN, 7, 1), (MAX - 1, 7, 1)], MAX)), 22);
    assert_eq!(number(checked(&[(MIN, 7, 1), (MAX, 7, 1)], MAX)), 0);
}

#[test]
fn lower_numbers_come_before_22() {
    let zero_total = |floor: i32| number(checked(&[(-2, 7, 1), (-1, 7, 0)], floor));
    assert_eq!((zero_total(0), zero_total(MIN)), (7, 7));
    let unordered = checked(&[(-1, 7, 1), (-2, 7, 1)], 0);
    assert_eq!(number(unordered), 4);
    let nodes = records(&[(-2, 7, 1), (-1, 7, 1)]);
    let children = record_bytes(Address::new(0, 0), 0, 0);
    assert_eq!(number(check_priors(LentPriors { nodes: &nodes, children: &children, floor: 0 })), 7);
}

/// A fresh tracker of eight entries with these paths added.
fn after(paths: &[&[Address]]) -> Recount {
    let mut recount = Recount::open(0, 8 * ENTRY_BYTES, 0).unwrap();
    for path in paths {
        recount.add_path(&path_bytes(path)).unwrap();
    }
    recount
}

const LOW: Address = Address::new(-3, 7);
const HIGH: Address = Address::new(-1, 7);
const OTHER: Address = Address::new(4, 4);

/// The numbers that all four readings lent priors give, of a tracker, for a node.
fn all_readings(tracker: &impl Tracker, table: &[f64], priors: LentPriors, node: Address) -> [u32; 4] {
    let tables = LentTables { g: table, d: table };
    let (mut addresses, mut figures) = ([7; 8], [7.0; 1]);
    let mut output = Output { addresses: &mut addresses, figures: &mut figures };
    let numbers = [
        number(prob_vector(tracker, priors, node, &mut output)),
        number(posterior_kl_divergence(tracker, tables, priors, node)),
        number(all_node_kl(tracker, tables, priors, &mut output)),
        number(kl_div_stats(tracker, tables, priors)),
    ];
    let kept = addresses == [7; 8] && figures == [7.0; 1];
    assert!(kept || numbers.contains(&0), "a refused reading fills nothing");
    numbers
}

#[test]
fn every_reading_refuses_22_whatever_node_is_asked() {
    let nodes = records(&[(-3, 7, 1), (-1, 7, 1), (4, 4, 1)]);
    let clash = LentPriors { nodes: &nodes, children: &[], floor: 0 };
    let tracker = after(&[&[OTHER]]);
    for node in [LOW, OTHER, Address::new(9, 9)] {
        assert_eq!(all_readings(&tracker, &[0.0; 9], clash, node), [22; 4]);
        let none = LentPriors { floor: MIN, ..clash };
        assert_eq!(all_readings(&tracker, &[0.0; 9], none, node), [0; 4]);
    }
}

#[test]
fn tables_before_22_and_22_before_the_form() {
    let nodes = records(&[(-3, 7, 1), (-1, 7, 1)]);
    let clash = LentPriors { nodes: &nodes, children: &[], floor: 0 };
    let broken =
        Memory { state: State { window: 0, used: 9, accepted: 0 }, book: &[0; ENTRY_BYTES], queue: &[] };
    assert_eq!(all_readings(&broken, &[0.0; 9], clash, LOW), [22; 4]);
    assert_eq!(all_readings(&broken, &[0.0; 1], clash, LOW), [22, 1, 1, 1]);
    assert_eq!(all_readings(&broken, &[0.0; 9], LentPriors { floor: MIN, ..clash }, LOW), [9; 4]);
}

/// G(k) = k × k and D(k) = 4k.
fn squares(last: u32) -> (Vec<f64>, Vec<f64>) {
    ((0..=last).map(|k| f64::from(k * k)).collect(), (0..=last).map(|k| f64::from(4 * k)).collect())
}

/// (-3,7) alone has a record, with singleton 1 and the children (-3,7) with 1 and (-1,7) with 2.
fn shared() -> (Vec<u8>, Vec<u8>) {
    (record_bytes(LOW, 1, 1), [record_bytes(LOW, 1, 2), record_bytes(HIGH, 2, 0)].concat())
}

#[test]
fn two_listed_nodes_share_a_prior_with_their_own_evidence() {
    let (nodes, children) = shared();
    let priors = LentPriors { nodes: &nodes, children: &children, floor: 0 };
    let tracker = after(&[&[LOW, HIGH], &[HIGH], &[HIGH, HIGH]]);
    let (g, d) = squares(8);
    let tables = LentTables { g: &g, d: &d };
    let (mut addresses, mut figures) = ([0; 16], [0.0; 2]);
    let mut output = Output { addresses: &mut addresses, figures: &mut figures };
    let list = all_node_kl(&tracker, tables, priors, &mut output).unwrap();
    assert_eq!(list, NodeKlList { places: 2, skipped: 0 });
    assert_eq!((Address::read(&addresses), Address::read(&addresses[8..])), (LOW, HIGH));
    // T is 4. (-3,7) went once to (-1,7): 16 - (1 + 4) - 25 + (1 + 9) + (16 - 8). (-1,7) ended three
    // times and went once to itself: 16 - (1 + 4) - 64 + (16 + 9) + 3 × (16 - 4) + (16 - 8).
    assert!(same_figures(&figures, &[4.0, 16.0]));
    let one = |node: Address| posterior_kl_divergence(&tracker, tables, priors, node).unwrap().unwrap();
    assert!(same_figures(&figures, &[one(LOW), one(HIGH)]));
    let mut output = Output { addresses: &mut addresses, figures: &mut figures };
    let vector = prob_vector(&tracker, priors, HIGH, &mut output).unwrap().unwrap();
    assert!(same_figure(vector.ending, 4.0 / 8.0));
    assert!(same_figures(&figures, &[1.0 / 8.0, 3.0 / 8.0]));
    assert_eq!((Address::read(&addresses), Address::read(&addresses[8..])), (LOW, HIGH));
    let skipped = kl_div_stats(&tracker, tables, LentPriors { floor: MIN, ..priors }).unwrap().skipped;
    assert_eq!(skipped, 1, "by exact address one of them has none");
}

#[test]
fn an_unlisted_node_below_the_floor_has_its_priors_probabilities() {
    let (nodes, children) = shared();
    let priors = LentPriors { nodes: &nodes, children: &children, floor: 0 };
    let (mut addresses, mut figures) = ([0; 16], [0.0; 2]);
    let mut output = Output { addresses: &mut addresses, figures: &mut figures };
    let node = Address::new(-9, 7);
    let vector = prob_vector(&after(&[&[LOW]]), priors, node, &mut output).unwrap().unwrap();
    assert!(same_figure(vector.ending, 0.25) && same_figures(&figures, &[0.25, 0.5]));
    let tables = LentTables { g: &[0.0; 9], d: &[0.0; 9] };
    assert_eq!(posterior_kl_divergence(&after(&[&[LOW]]), tables, priors, node), Ok(None));
}

#[test]
fn refusals_of_a_node_name_the_listed_one() {
    let (nodes, children) = shared();
    let priors = LentPriors { nodes: &nodes, children: &children, floor: 0 };
    let table = |last: usize| vec![0.0; last + 1];
    let told = |tracker: &Recount, table: &[f64]| {
        let tables = LentTables { g: table, d: table };
        let one = posterior_kl_divergence(tracker, tables, priors, HIGH).unwrap_err();
        assert_eq!(kl_div_stats(tracker, tables, priors).unwrap_err(), one);
        one
    };
    assert_eq!(told(&after(&[&[HIGH]]), &table(4)), Refusal::at(15, HIGH));
    let by_point = Address::new(-2, 7);
    let tracker = after(&[&[HIGH, by_point]]);
    assert_eq!(told(&tracker, &table(9)), Refusal::at(14, HIGH), "children are looked up by exact address");
}

#[test]
fn a_training_uses_the_floor() {
    let (nodes, children) = shared();
    let mut place = [&1_u32.to_le_bytes()[..], &HIGH.bytes()].concat();
    place.resize(PLACE_BYTES, 0);
    let trained = |nodes: &[u8], floor: i32, last: u32| {
        let priors = LentPriors { nodes, children: &children, floor };
        let (g, d) = squares(last);
        let (mut book, mut knots, mut values) = ([9; ENTRY_BYTES], [9; 1], [9.0; KNOT_VALUES]);
        let sequences = Sequences { sequences: 1, paths: 1, rate: 1, places: &place };
        let mut baseline = Baseline { knots: &mut knots, values: &mut values };
        let tables = LentTables { g: &g, d: &d };
        let answer = train(tables, priors, &mut book, sequences, &mut baseline);
        (answer, values, book)
    };
    let (answer, values, _) = trained(&nodes, 0, 9);
    // G(4) - G(1) - G(5) + G(2) - (D(1) - D(4)), the greatest of its one record.
    assert_eq!((answer, values[0]), (Ok(1), 6.0));
    assert_eq!(trained(&nodes, 0, 4).0, Err(Refusal::at(15, HIGH)));
    let (answer, values, _) = trained(&nodes, MIN, 4);
    assert_eq!((answer, values[0]), (Ok(1), f64::MIN), "by exact address there is no prior");
    let clash = records(&[(-3, 7, 1), (-1, 7, 1)]);
    let (answer, values, book) = trained(&clash, 0, 9);
    assert_eq!((answer, values, book), (Err(Refusal::plain(22)), [9.0; KNOT_VALUES], [9; ENTRY_BYTES]));
}
