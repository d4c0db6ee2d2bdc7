//! The rows of the second table: the archive's readings with a floor beside the same readings without
//! one. The figures must be the same, and goko's with that floor.

use crate::agree;
use crate::clock::timed;
use crate::load::{ten_fine_scales, Load, NODES};
use crate::rows::{head, let_go, row, LISTS, READINGS};
use crate::sides::{filled, goko_priors, MOST_ENTRIES};
use oracle::Goko;
use std::hint::black_box;
use teakpool::{Address, Output, PriorRecords, Priors, Tables, Tracker, ENTRY_BYTES};

/// The floor of all rows.
const FLOOR: i32 = 0;
/// The most node records.
const MOST_NODES: usize = 4_096;
/// Calls of a round where every record has a scale of its own.
const FEW: usize = 20;
/// Its multiples are points that 22's test puts into one slot, the inverse of its factor modulo 2^32.
const ONE_SLOT: u32 = 244_002_641;

/// All rows.
pub fn print(rounds: usize) {
    head("with a floor", "without", rounds);
    ten_scales(rounds);
    scales_of_their_own(rounds);
}

/// What readings are lent, with a floor and without one.
struct Lent<'a> {
    tables: Tables<'a>,
    floored: Priors<'a>,
    exact: Priors<'a>,
}

/// 2,000 records in ten scales below the floor: first at the nodes' own addresses, then each three
/// scales on, so that the point alone finds it.
fn ten_scales(rounds: usize) {
    let mut load = Load::new(1, ten_fine_scales);
    let (mut memory, state, theirs) = filled(&mut load, MOST_ENTRIES);
    let ours = Tracker::resume(state, &mut memory.book, &mut memory.queue);
    let nodes: Vec<Address> = (0..READINGS).map(|_| load.node()).collect();
    let moved = moved(&load);
    theirs.lend_priors(&goko_priors(&load), FLOOR);
    let exact = load.records.lent();
    let rows = [("2,000 records, ten scales", exact), ("those, by point alone", moved.lent())];
    for (name, records) in rows {
        let floored = records.with_floor(FLOOR);
        let lent = Lent { tables: Tables::new(&load.tables.g, &load.tables.d), floored, exact };
        held_to_goko(&ours, &theirs, &lent);
        vectors(name, &ours, &lent, &nodes, rounds);
        lists(name, &ours, &lent, LISTS, rounds);
    }
}

/// The load's priors with each record three of the ten scales on.
fn moved(load: &Load) -> PriorRecords {
    let moved = |node: Address| Address::new((node.scale + 13) % 10 - 10, node.point);
    let mut priors: Vec<_> = load.priors.iter().map(|prior| (moved(prior.0), prior)).collect();
    priors.sort_by_key(|(node, _)| *node);
    let mut records = PriorRecords::default();
    priors.iter().for_each(|(node, (_, singleton, children))| records.node(*node, *singleton, children));
    records
}

/// 4,096 records, each in a scale of its own below the floor: looked up from their own addresses, then
/// all from one scale, so that the point alone finds them.
fn scales_of_their_own(rounds: usize) {
    let tables = cases::tables::gamma(9);
    let own = fine(|index| (7 * index + 3) % MOST_NODES as u32);
    let from_one_scale: Vec<Address> = own.iter().map(|node| Address::new(-1, node.point)).collect();
    let floored = records_of(&own);
    let rows = [("4,096 records, as many scales", &own), ("those, by point alone", &from_one_scale)];
    for (name, listed) in rows {
        let exact = records_of(listed);
        let (floored, exact) = (floored.lent().with_floor(FLOOR), exact.lent());
        let lent = Lent { tables: Tables::new(&tables.g, &tables.d), floored, exact };
        let mut book = vec![0; ENTRY_BYTES * MOST_NODES];
        let mut ours = Tracker::open(0, &mut book, &mut []).expect("the sizes are taken");
        listed.iter().for_each(|node| ours.add_path(&[*node]).expect("the book has room"));
        let asked: Vec<Address> = listed.iter().step_by(MOST_NODES / FEW).copied().collect();
        vectors(name, &ours, &lent, &asked, rounds);
        lists(name, &ours, &lent, 1, rounds);
    }
    checks("4,096 records, as many scales", &own, rounds);
    checks("those, points of one slot", &fine(|index| index.wrapping_mul(ONE_SLOT)), rounds);
}

/// As many addresses as there may be node records, each in a scale of its own below the floor.
fn fine(point: fn(u32) -> u32) -> Vec<Address> {
    (0..MOST_NODES as u32).map(|index| Address::new(index as i32 - 5_000, point(index))).collect()
}

/// Records without children at these addresses.
fn records_of(nodes: &[Address]) -> PriorRecords {
    let mut nodes = nodes.to_vec();
    nodes.sort();
    let mut records = PriorRecords::default();
    nodes.iter().for_each(|node| records.node(*node, 1 + node.point % 3, &[]));
    records
}

/// `check_priors` alone.
fn checks(name: &str, nodes: &[Address], rounds: usize) {
    let records = records_of(nodes);
    let (floored, exact) = (records.lent().with_floor(FLOOR), records.lent());
    let lent = Lent { tables: Tables::new(&[], &[]), floored, exact };
    assert!(floored.check().is_ok() && exact.check().is_ok(), "the records are taken");
    row(&format!("check_priors, {}", name), rounds, || {
        sides(FEW, &lent, |priors| (0..FEW).for_each(|_| let_go(black_box(priors.check()))))
    });
}

/// Microseconds for each of `count` pieces of work, with the floor and without.
fn sides(count: usize, lent: &Lent, mut work: impl FnMut(Priors)) -> (f64, f64) {
    let one = timed(count, || work(lent.floored));
    let other = timed(count, || work(lent.exact));
    (one, other)
}

/// One `prob_vector` of each node.
fn vectors(name: &str, ours: &Tracker, lent: &Lent, nodes: &[Address], rounds: usize) {
    let (mut addresses, mut figures) = ([0; 8 * 64], [0.0; 64]);
    let mut output = Output { addresses: &mut addresses, figures: &mut figures };
    let mut told = |priors: Priors, node: Address| {
        let vector =
            ours.prob_vector(priors, node, &mut output).expect("it is answered").expect("there is a prior");
        let places: Vec<(Address, u64)> =
            output.places(vector.places).map(|(child, figure)| (child, figure.to_bits())).collect();
        (vector.ending.to_bits(), places)
    };
    let same = |node: &Address| told(lent.floored, *node) == told(lent.exact, *node);
    assert!(nodes.iter().all(same), "both have the same probabilities");
    row(&format!("prob_vector, {}", name), rounds, || {
        sides(nodes.len(), lent, |priors| {
            nodes.iter().for_each(|node| let_go(black_box(ours.prob_vector(priors, *node, &mut output))));
        })
    });
}

/// `all_node_kl` and `kl_div_stats`, `count` times a round.
fn lists(name: &str, ours: &Tracker, lent: &Lent, count: usize, rounds: usize) {
    let (mut addresses, mut figures) = (vec![0; 8 * MOST_NODES], vec![0.0; MOST_NODES]);
    let mut output = Output { addresses: &mut addresses, figures: &mut figures };
    let mut told = |priors: Priors| {
        let list = ours.all_node_kl(lent.tables, priors, &mut output).expect("it is answered");
        assert_eq!(list.skipped, 0, "every node has a prior");
        output.places(list.places).map(|(node, figure)| (node, figure.to_bits())).collect::<Vec<_>>()
    };
    assert!(told(lent.floored) == told(lent.exact), "both have the same divergences");
    row(&format!("all_node_kl, {}", name), rounds, || {
        sides(count, lent, |priors| {
            let mut read = |_| let_go(black_box(ours.all_node_kl(lent.tables, priors, &mut output)));
            (0..count).for_each(&mut read);
        })
    });
    row(&format!("kl_div_stats, {}", name), rounds, || {
        sides(count, lent, |priors| {
            (0..count).for_each(|_| let_go(black_box(ours.kl_div_stats(lent.tables, priors))));
        })
    });
}

/// The divergences under the floor are goko's.
fn held_to_goko(ours: &Tracker, theirs: &Goko, lent: &Lent) {
    let (mut addresses, mut figures) = (vec![0; 8 * NODES], vec![0.0; NODES]);
    let mut output = Output { addresses: &mut addresses, figures: &mut figures };
    let list = ours.all_node_kl(lent.tables, lent.floored, &mut output).expect("it is answered");
    let (known, _) = theirs.all_node_kl().expect("goko answers");
    agree::places(list.places, &output, known.into_iter().map(|(figure, node)| (node, figure)).collect());
}
