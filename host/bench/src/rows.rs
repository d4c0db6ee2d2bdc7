//! The rows of the table. A row runs the same work on both sides in turn, several rounds; what the
//! two sides have must be the same.

use crate::clock::timed;
use crate::load::{four_scales, Load, NODES};
use crate::sides::{filled, goko_address, goko_path, goko_priors, ENTRIES, MOST_ENTRIES};
use crate::{adds, agree};
use oracle::{Goko, NodeAddress};
use recount::same_figures;
use std::hint::black_box;
use teakpool::{
    place_bytes, Address, Baseline, Output, Sequences, State, Tables, Tracker, ENTRY_BYTES, KNOT_VALUES,
};

/// Calls of a round: readings of one node, readings of all nodes.
pub const READINGS: usize = 400;
pub const LISTS: usize = 20;

/// Lets an answer go unread.
pub fn let_go<T>(_: T) {}

fn median(mut times: Vec<f64>) -> f64 {
    times.sort_by(f64::total_cmp);
    times[times.len() / 2]
}

/// A table's head; its figures are the two sides' microseconds.
pub fn head(ours: &str, theirs: &str, rounds: usize) {
    println!("| call | {}, µs | {}, µs | ratio | in {} rounds |", ours, theirs, rounds);
    println!("|---|---|---|---|---|");
}

/// A printed row; `round` gives the two sides' microseconds.
pub fn row(name: &str, rounds: usize, mut round: impl FnMut() -> (f64, f64)) {
    round();
    rows(&[name], rounds, || {
        let (ours, theirs) = round();
        (vec![ours], theirs)
    });
}

/// Printed rows that one work of goko's is held against; `round` gives the archive's microseconds for
/// each, and goko's.
pub fn rows(names: &[&str], rounds: usize, mut round: impl FnMut() -> (Vec<f64>, f64)) {
    let (ours, theirs): (Vec<Vec<f64>>, Vec<f64>) = (0..rounds).map(|_| round()).unzip();
    for (at, name) in names.iter().enumerate() {
        let ours: Vec<f64> = ours.iter().map(|ours| ours[at]).collect();
        let mut ratios: Vec<f64> = ours.iter().zip(&theirs).map(|(ours, theirs)| ours / theirs).collect();
        ratios.sort_by(f64::total_cmp);
        println!(
            "| {} | {:.2} | {:.2} | {:.2} | {:.2} to {:.2} |",
            name,
            median(ours),
            median(theirs.clone()),
            ratios[ratios.len() / 2],
            ratios[0],
            ratios[ratios.len() - 1]
        );
    }
}

/// A printed row of a call that goko has not; `round` gives the archive's microseconds.
fn alone(name: &str, rounds: usize, mut round: impl FnMut() -> f64) {
    round();
    let mut times: Vec<f64> = (0..rounds).map(|_| round()).collect();
    times.sort_by(f64::total_cmp);
    let (least, greatest) = (times[0], times[times.len() - 1]);
    println!("| {} | {:.2} | | | {:.2} to {:.2} µs |", name, median(times), least, greatest);
}

/// All rows, or those of adds alone; lists have `paths` paths.
pub fn print(adds_alone: bool, paths: usize, rounds: usize) {
    let mut load = Load::new(1, four_scales);
    println!("goko's map is {}\n", if hashbrown::ORDERED { "ordered" } else { "hashed, its own" });
    head("archive", "goko", rounds);
    let (mut memory, state, mut theirs) = filled(&mut load, MOST_ENTRIES);
    let mut ours = Tracker::resume(state, &mut memory.book, &mut memory.queue);
    adds::single(&mut load, &mut ours, &mut theirs, rounds);
    adds::lists(&mut load, paths, rounds);
    if adds_alone {
        return;
    }
    one_node(&mut load, &ours, &theirs, rounds);
    one_child(&mut load, &theirs, rounds);
    all_nodes(&load, &ours, &theirs, rounds);
    trainings(&mut load, rounds.div_ceil(3));
    tidies(&mut load, rounds);
}

/// Tidies of the full book: as its paths left it, and with all its counts above 0. What they leave must be
/// the recount's.
fn tidies(load: &mut Load, rounds: usize) {
    let (mut memory, state, _) = filled(load, MOST_ENTRIES);
    let as_left = memory.book.clone();
    let mut all_counted = as_left.clone();
    let mut zeros = 0;
    for entry in all_counted.chunks_mut(ENTRY_BYTES).take(ENTRIES).filter(|entry| entry[20..] == [0; 4]) {
        entry[20] = 1;
        zeros += 1;
    }
    assert!(ENTRIES.abs_diff(2 * zeros) < ENTRIES / 10, "about half of the entries are 0");
    let State { window, used, accepted } = state;
    for (name, full) in [("tidy, half of the entries 0", &as_left), ("tidy, none of them 0", &all_counted)] {
        let mut known = full.clone();
        let lent = recount::State { window, used, accepted };
        let kept = recount::memory::tidy(lent, &mut known, &memory.queue).expect("it is carried out").used;
        let mut tidy = || {
            memory.book.copy_from_slice(full);
            let mut ours = Tracker::resume(state, &mut memory.book, &mut memory.queue);
            let time = timed(1, || ours.tidy().expect("it is carried out"));
            assert_eq!((ours.state().used, ours.book()), (kept, &known[..]), "both leave the same");
            time
        };
        alone(name, rounds, || (0..LISTS).map(|_| tidy()).sum::<f64>() / LISTS as f64);
    }
}

/// The readings of one node.
fn one_node(load: &mut Load, ours: &Tracker, theirs: &Goko, rounds: usize) {
    let nodes: Vec<Address> = (0..READINGS).map(|_| load.node()).collect();
    let (priors, tables) = (load.records.lent(), Tables::new(&load.tables.g, &load.tables.d));
    let (mut addresses, mut figures) = ([0; 8 * 64], [0.0; 64]);
    let mut output = Output { addresses: &mut addresses, figures: &mut figures };
    for node in &nodes {
        let known = theirs.prob_vector(goko_address(*node)).expect("goko answers");
        agree::vector(ours.prob_vector(priors, *node, &mut output).expect("it is answered"), &output, known);
        let known = theirs.evidence_prob_vector(goko_address(*node)).expect("goko answers");
        agree::vector(ours.evidence_prob_vector(*node, &mut output).expect("it is answered"), &output, known);
        let known = theirs.posterior_kl_divergence(goko_address(*node)).expect("goko answers");
        let divergence = ours.posterior_kl_divergence(tables, priors, *node).expect("it is answered");
        agree::figure(divergence, known.flatten());
    }
    let each = |ours: &mut dyn FnMut(Address), theirs: &dyn Fn(NodeAddress)| {
        let one = timed(READINGS, || nodes.iter().for_each(|node| ours(*node)));
        let other = timed(READINGS, || nodes.iter().for_each(|node| theirs(goko_address(*node))));
        (one, other)
    };
    row("prob_vector", rounds, || {
        each(&mut |node| let_go(black_box(ours.prob_vector(priors, node, &mut output))), &|node| {
            let_go(black_box(theirs.prob_vector(node)))
        })
    });
    row("evidence_prob_vector", rounds, || {
        each(&mut |node| let_go(black_box(ours.evidence_prob_vector(node, &mut output))), &|node| {
            let_go(black_box(theirs.evidence_prob_vector(node)))
        })
    });
    row("posterior_kl_divergence", rounds, || {
        each(&mut |node| let_go(black_box(ours.posterior_kl_divergence(tables, priors, node))), &|node| {
            let_go(black_box(theirs.posterior_kl_divergence(node)))
        })
    });
}

/// The look-up of a child in its node's prior: in turn of one that is there, and of any node.
fn one_child(load: &mut Load, theirs: &Goko, rounds: usize) {
    let mut step = |index: usize| {
        let path = load.path();
        (path[0], if index % 2 == 0 { path[1] } else { load.node() })
    };
    let asked: Vec<(Address, Address)> = (0..READINGS).map(&mut step).collect();
    let priors = load.records.lent();
    for (node, child) in &asked {
        let prior = load.prior(*node);
        let count = priors.child(*node, *child).expect("it is answered").count;
        agree::share(count, prior, theirs.ln_pdf(goko_address(*node), goko_address(*child)));
    }
    row("child", rounds, || {
        let one = timed(READINGS, || {
            asked.iter().for_each(|(node, child)| let_go(black_box(priors.child(*node, *child))))
        });
        let other = timed(READINGS, || {
            asked.iter().for_each(|(node, child)| {
                let_go(black_box(theirs.ln_pdf(goko_address(*node), goko_address(*child))))
            })
        });
        (one, other)
    });
}

/// The readings over all nodes.
fn all_nodes(load: &Load, ours: &Tracker, theirs: &Goko, rounds: usize) {
    let (priors, tables) = (load.records.lent(), Tables::new(&load.tables.g, &load.tables.d));
    let (mut addresses, mut figures) = (vec![0; 8 * NODES], vec![0.0; NODES]);
    let mut output = Output { addresses: &mut addresses, figures: &mut figures };
    let listed = ours.all_node_kl(tables, priors, &mut output).expect("it is answered");
    let (known, skipped) = theirs.all_node_kl().expect("goko answers");
    assert_eq!(u64::from(listed.skipped), skipped, "both skip as many nodes");
    agree::places(listed.places, &output, known.into_iter().map(|(figure, node)| (node, figure)).collect());
    agree::stats(&ours.kl_div_stats(tables, priors).expect("it is answered"), theirs);
    let each = |ours: &mut dyn FnMut(), theirs: &dyn Fn()| {
        let one = timed(LISTS, || (0..LISTS).for_each(|_| ours()));
        let other = timed(LISTS, || (0..LISTS).for_each(|_| theirs()));
        (one, other)
    };
    row("all_node_kl", rounds, || {
        each(&mut || let_go(black_box(ours.all_node_kl(tables, priors, &mut output))), &|| {
            let_go(black_box(theirs.all_node_kl()))
        })
    });
    row("kl_div_stats", rounds, || {
        each(&mut || let_go(black_box(ours.kl_div_stats(tables, priors))), &|| {
            let_go(black_box(theirs.kl_div_stats()))
        })
    });
}

/// Trainings, by the path: with knots on the way, and with one knot a sequence, which is next to
/// adding alone.
fn trainings(load: &mut Load, rounds: usize) {
    let (s, n) = (4, 2_048);
    let paths = load.paths(s * n);
    let places: Vec<u8> = paths.iter().flat_map(|path| place_bytes(path)).collect();
    let given: Vec<Vec<NodeAddress>> = paths.iter().map(|path| goko_path(path)).collect();
    let given: Vec<Vec<Vec<NodeAddress>>> = given.chunks(n).map(<[_]>::to_vec).collect();
    let goko_priors = goko_priors(load);
    oracle::lend_tables(&load.tables.g, &load.tables.d);
    let mut book = vec![0; ENTRY_BYTES * ENTRIES];
    let (mut knots, mut values) = (vec![0; 32], vec![0.0; 32 * KNOT_VALUES]);
    for (name, rate) in [("train, a path, a knot every 64", 64), ("train, a path, one knot a sequence", n)] {
        row(name, rounds, || {
            let sequences = Sequences { s: s as u32, n: n as u32, rate: rate as u32, places: &places };
            let tables = Tables::new(&load.tables.g, &load.tables.d);
            let mut trained = Vec::new();
            let one = timed(s * n, || {
                let baseline = Baseline::train(
                    tables,
                    load.records.lent(),
                    sequences,
                    &mut book,
                    &mut knots,
                    &mut values,
                );
                trained = baseline.expect("it is trained").values.to_vec();
            });
            let mut known = Vec::new();
            let other = timed(s * n, || {
                known = oracle::train(&goko_priors, i32::MIN, &given, rate).expect("goko trains").1;
            });
            // A hash map's sums go in another order.
            assert!(same_figures(&trained, &known) || !hashbrown::ORDERED, "both have the same baseline");
            (one, other)
        });
    }
}
