//! The recorded look-ups of children, and random ones, show everything that a look-up can show.

use cases::lookups::{random, PriorsCase};
use cases::priors::refusable;
use cases::rng::Rng;
use cases::{sample, shown};
use recount::check_priors;
use std::collections::BTreeMap;

/// Everything is shown `least` times or more.
fn all_shown(cases: impl IntoIterator<Item = PriorsCase>, least: u32) {
    let mut seen: BTreeMap<&str, u32> = BTreeMap::new();
    for case in cases {
        let checked = check_priors(case.priors.lent());
        for (node, child) in case.asked {
            shown::by(&checked, node, child).into_iter().for_each(|what| *seen.entry(what).or_default() += 1);
        }
    }
    println!("{:#?}", seen);
    for what in shown::all() {
        assert!(seen.get(what) >= Some(&least), "{}: {:?}", what, seen);
    }
}

#[test]
fn recorded_ones() {
    all_shown(sample::priors_cases(), 1);
}

#[test]
fn random_ones() {
    let case = |seed: u64| {
        let mut rng = Rng::new(seed);
        let given = refusable(&mut rng);
        random(&mut rng, given)
    };
    all_shown((0..4_000).map(case), 20);
}
