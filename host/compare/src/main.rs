//! Compares goko with the recount on many call lists, trainings, `stats` readings and look-ups of
//! children, every figure bit for bit wherever goko does not panic; and the recount with its own part
//! for lent bytes, on the same lists and on altered memory; all entries with the window at the last tidy and
//! the paths since, all counts with the visits, and used entries and 12 with the least capacity. The seed
//! decides all of it.
//!
//!     compare [--lists N] [--seed S]

use cases::calls::CallList;
use cases::exhaustive::Ordered;
use cases::lists::{call_list, Shape};
use cases::lookups::{self, PriorsCase};
use cases::rng::Rng;
use cases::{altered, baselines, exhaustive, paths, priors, sample};
use compare::{goko, own, Compared, Tally};
use std::process::ExitCode;

fn main() -> ExitCode {
    let Some((lists, seed)) = arguments() else {
        eprintln!("usage: compare [--lists N] [--seed S]");
        return ExitCode::from(2);
    };
    if !oracle::PRESENT {
        println!("goko's sources were not there: the comparison with goko is left out");
    }
    let mut tally = Tally::default();
    match everything(lists, seed, &mut tally).and_then(|()| tally.met_all()) {
        Ok(()) => {
            tally.print();
            ExitCode::SUCCESS
        }
        Err(difference) => {
            eprintln!("{}", difference);
            ExitCode::FAILURE
        }
    }
}

fn arguments() -> Option<(u64, u64)> {
    let (mut lists, mut seed) = (60_000, 1);
    let mut words = std::env::args().skip(1);
    while let Some(word) = words.next() {
        let number = words.next()?.parse().ok()?;
        match &word[..] {
            "--lists" => lists = number,
            "--seed" => seed = number,
            _ => return None,
        }
    }
    Some((lists, seed))
}

fn everything(lists: u64, seed: u64, tally: &mut Tally) -> Compared {
    recorded_sample(tally)?;
    exhaustive::each_short_list(|list| call_list_on_all(list, tally))?;
    let tried = exhaustive::each_order(|case| order_on_all(case, tally))?;
    tally.tried.join(tried);
    tally.tidied += exhaustive::each_tidied(|list| call_list_on_all(list, tally))?;
    tally.batched += exhaustive::each_batched(|list| call_list_on_all(list, tally))?;
    exhaustive::every_chain().iter().try_for_each(|case| lookups_on_both(case, tally))?;
    for number in 0..lists {
        let mut rng = Rng::new(seed.wrapping_mul(1 << 32).wrapping_add(number));
        one_of_each(&mut rng, tally).map_err(|text| format!("seed {}, list {}: {}", seed, number, text))?;
    }
    for (window, tidies, batches) in [(1_023, 0, 0), (1_024, 0, 20), (1_024, 5, 0)] {
        let shape = Shape { tidies, batches, ..Shape::long(window) };
        call_list_on_all(&call_list(&mut Rng::new(seed), &shape), tally)?;
    }
    Ok(())
}

/// The cases of the recorded sample.
fn recorded_sample(tally: &mut Tally) -> Compared {
    sample::all_lists().iter().try_for_each(|list| call_list_on_all(list, tally))?;
    for training in sample::trainings() {
        training_on_both(&training, tally)?;
    }
    for asked in sample::stats_asked() {
        stats_on_both(&asked, tally)?;
    }
    sample::priors_cases().iter().try_for_each(|case| lookups_on_both(case, tally))?;
    sample::altered_adds().iter().try_for_each(|add| own::check_altered(add, tally))?;
    sample::altered_batches()
        .iter()
        .try_for_each(|(add, places)| own::check_batch(add, places, tally).map(|_| ()))
}

/// A call list, now and then a training, a baseline to ask, an add, a tidy and a batch on altered memory, priors
/// with look-ups in them, and now and then a call list with tidies and one with batches.
fn one_of_each(rng: &mut Rng, tally: &mut Tally) -> Compared {
    call_list_on_all(&call_list(rng, &Shape::small()), tally)?;
    if rng.chance(25) {
        let floor = paths::floor(rng, 33);
        training_on_both(&baselines::training(rng, (4, 12), floor), tally)?;
    }
    if rng.chance(25) {
        stats_on_both(&baselines::stats_asked(rng, 6), tally)?;
    }
    let add = altered::altered_add(rng, 4);
    own::check_altered(&add, tally)?;
    own::check_batch(&add, &altered::batch(rng, &add), tally)?;
    let lent = priors::refusable(rng);
    own::check_prior_case(&lent, tally)?;
    lookups_on_both(&lookups::random(rng, lent), tally)?;
    if rng.chance(30) {
        call_list_on_all(&call_list(rng, &Shape::tidied()), tally)?;
    }
    if rng.chance(30) {
        let tidies = rng.pick(&[0, 30]);
        call_list_on_all(&call_list(rng, &Shape::batched(tidies)), tally)?;
    }
    Ok(())
}

fn call_list_on_all(list: &CallList, tally: &mut Tally) -> Compared {
    tally.lists += 1;
    own::check_list(list, tally)?;
    goko::compare_list(list, tally)?;
    Ok(())
}

fn order_on_all(case: &Ordered, tally: &mut Tally) -> Compared {
    tally.lists += 1;
    own::check_order(case, tally)?;
    goko::compare_list(&case.list, tally)
}

fn lookups_on_both(case: &PriorsCase, tally: &mut Tally) -> Compared {
    let answers = own::check_lookups(case, tally)?;
    goko::hold_lookups(case, &answers, tally)
}

fn training_on_both(training: &baselines::Training, tally: &mut Tally) -> Compared {
    own::check_training(training, tally)?;
    goko::compare_training(training, tally)?;
    Ok(())
}

fn stats_on_both(asked: &baselines::StatsAsked, tally: &mut Tally) -> Compared {
    for length in &asked.lengths {
        tally.result(&recount::stats(asked.sequences, &asked.knots, &asked.values, *length));
    }
    goko::compare_stats(asked, tally)?;
    Ok(())
}
