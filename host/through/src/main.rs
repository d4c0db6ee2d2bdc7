//! Many cases through the archive, each held against the recount and, where goko's sources are
//! there, against goko: random call lists with readings, tidies and batches, adds, batches, tidies and readings
//! on altered memory, trainings, baselines, tables, priors and look-ups in them, and cases at the limits. Memory
//! around everything lent is guarded. The seed decides all of it.
//!
//!     through [--lists N] [--long] [--seed S] [--threads T]

mod calls;
mod check;
mod guard;
mod limits;

use calls::Archive;
use cases::altered::{self, altered_add};
use cases::calls::{Places, PriorBytes, Tables};
use cases::lists::{call_list, Shape};
use cases::rng::Rng;
use cases::{baselines, lookups, paths, priors, tables};
use compare::{Compared, Tally};
use recount::limits::ENTRY_BYTES;
use recount::Address;
use std::process::ExitCode;
use std::sync::atomic::{AtomicBool, AtomicU64, Ordering};
use std::time::{Duration, Instant};

/// Lists of a run, and of a long one.
const LISTS: u64 = 200_000;
const LONG_LISTS: u64 = 3_000_000;

struct Arguments {
    lists: u64,
    seed: u64,
    threads: u64,
}

fn arguments() -> Option<Arguments> {
    let threads = std::thread::available_parallelism().map_or(1, |count| count.get() as u64);
    let mut given = Arguments { lists: LISTS, seed: 1, threads };
    let mut words = std::env::args().skip(1);
    while let Some(word) = words.next() {
        if word == "--long" {
            given.lists = LONG_LISTS;
            continue;
        }
        let number: u64 = words.next()?.parse().ok()?;
        match &word[..] {
            "--lists" => given.lists = number,
            "--seed" => given.seed = number,
            "--threads" if number > 0 => given.threads = number,
            _ => return None,
        }
    }
    Some(given)
}

fn main() -> ExitCode {
    let Some(given) = arguments() else {
        eprintln!("usage: through [--lists N] [--long] [--seed S] [--threads T]");
        return ExitCode::from(2);
    };
    let started = Instant::now();
    match everything(&given) {
        Ok((tally, calls)) => {
            println!(
                "through the archive: {} call lists, {} adds and as many tidies on altered memory, \
                 {} calls; all as the recount has it",
                tally.lists, tally.altered, calls
            );
            println!("results by refusal number, 0 for an answer: {:?}", tally.numbers);
            tally.print_rest();
            println!("the comparison at scale took {} s", started.elapsed().as_secs());
            ExitCode::SUCCESS
        }
        Err(difference) => {
            eprintln!("{}", difference);
            ExitCode::FAILURE
        }
    }
}

/// The cases at the limits, then the random ones on all threads. Gives the number of calls, too.
fn everything(given: &Arguments) -> Result<(Tally, u64), String> {
    let (mut archive, mut tally) = (Archive::default(), Tally::default());
    limits::all(&mut archive, &mut tally).map_err(|text| format!("at the limits: {}", text))?;
    let mut calls = archive.calls;
    let (done, failed) = (AtomicU64::new(0), AtomicBool::new(false));
    let parts = std::thread::scope(|scope| {
        let (done, failed) = (&done, &failed);
        let work = |first: u64| scope.spawn(move || part(given, first, done, failed));
        let workers: Vec<_> = (0..given.threads).map(work).collect();
        let started = Instant::now();
        let mut told = 0;
        while !workers.iter().all(|worker| worker.is_finished()) {
            std::thread::sleep(Duration::from_millis(20));
            if started.elapsed().as_secs() >= told + 5 {
                told = started.elapsed().as_secs();
                eprintln!("{} of {} lists after {} s", done.load(Ordering::Relaxed), given.lists, told);
            }
        }
        let join = |worker: std::thread::ScopedJoinHandle<'_, _>| worker.join().expect("a worker ends");
        workers.into_iter().map(join).collect::<Vec<Result<(Tally, u64), String>>>()
    });
    for part in parts {
        let (counted, made) = part?;
        tally.join(&counted);
        calls += made;
    }
    tally.met_all()?;
    Ok((tally, calls))
}

/// Every list whose number leaves `first` over the threads.
fn part(
    given: &Arguments,
    first: u64,
    done: &AtomicU64,
    failed: &AtomicBool,
) -> Result<(Tally, u64), String> {
    let (mut archive, mut tally) = (Archive::default(), Tally::default());
    for number in (first..given.lists).step_by(given.threads as usize) {
        let mut rng = Rng::new(given.seed.wrapping_mul(1 << 32).wrapping_add(number));
        if let Err(text) = one_of_each(&mut archive, &mut rng, &mut tally) {
            failed.store(true, Ordering::Relaxed);
            return Err(format!("seed {}, list {}: {}", given.seed, number, text));
        }
        done.fetch_add(1, Ordering::Relaxed);
        if failed.load(Ordering::Relaxed) {
            break;
        }
    }
    Ok((tally, archive.calls))
}

/// A call list, an add, a tidy and a batch on altered memory, tables, and priors with look-ups; now and then a
/// training, a baseline or a call list with tidies or batches.
fn one_of_each(archive: &mut Archive, rng: &mut Rng, tally: &mut Tally) -> Compared {
    check::list(archive, &call_list(rng, &Shape::small()), tally)?;
    on_altered(archive, rng, tally)?;
    if rng.chance(25) {
        let floor = paths::floor(rng, 33);
        check::training(archive, &baselines::training(rng, (4, 12), floor), tally)?;
    }
    if rng.chance(25) {
        check::stats(archive, &baselines::stats_asked(rng, 6), tally)?;
    }
    let last = rng.between(1, 40);
    check::tables(archive, &tables::damaged(rng, last), tally)?;
    let lent = priors::refusable(rng);
    check::priors(archive, &lent, tally)?;
    check::lookups(archive, &lookups::random(rng, lent), tally)?;
    if rng.chance(30) {
        check::list(archive, &call_list(rng, &Shape::tidied()), tally)?;
    }
    if rng.chance(30) {
        let tidies = rng.pick(&[0, 30]);
        check::list(archive, &call_list(rng, &Shape::batched(tidies)), tally)?;
    }
    Ok(())
}

/// Altered memory with priors over the addresses that its book begins with.
fn on_altered(archive: &mut Archive, rng: &mut Rng, tally: &mut Tally) -> Compared {
    let add = altered_add(rng, 4);
    let mut known: Vec<Address> = vec![Address::new(0, 1)];
    for entry in add.book.chunks_exact(ENTRY_BYTES).take(6) {
        known.extend([Address::read(entry), Address::read(&entry[12..])]);
    }
    known.sort();
    known.dedup();
    let lent: PriorBytes = match rng.below(4) {
        0 => priors::sparse(rng, &known, 3, 60),
        1 => priors::fewer_nodes(rng, &known, 3),
        _ => priors::whole(rng, &known, 3),
    };
    let floor = paths::floor(rng, 33);
    let lent = priors::floored(rng, lent, floor);
    let last = rng.pick(&[10, 40, 80]);
    let tables: Tables = tables::good(rng, last);
    let count = rng.between(0, 8);
    let output =
        Places { addresses: rng.bytes(8 * count + 3), figures: (0..count).map(|_| rng.figure()).collect() };
    check::altered(archive, &add, (&tables, &lent, &output), tally)?;
    check::batch(archive, &add, &altered::batch(rng, &add), tally)
}
