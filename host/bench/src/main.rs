//! Times the archive's calls beside goko's in one run and prints a table: microseconds of
//! processor time of each and their ratio, the median of several rounds, in which the two sides
//! take turns. Both are given the same, and their figures must be equal. A second table has the
//! archive's readings with a floor beside those without one. `--adds` prints the rows of adds alone,
//! `--floors` the second table alone. Lists of paths have a million, or as many as `--paths` says, which
//! must be 100,000 or so at least to take every transition. docs/PERFORMANCE.md says what the rows mean.
//!
//!     bench [--adds | --floors] [--paths N] [--rounds R]

#[cfg(not(no_goko))]
mod adds;
#[cfg(not(no_goko))]
mod agree;
#[cfg(not(no_goko))]
mod clock;
#[cfg(not(no_goko))]
mod floors;
#[cfg(not(no_goko))]
mod load;
#[cfg(not(no_goko))]
mod rows;
#[cfg(not(no_goko))]
mod sides;

use std::process::ExitCode;

const USAGE: &str = "usage: bench [--adds | --floors] [--paths N] [--rounds R]";

/// What to print, paths of a list and rounds.
struct Arguments {
    adds_alone: bool,
    floors_alone: bool,
    paths: usize,
    rounds: usize,
}

fn arguments() -> Option<Arguments> {
    let mut given = Arguments { adds_alone: false, floors_alone: false, paths: 1_000_000, rounds: 9 };
    let mut words = std::env::args().skip(1);
    while let Some(word) = words.next() {
        let mut number = || words.next()?.parse().ok().filter(|number| *number > 0);
        match &word[..] {
            "--adds" => given.adds_alone = true,
            "--floors" => given.floors_alone = true,
            "--paths" => given.paths = number()?,
            "--rounds" => given.rounds = number()?,
            _ => return None,
        }
    }
    (!given.adds_alone || !given.floors_alone).then_some(given)
}

fn main() -> ExitCode {
    let Some(given) = arguments() else {
        eprintln!("{}", USAGE);
        return ExitCode::from(2);
    };
    run(&given);
    ExitCode::SUCCESS
}

#[cfg(not(no_goko))]
fn run(given: &Arguments) {
    if !given.floors_alone {
        rows::print(given.adds_alone, given.paths, given.rounds);
    }
    if !given.adds_alone && !given.floors_alone {
        println!();
    }
    if !given.adds_alone {
        floors::print(given.rounds);
    }
}

#[cfg(no_goko)]
fn run(_: &Arguments) {
    println!("goko's sources were not there: there is nothing to compare with");
}
