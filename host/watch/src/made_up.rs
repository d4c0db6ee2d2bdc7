//! Days made up from a seed, and what the watch says of many of them: none on which the machine
//! has drifted may pass for calm, and none may be silent about what it could not judge.

use crate::day::Day;
use crate::lookup::Priors;
use crate::reader::read;
use crate::report::report;
use crate::stretches::End;
use crate::watched::{Judged, Tally, Verdict, Watched};
use crate::work::watch;
use cases::rng::Rng;
use std::fmt::Write;
use teakpool::Address;

/// What a day is made of.
#[derive(Clone, Copy)]
struct Plan {
    sequences: usize,
    training_paths: usize,
    rate: Option<usize>,
    window: usize,
    paths: usize,
    /// From this path on, from 0, a step goes to the node's last child in so many of a hundred
    /// cases, and by the prior in the others.
    sticks_from: usize,
    sticks: usize,
    /// The node where it does, all of them without one.
    at: Option<Address>,
    /// At 3/0 so many of a hundred steps go to its last child in the training and in the day.
    always: usize,
}

/// A training of 40 paths, and a day of 260 whose last 200 stick grossly; all paths count.
const GROSS: Plan = Plan {
    sequences: 8,
    training_paths: 40,
    rate: None,
    window: 0,
    paths: 260,
    sticks_from: 60,
    sticks: 60,
    at: None,
    always: 0,
};

/// A path by the example's priors; at a node a step sticks in so many of a hundred cases.
fn path(priors: &Priors, random: &mut Rng, sticks: impl Fn(Address) -> usize) -> String {
    let mut node = Address::new(3, 0);
    let mut line = format!("path {}", node);
    while let Some(prior) = priors.of(node) {
        let mut left = random.below(prior.total() as usize) as u64;
        let by_prior = prior.children.iter().find(|(_, count)| {
            let here = left < u64::from(**count);
            left = left.saturating_sub(u64::from(**count));
            here
        });
        let stuck = prior.children.last_key_value().filter(|_| random.chance(sticks(node)));
        let Some((child, _)) = stuck.or(by_prior) else {
            break;
        };
        node = *child;
        write!(line, " {}", node).unwrap();
    }
    line
}

/// The lines of a made-up day.
fn made_up(plan: Plan, seed: usize) -> String {
    let example = include_str!("../../../days/example.txt");
    let priors = read(example.as_bytes()).expect("the example can be read").priors;
    let mut random = Rng::new(seed as u64 * 1_000 + plan.sequences as u64);
    let mut lines: Vec<String> =
        example.lines().filter(|line| line.starts_with("prior")).map(str::to_string).collect();
    lines.push(format!("window {}", plan.window));
    lines.extend(plan.rate.map(|rate| format!("rate {}", rate)));
    let always = |node: Address| if node == Address::new(3, 0) { plan.always } else { 0 };
    for _ in 0..plan.sequences {
        lines.push("sequence".to_string());
        lines.extend((0..plan.training_paths).map(|_| path(&priors, &mut random, always)));
    }
    lines.push("day".to_string());
    for index in 0..plan.paths {
        let stuck = |node: Address| index >= plan.sticks_from && plan.at.is_none_or(|at| at == node);
        let sticks = |node: Address| if stuck(node) { plan.sticks } else { always(node) };
        lines.push(path(&priors, &mut random, sticks));
    }
    lines.join("\n")
}

fn watched(plan: Plan, seed: usize) -> (Day, Watched) {
    let day = read(made_up(plan, seed).as_bytes()).expect("a made-up day can be read");
    let watched = watch(&day).expect("a made-up day can be run");
    let Tally { judged, unjudged, left_out, .. } = watched.tally();
    assert_eq!(judged + unjudged + left_out, plan.paths);
    (day, watched)
}

#[test]
fn no_drifted_day_is_silent_and_no_stretch_ends_early() {
    for sequences in [2, 3, 8, 16] {
        for rate in [None, Some(5)] {
            for seed in 0..150 {
                let (_, watched) = watched(Plan { sequences, rate, ..GROSS }, seed);
                assert_eq!(watched.verdict(), Verdict::Drift);
                let last = watched.stretches.last().expect("a stretch");
                assert_eq!((last.last, last.end), (259, End::DayEnds), "{} {:?} {}", sequences, rate, seed);
            }
        }
    }
}

/// What a report says under 'Where it drifts'.
fn where_it_drifts(plan: Plan, seed: usize) -> (Verdict, Vec<String>) {
    let (day, watched) = watched(plan, seed);
    let text = report("made up", &day, &watched);
    let lines = text.lines().skip_while(|line| *line != "Where it drifts").skip(1);
    (
        watched.verdict(),
        lines.take_while(|line| !line.is_empty()).map(|line| line.trim().to_string()).collect(),
    )
}

/// Tests that not all of a day is judged, and what is said of it.
fn not_all_judged(plan: Plan, said: [&str; 2]) {
    let (verdict, lines) = where_it_drifts(plan, 1);
    assert_eq!(verdict, Verdict::NotAllJudged);
    assert_eq!(lines, said);
}

#[test]
fn too_little_training_judges_little_or_nothing() {
    let none = "not known: nothing could be judged";
    let one_sequence = "not judged from path 1 on: no usable spread (there is one training sequence)";
    not_all_judged(Plan { sequences: 1, ..GROSS }, [none, one_sequence]);
    let no_training = "not judged from path 1 on: there are no training sequences";
    not_all_judged(Plan { sequences: 0, ..GROSS }, [none, no_training]);
    let one_knot = "not judged from path 2 on: no usable spread (the training has one knot, at length 1)";
    not_all_judged(Plan { rate: Some(50), ..GROSS }, ["none found in the 1 path judged", one_knot]);
}

#[test]
fn a_drift_far_past_the_last_knot_has_no_known_end() {
    // The last knot is at 40, so 320 is the last length that is judged.
    let (verdict, lines) = where_it_drifts(Plan { paths: 400, ..GROSS }, 1);
    assert_eq!(verdict, Verdict::Drift);
    let end = " at least: from path 321 on it is not judged, and its end is not known";
    assert!(lines.iter().any(|line| line.ends_with(end)), "{:?}", lines);
    let last = "not judged from path 321 on: no usable spread (over 8 times the length of the last knot, 40)";
    assert_eq!(lines.last().unwrap(), last);
}

/// Of a hundred readings on good days, how many are told as drift up to the last knot, up to
/// twice its length, four times and eight times.
fn alarms(sequences: usize) -> [usize; 4] {
    let (mut drifting, mut all) = ([0; 4], [0; 4]);
    for seed in 0..60 {
        let plan = Plan { sequences, paths: 320, sticks: 0, ..GROSS };
        for (index, reading) in watched(plan, seed).1.readings() {
            let place = [40, 80, 160].iter().filter(|length| index >= **length).count();
            all[place] += 100;
            drifting[place] += 100 * 100 * usize::from(matches!(reading.judged, Judged::Drift(_)));
        }
    }
    [0, 1, 2, 3].map(|place| drifting[place] / all[place])
}

#[test]
fn good_days_are_not_told_as_drift_more_often_past_the_last_knot() {
    for sequences in [8, 16, 64] {
        let [within, past @ ..] = alarms(sequences);
        assert!(
            past.iter().all(|past| *past <= within + 5),
            "{} sequences: {} and {:?}",
            sequences,
            within,
            past
        );
    }
}

/// The greatest deviations of a day's stretches, 0 without any.
fn most(watched: &Watched) -> f64 {
    watched.stretches.iter().map(|stretch| stretch.deviations).fold(0.0, f64::max)
}

/// The tables of docs/REPORT.md: of 150 days, how many are told as drift, by how often a step
/// sticks, by training sequences and by deviations; last, how many go further than a training
/// sequence. Run by name:
///
///     cargo test --release --offline -p watch -- --ignored --nocapture how_many_days
#[test]
#[ignore = "it makes tables and tests nothing"]
fn how_many_days_are_told_as_drift() {
    let levels = [3.0, 4.0, 6.0, 8.0, 10.0];
    println!("sticks, sequences: days of 150 above {:?} deviations, and above the training", levels);
    for sticks in [0, 15, 30, 60] {
        for sequences in [2, 3, 8, 16, 32, 64] {
            let (mut told, mut further) = ([0; 5], 0);
            for seed in 0..150 {
                let plan = Plan { sequences, window: 40, sticks, ..GROSS };
                let (_, watched) = watched(plan, seed);
                (0..5).for_each(|place| told[place] += usize::from(most(&watched) > levels[place]));
                let others = watched.trained.as_ref().and_then(|trained| trained.others);
                further += usize::from(others.is_some_and(|others| most(&watched) > others.most));
            }
            println!("{:>2} {:>2}: {:?} {}", sticks, sequences, told, further);
        }
    }
    println!("sequences: readings of 100 on good days, up to the last knot, 2, 4 and 8 times its length");
    [2, 3, 8, 16, 32, 64]
        .into_iter()
        .for_each(|sequences| println!("{:>2}: {:?}", sequences, alarms(sequences)));
}

/// The node that the worst stretch of the drifting part names.
fn named(watched: &Watched) -> Option<Address> {
    let drifting = watched.stretches.iter().filter(|stretch| stretch.first >= 80);
    let worst = drifting.max_by(|one, other| one.deviations.total_cmp(&other.deviations))?;
    worst.moved.as_ref().map(|moved| moved.node)
}

#[test]
fn the_node_that_sticks_is_named_and_not_the_one_that_always_diverges() {
    let at = Address::new(1, 2);
    let plan = Plan { sequences: 16, window: 40, sticks: 70, at: Some(at), always: 50, ..GROSS };
    let named: Vec<Address> = (0..60).filter_map(|seed| named(&watched(plan, seed).1)).collect();
    let right = named.iter().filter(|node| **node == at).count();
    // docs/REPORT.md has these numbers.
    assert_eq!((right, named.len()), (51, 53));
}
