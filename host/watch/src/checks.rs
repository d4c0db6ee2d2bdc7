//! What shows only when all lines of a day are read: tables of one length, priors that leave room
//! in them, one prior a point below the floor, a rate and a capacity that fit the paths, and a
//! training that its priors allow.

use crate::capacity::least;
use crate::counts::Counts;
use crate::day::{Day, Paths, Prior, Setting, TableRule, MAX_KNOTS};
use crate::known::Known;
use crate::mistakes::Mistakes;
use std::collections::{HashMap, HashSet};
use teakpool::Address;

/// Tests that the lines of a day fit together; `tables_read` is false where a line of the tables
/// is wrong already.
pub fn together(day: &Day, tables_read: bool, mistakes: &mut Mistakes) {
    let whole_tables = tables_read && whole_tables(day, mistakes);
    few_knots(day, mistakes);
    // Without it nobody can say which prior a node has.
    if !one_prior_a_point(day, mistakes) {
        return;
    }
    if whole_tables {
        room_in_tables(day, mistakes);
    }
    enough_capacity(day, mistakes);
    known_training(day, mistakes);
}

/// Below the floor no two priors have one point. Of two that do the line further down is told.
fn one_prior_a_point(day: &Day, mistakes: &mut Mistakes) -> bool {
    let mut below: Vec<(&Address, &Prior)> = day.priors.below().collect();
    below.sort_by_key(|(_, prior)| prior.line);
    let mut by_point: HashMap<u32, (&Address, &Prior)> = HashMap::new();
    let mut apart = true;
    for (node, prior) in below {
        let (before, earlier) = *by_point.entry(node.point).or_insert((node, prior));
        if let Some(floor) = day.priors.floor().filter(|_| before != node) {
            let text = format!(
                "{}, in line {}, has this point and is below the floor, {}, too",
                before, earlier.line, floor
            );
            mistakes.add(prior.line, text);
            apart = false;
        }
    }
    apart
}

/// Given tables have equally many numbers, at least those of index 0 and 1.
fn whole_tables(day: &Day, mistakes: &mut Mistakes) -> bool {
    let TableRule::Numbers { g, d } = &day.tables else {
        return true;
    };
    let (in_g, in_d) = (g.values.len(), d.values.len());
    let line = if in_g < in_d { g.line } else { d.line };
    if in_g != in_d {
        let text = format!("the lines 'g' have {} numbers, the lines 'd' {}; both need as many", in_g, in_d);
        mistakes.add(line, text);
        return false;
    }
    if in_g < 2 {
        let text = "the lines 'g' and the lines 'd' need two numbers at least, of index 0 and 1";
        mistakes.add(line, text.to_string());
        return false;
    }
    true
}

/// A visited node's prior leaves room in the tables for one path at least.
fn room_in_tables(day: &Day, mistakes: &mut Mistakes) {
    let last_index = day.tables.last_index();
    let too_great: Vec<(&Address, &Prior)> =
        day.priors.iter().filter(|(_, prior)| prior.total() >= last_index).collect();
    if too_great.is_empty() {
        return;
    }
    let steps = each_history(day).flat_map(Paths::iter).flatten();
    let visited: HashSet<Address> = steps.filter_map(|step| day.priors.line_node(*step)).collect();
    for (_, prior) in too_great.iter().filter(|(node, _)| visited.contains(node)) {
        mistakes.add(prior.line, no_room(prior, last_index));
    }
}

/// What is wrong with a prior that leaves no room for a path.
pub fn no_room(prior: &Prior, last_index: u64) -> String {
    format!(
        "the counts of this prior come to {}, and the last index of the tables is {}",
        prior.total(),
        last_index
    )
}

/// A given rate leaves few enough knots.
fn few_knots(day: &Day, mistakes: &mut Mistakes) {
    let (paths, Some(Setting { line, value })) = (day.training_paths(), day.rate) else {
        return;
    };
    let knots = paths.div_ceil(value as usize);
    if knots > MAX_KNOTS {
        let text = format!(
            "a rate of {} gives {} knots in sequences of {} paths, and there are at most {}; \
             {} is the least rate for them",
            value,
            knots,
            paths,
            MAX_KNOTS,
            paths.div_ceil(MAX_KNOTS)
        );
        mistakes.add(line, text);
    }
}

/// A given capacity takes each sequence, in which no path leaves, and the day, whose book is tidied
/// where it is full.
fn enough_capacity(day: &Day, mistakes: &mut Mistakes) {
    let Some(Setting { line, value }) = day.capacity else {
        return;
    };
    let training = day.sequences.iter().map(|sequence| least(sequence.iter(), 0)).max().unwrap_or(0);
    let of_day = least(added(day), day.window);
    let (whose, entries) = if training > of_day { ("training", training) } else { ("day", of_day) };
    if entries > value {
        let text = format!("a capacity of {} is too small: the {} needs {} entries", value, whose, entries);
        mistakes.add(line, text);
    }
}

/// The paths of the day but for those that are left out, whatever room there is in the book.
fn added(day: &Day) -> impl Iterator<Item = &[Address]> {
    let (known, last_index) = (Known::of(day), day.tables.last_index());
    let mut counts = Counts::new(day, &day.paths, day.window);
    (0..day.paths.len()).filter_map(move |index| {
        let steps = day.paths.steps(index);
        let added = known.never_seen(steps).is_empty() && counts.past_end(index, last_index).is_none();
        added.then(|| {
            counts.add(index);
            steps
        })
    })
}

/// In the training a node with a prior goes on to children that the prior has: a training that
/// meets another is stopped with 14. In the day such a path is a finding.
fn known_training(day: &Day, mistakes: &mut Mistakes) {
    for sequence in &day.sequences {
        for (index, steps) in sequence.iter().enumerate() {
            let missing = |pair: &&[Address]| {
                day.priors.of(pair[0]).is_some_and(|prior| !prior.children.contains_key(&pair[1]))
            };
            if let Some(pair) = steps.windows(2).find(missing) {
                let text = format!(
                    "{} goes on to {}, which its prior does not have; a training is made of good days",
                    pair[0], pair[1]
                );
                mistakes.add(sequence.line(index), text);
            }
        }
    }
}

fn each_history(day: &Day) -> impl Iterator<Item = &Paths> {
    day.sequences.iter().chain([&day.paths])
}
