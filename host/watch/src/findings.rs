//! What is found in a day, as the report and the page tell it: where it drifts, what was never seen,
//! and what is not judged.

use crate::day::{Day, MAX_DAY_PATHS, MAX_ENTRIES};
use crate::known::{Found, NeverSeen, Odd};
use crate::moved::Moved;
use crate::seldom::Often;
use crate::stretches::{End, Stretch};
use crate::training::Trained;
use crate::usual::{Why, FAR};
use crate::watched::{LeftOut, Part, Place, Tally, Unjudged, Watched};
use crate::words::{at, divergence, node, number, share, SHOWN};

/// What stands where no stretch is found.
pub fn nowhere(day: &Day, watched: &Watched) -> String {
    if watched.over_day_drifts {
        return "in no single reading, but over the whole day".to_string();
    }
    match (watched.tally(), watched.found.is_empty()) {
        (Tally { unjudged: 0, left_out: 0, .. }, _) if watched.over_day.is_empty() => {
            format!("nowhere: no reading is more than {} deviations above", day.drift)
        }
        (Tally { judged: 0, .. }, _) => "not known: nothing could be judged".to_string(),
        (Tally { judged, .. }, true) => {
            format!("none found in the {} judged", number(judged, "path"))
        }
        (Tally { judged, .. }, false) => {
            format!("not in the {} judged, but see what was never seen", number(judged, "path"))
        }
    }
}

/// The worst stretches in the day's order, and a line for how many more there are.
pub fn worst(stretches: &[Stretch]) -> (Vec<&Stretch>, Option<String>) {
    let mut worst: Vec<&Stretch> = stretches.iter().collect();
    worst.sort_by(|one, other| other.deviations.total_cmp(&one.deviations));
    worst.truncate(SHOWN);
    worst.sort_by_key(|stretch| stretch.first);
    let more = stretches.len().checked_sub(SHOWN).filter(|more| *more > 0);
    (worst, more.map(|more| format!("and {}, none of them worse", number(more, "more stretch"))))
}

/// A stretch: from where to where, its worst reading, and the node to look at.
pub fn stretch(day: &Day, watched: &Watched, stretch: &Stretch) -> Vec<String> {
    let earlier = if stretch.maybe_earlier { ", or earlier," } else { "" };
    let (first, last) = (at(day, stretch.first), at(day, stretch.last));
    let end = match stretch.end {
        End::Over => String::new(),
        End::DayEnds => ", the end of the day".to_string(),
        End::NotKnown(run) => {
            format!(" at least: {} it is not judged, and its end is not known", range(day, run))
        }
    };
    let place = match stretch.first == stretch.last {
        true => format!("at {}{}{}", first, earlier.trim_end_matches(','), end),
        false => format!("from {}{} to {}{}", first, earlier, last, end),
    };
    let others = watched.trained.as_ref().and_then(|trained| trained.others);
    let by_figures = stretch.often.is_none();
    let beside = match others.is_some_and(|others| by_figures && stretch.deviations <= others.most) {
        true => ", no further than a training sequence goes",
        false => "",
    };
    let worst = at(day, stretch.worst);
    let mut lines = vec![place];
    lines.push(format!("worst after {}: {:.1} deviations above{}", worst, stretch.deviations, beside));
    lines.extend(stretch.often.map(|often| often_text(day, &often, "the last ")));
    lines.extend(stretch.moved.as_ref().map(|moved| format!("look at {}", moved_text(day, moved))));
    lines
}

/// What is done more often than in the training.
fn often_text(day: &Day, often: &Often, the_last: &str) -> String {
    let does = match often.what {
        Odd::Ending { node: last } => format!("end at {}, where by the prior none ends", node(day, last)),
        Odd::Unwatched => "meet no node that has a prior".to_string(),
    };
    format!(
        "{} of {}{} {}; {} of {} in the training",
        often.paths,
        the_last,
        number(often.of, "path"),
        does,
        often.in_training,
        often.training
    )
}

/// What is told below the stretches: what is done more often over the whole day, and what is not
/// judged.
pub fn below_stretches(day: &Day, watched: &Watched) -> Vec<String> {
    let (mut lines, parts) = (over_day(day, watched), watched.unjudged());
    lines.extend(parts.iter().take(SHOWN).map(|one| part(day, watched, one)));
    if parts.len() > SHOWN {
        lines.push(format!("and {} are not judged", number(parts.len() - SHOWN, "more part")));
    }
    lines
}

/// What is done more often over the whole day.
fn over_day(day: &Day, watched: &Watched) -> Vec<String> {
    let line = |often: &Often| {
        let few = if often.deviations > day.drift { "" } else { ", too few to call it drift or calm" };
        let what = often_text(day, often, "");
        format!("over the whole day {}: {:.1} deviations above{}", what, often.deviations, few)
    };
    watched.over_day.iter().map(line).collect()
}

/// What was never seen, and where.
fn found(day: &Day, found: &Found) -> String {
    let what = match found.what {
        NeverSeen::Child { node: parent, child } => {
            format!("{} goes on to {}, which its prior does not have", node(day, parent), node(day, child))
        }
        NeverSeen::Ending { node: last } => {
            format!("ends at {}, where by the prior and in the training none ends", node(day, last))
        }
        NeverSeen::Unwatched { begins } => {
            format!("begins at {} and meets no node that has a prior", node(day, begins))
        }
    };
    let place = format!("{}, step {}", at(day, found.first), found.step + 1);
    match found.paths {
        1 => format!("{}: {}", place, what),
        paths => {
            format!(
                "{}, and {} up to {}: {}",
                place,
                number(paths - 1, "more path"),
                at(day, found.last),
                what
            )
        }
    }
}

/// Where a run of paths lies, from its first and last index.
fn range(day: &Day, [first, last]: [usize; 2]) -> String {
    match (first + 1, last + 1) {
        (first, last) if first == last => format!("at path {}", first),
        (first, last) if last == day.paths.len() => format!("from path {} on", first),
        (first, last) => format!("from path {} to path {}", first, last),
    }
}

/// What is not judged, and why.
fn part(day: &Day, watched: &Watched, part: &Part) -> String {
    let mut places: Vec<String> = part.runs.iter().map(|run| range(day, *run)).collect();
    let shown: usize = part.runs.iter().map(|run| run[1] - run[0] + 1).sum();
    if part.paths > shown {
        let more = number(part.paths - shown, "more path");
        places.push(format!("at {} up to path {}", more, part.last + 1));
    }
    let last = places.pop().unwrap_or_default();
    let place = match places.is_empty() {
        true => last,
        false => format!("{} and {}", places.join(", "), last),
    };
    format!("not judged {}: {}", place, reason(day, watched, part.why))
}

fn reason(day: &Day, watched: &Watched, why: Unjudged) -> String {
    let last = watched.trained.as_ref().map_or(0, Trained::last_knot);
    match why {
        Unjudged::Reading(Why::NoBaseline) => "there are no training sequences".to_string(),
        Unjudged::Reading(Why::OneSequence) => {
            "no usable spread (there is one training sequence)".to_string()
        }
        Unjudged::Reading(Why::OneKnot) => {
            format!("no usable spread (the training has one knot, at length {})", last)
        }
        Unjudged::Reading(Why::TooFar) => {
            format!("no usable spread (over {} times the length of the last knot, {})", FAR, last)
        }
        Unjudged::Reading(Why::NoSpread) => {
            "no usable spread of sum or maximum (the training sequences are alike there, or have no divergence)"
                .to_string()
        }
        Unjudged::Reading(Why::CarriedOn) => format!(
            "past the last knot, at length {}: no drift is found by a mean and spread that are carried on, \
             which is no all-clear",
            last
        ),
        Unjudged::Reading(Why::MoreOften) => {
            "paths do more often than in the training what good days do seldom, too few to call it drift or \
             calm"
                .to_string()
        }
        Unjudged::Reading(Why::NothingWatched) => "no node that has a prior is in the window".to_string(),
        Unjudged::LeftOut(LeftOut::NeverSeen) => "left out, since it was never seen".to_string(),
        Unjudged::LeftOut(LeftOut::PastTables(address)) => format!(
            "left out, since the counts of {} would pass {}, where the tables end",
            node(day, address),
            day.tables.last_index()
        ),
        Unjudged::LeftOut(LeftOut::BookFull) => format!(
            "left out, since the book is full{}: it holds {} nodes and transitions",
            if day.window == 0 { "" } else { ", tidied too" },
            day.capacity.map_or(MAX_ENTRIES, |capacity| capacity.value)
        ),
        Unjudged::LeftOut(LeftOut::PathsFull) => {
            format!("left out, since a tracker takes {} paths at most", MAX_DAY_PATHS)
        }
    }
}

/// A node, its divergence beside what is usual, and what has moved most.
fn moved_text(day: &Day, moved: &Moved) -> String {
    let [divergence, usual] = divergence(moved);
    let beside = match moved.usual {
        Some(_) => format!("divergence {}, in the training {}", divergence, usual),
        None => format!("the greatest divergence, {}", divergence),
    };
    format!("node {}, {}: {}", node(day, moved.node), beside, share(day, moved))
}

/// What was never seen: how many paths that is, and a line each for the commonest of it in the
/// day's order.
pub fn never_seen(day: &Day, watched: &Watched) -> Option<(String, Vec<String>)> {
    if watched.found.is_empty() {
        return None;
    }
    let never = |place: &&Place| matches!(place, Place::LeftOut(LeftOut::NeverSeen));
    let title = match watched.places.iter().filter(never).count() {
        1 => "Never seen on a good day: 1 path, which is left out of the figures".to_string(),
        paths => format!("Never seen on a good day: {} paths, which are left out of the figures", paths),
    };
    let mut commonest: Vec<&Found> = watched.found.iter().collect();
    commonest.sort_by_key(|found| std::cmp::Reverse(found.paths));
    commonest.truncate(SHOWN);
    commonest.sort_by_key(|found| (found.first, found.step));
    let mut lines: Vec<String> = commonest.into_iter().map(|one| found(day, one)).collect();
    if watched.found.len() > SHOWN {
        lines.push(format!("and {} of it", number(watched.found.len() - SHOWN, "more kind")));
    }
    Some((title, lines))
}
