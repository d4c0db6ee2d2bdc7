//! What a day is and what it is held against, and what makes the judgement weaker than it looks:
//! the first lines of the report and of the page.

use crate::day::{Day, MAX_ENTRIES};
use crate::others::Others;
use crate::training::Trained;
use crate::usual::FAR;
use crate::watched::{LeftOut, Place, Tally, Tidied, Watched};
use crate::words::{at, number};
use crate::work::EVERY;
use teakpool::ENTRY_BYTES;

/// Training sequences below which the spread is called rough.
const FEW_SEQUENCES: u32 = 8;

/// What the day is and what it is held against, a line each.
pub fn facts(day: &Day, watched: &Watched) -> Vec<String> {
    let mut facts = vec![paths(day), baseline(watched)];
    facts.extend(others(day, watched));
    facts.extend([judged(watched), book(day, watched)]);
    facts
}

/// How many paths there are, and which count.
fn paths(day: &Day) -> String {
    let window = match day.window {
        0 => "all of them count".to_string(),
        window => format!("the last {} count", window),
    };
    // Below a floor more nodes can have a prior than there are priors.
    let priors = match day.priors.floor() {
        None => format!("nodes with a prior: {}", day.priors.len()),
        Some(floor) => format!("priors: {}, floor {}", day.priors.len(), floor),
    };
    format!("paths: {}, {}; {}", day.paths.len(), window, priors)
}

/// What the baseline was trained on.
fn baseline(watched: &Watched) -> String {
    match &watched.trained {
        None => "no training sequences, so no baseline to hold it against".to_string(),
        Some(trained) => format!(
            "baseline: {} of {}, {}, the last at length {}",
            number(trained.sequences as usize, "training sequence"),
            number(trained.paths as usize, "path"),
            number(trained.knots.len(), "knot"),
            trained.last_knot()
        ),
    }
}

/// How much of the day is judged.
fn judged(watched: &Watched) -> String {
    let Tally { judged, unjudged, left_out, .. } = watched.tally();
    match (judged, unjudged + left_out) {
        (1, 0) => return "judged: the only path".to_string(),
        (judged, 0) => return format!("judged: all {}", number(judged, "path")),
        _ => {}
    }
    let mut text = format!("judged: {} of {}", judged, number(judged + unjudged + left_out, "path"));
    if left_out > 0 {
        text.push_str(&format!("; {} left out", number(left_out, "path")));
    }
    if unjudged > 0 {
        text.push_str(&format!("; {} without a judgement", unjudged));
    }
    text
}

/// How many entries of a book the added paths need.
fn book(day: &Day, watched: &Watched) -> String {
    let count = |of: fn(&&Place) -> bool| watched.places.iter().filter(of).count();
    let added = count(|place| !matches!(place, Place::LeftOut(_)));
    let full = count(|place| matches!(place, Place::LeftOut(LeftOut::BookFull)));
    let mut text = match (added, watched.tidied) {
        (0, _) => return "book: empty, since no path is added".to_string(),
        (1, _) => enough(watched.needed, "the path added"),
        (added, None) => enough(watched.needed, &format!("the {} paths added, in any order", added)),
        (added, Some(tidied)) => {
            let enough = enough(tidied.needed, &format!("the {} paths added, in their order", added));
            format!("{}; with tidies {}; without they need {}", times(day, tidied), enough, watched.needed)
        }
    };
    if full > 0 {
        text.push_str(&format!("; {} more did not fit", number(full, "path")));
    }
    if full > 0 || watched.needed > MAX_ENTRIES {
        text.push_str(&format!(", and no book has over {} entries", MAX_ENTRIES));
    }
    format!("book: {}", text)
}

/// So many entries are enough.
fn enough(entries: usize, paths: &str) -> String {
    match entries {
        1 => format!("1 entry ({} bytes) is enough for {}", ENTRY_BYTES, paths),
        entries => {
            let bytes = ENTRY_BYTES * entries;
            format!("{} entries ({} bytes) are enough for {}, and fewer are not", entries, bytes, paths)
        }
    }
}

/// How often the book was tidied, and when.
fn times(day: &Day, Tidied { times, first, .. }: Tidied) -> String {
    match times {
        1 => format!("tidied once, after {}", at(day, first)),
        times => format!("tidied {} times, first after {}", times, at(day, first)),
    }
}

/// How far the training's own days go.
fn others(day: &Day, watched: &Watched) -> Option<String> {
    let trained = watched.trained.as_ref()?;
    trained.others.map(|Others { most, above }| {
        format!(
            "held against the others, a training sequence goes up to {:.1} deviations; {} of {} pass {}",
            most, above, trained.sequences, day.drift
        )
    })
}

/// What makes the judgement weaker than it looks, a line each.
pub fn warnings(day: &Day, watched: &Watched) -> Vec<String> {
    weaker(day, watched).iter().map(|warning| format!("warning: {}", warning)).collect()
}

fn weaker(day: &Day, watched: &Watched) -> Vec<String> {
    let mut warnings = Vec::new();
    if let Some(trained) = &watched.trained {
        warnings.extend(training_warning(trained));
        warnings.extend(knot_warning(day, watched, trained));
    }
    let Tally { unread, .. } = watched.tally();
    if unread > 0 {
        warnings.push(format!(
            "all paths count and there are many, so {} of them are not read one by one: past path {} \
             the readings lie apart, and each covers the paths before it",
            unread, EVERY
        ));
    }
    let [endings, in_training] = watched.new_endings;
    if endings > 0 {
        let trained = watched.trained.as_ref();
        let of = trained.map_or(0, |trained| trained.sequences as usize * trained.paths as usize);
        warnings.push(format!(
            "{} where the prior has no ending ({} of {} in the training); the divergence leaves \
             such endings out",
            if endings == 1 { "1 path ends".to_string() } else { format!("{} paths end", endings) },
            in_training,
            of
        ));
    }
    warnings
}

fn training_warning(trained: &Trained) -> Option<String> {
    match trained.sequences {
        1 => Some("one training sequence has no spread, so nothing can be judged".to_string()),
        few if few < FEW_SEQUENCES => {
            Some(format!("{} training sequences give a rough spread, and good days pass it too", few))
        }
        _ => None,
    }
}

/// Where the window or the day goes past the last knot.
fn knot_warning(day: &Day, watched: &Watched, trained: &Trained) -> Option<String> {
    let last = trained.last_knot();
    let longest = watched.readings().map(|(_, reading)| reading.stats.sequence_length).max()?;
    if longest <= u64::from(last) || trained.sequences == 1 {
        return None;
    }
    if trained.knots.len() == 1 {
        return Some(format!(
            "the training has one knot, at length {} (rate {}, sequences of {} paths), so nothing \
             can be judged past it",
            last, trained.rate, trained.paths
        ));
    }
    let what = match day.window {
        0 => format!("the day, of {},", number(longest as usize, "path")),
        window => format!("the window, of {},", number(window as usize, "path")),
    };
    Some(format!(
        "{} goes past the last knot, at length {}: from there drift is looked for with mean and spread \
         carried on, up to {} times that length, and what does not drift is not judged",
        what, last, FAR
    ))
}
