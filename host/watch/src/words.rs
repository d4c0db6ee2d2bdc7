//! What the report and the page say in the same words: numbers, figures, nodes and paths.

use crate::day::Day;
use crate::moved::{Moved, Share};
use crate::usual::{hold, Held};
use crate::watched::{Reading, Verdict, Watched};
use teakpool::{Address, BaselineStats, MeanVariance};

/// Stretches, findings and parts that are shown; more are counted.
pub const SHOWN: usize = 20;
/// No figure is as great; f64::MIN and f64::MAX stand for none.
pub const NO_FIGURE: f64 = 1.0e300;

/// The day in two or three words.
pub fn verdict(verdict: Verdict) -> &'static str {
    match verdict {
        Verdict::NoDrift => "no drift",
        Verdict::Drift => "drift found",
        Verdict::NotAllJudged => "not all of it could be judged",
    }
}

/// `1 path`, `2 paths`.
pub fn number(count: usize, one: &str) -> String {
    match count {
        1 => format!("1 {}", one),
        count if one.ends_with("stretch") => format!("{} {}es", count, one),
        count => format!("{} {}s", count, one),
    }
}

/// A node with its name.
pub fn node(day: &Day, node: Address) -> String {
    match day.names.get(&node) {
        Some(name) => format!("{} ({})", node, name),
        None => node.to_string(),
    }
}

/// A path's number, its line and the mark that it stands under.
pub fn at(day: &Day, index: usize) -> String {
    let mark = day.mark_at(index).map(|mark| format!(", {}", mark)).unwrap_or_default();
    format!("path {} (line {}{})", index + 1, day.paths.line(index), mark)
}

/// A node's divergence, and its mean in the training.
pub fn divergence(moved: &Moved) -> [String; 2] {
    [figure(moved.divergence), figure(moved.usual.unwrap_or(f64::NAN))]
}

/// What has moved most at a node.
pub fn share(day: &Day, moved: &Moved) -> String {
    match moved.most() {
        None => "nothing seen in the window".to_string(),
        Some(share) => {
            let (way, now, prior) = (way(day, share), percent(share.now), percent(share.prior));
            let usual = share.training.map(|share| format!(", {} in the training", percent(share)));
            format!("{} {} of the time, {} by the prior{}", way, now, prior, usual.unwrap_or_default())
        }
    }
}

/// Where a share goes.
pub fn way(day: &Day, share: &Share) -> String {
    share.child.map_or("ends here".to_string(), |child| format!("goes to {}", node(day, child)))
}

/// A share in whole percents.
pub fn percent(share: f64) -> String {
    format!("{:.0} %", 100.0 * share)
}

/// A figure; what is no figure is a dash.
pub fn figure(value: f64) -> String {
    match value {
        value if value.is_nan() || value.abs() >= NO_FIGURE => "-".to_string(),
        value if value != 0.0 && (value.abs() < 0.001 || value.abs() >= 1.0e6) => format!("{:.2e}", value),
        value => format!("{:.3}", value),
    }
}

/// Deviations, where there are any.
pub fn deviations(value: Option<f64>) -> String {
    value.map_or("-".to_string(), |value| format!("{:+.1}", value))
}

/// When the last figures are read.
pub fn when(day: &Day, watched: &Watched) -> String {
    match watched.readings().next_back() {
        Some((index, _)) if index + 1 < day.paths.len() => {
            format!("after path {}, the last that is added", index + 1)
        }
        _ => "at the end of the day".to_string(),
    }
}

/// The nodes that are not shown, and how nodes are found.
pub fn other_nodes(day: &Day, watched: &Watched) -> Vec<String> {
    let mut lines = Vec::new();
    if watched.more_nodes > 0 {
        lines
            .push(format!("and {}, none with a greater divergence", number(watched.more_nodes, "more node")));
    }
    match watched.skipped {
        0 => {}
        1 => lines.push("1 node without a prior is not watched".to_string()),
        skipped => lines.push(format!("{} nodes without a prior are not watched", skipped)),
    }
    if let Some(floor) = day.priors.floor() {
        lines.push(format!("below the floor, scale {}, a node has the prior with its point", floor));
    }
    lines
}

/// The five figures of a reading: name, value, mean, variance and deviations.
pub fn statistics(watched: &Watched, reading: &Reading) -> [[String; 5]; 5] {
    let (stats, usual) = (&reading.stats, watched.usual(reading.stats.sequence_length));
    let row = |name: &str, value: f64, of: fn(&BaselineStats) -> MeanVariance| {
        let known = usual.figures.as_ref().map(of);
        let (mean, variance) = known.map_or((f64::NAN, f64::NAN), |known| (known.mean, known.variance));
        // Without divergences maximum and minimum are no figures.
        let usable = usual.unusable.is_none() && value.abs() < NO_FIGURE;
        let held = known.filter(|_| usable).map(|known| hold(value, known));
        let above = deviations(held.and_then(Held::deviations));
        [name.to_string(), figure(value), figure(mean), figure(variance), above]
    };
    [
        row("maximum", stats.maximum, |figures| figures.maximum),
        row("minimum", stats.minimum, |figures| figures.minimum),
        row("number", stats.number as f64, |figures| figures.number),
        row("sum", stats.sum, |figures| figures.sum),
        row("sum of squares", stats.sum_of_squares, |figures| figures.sum_of_squares),
    ]
}
