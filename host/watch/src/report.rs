//! The report of a day, as text.

use crate::day::Day;
use crate::facts;
use crate::findings;
use crate::usual::Held;
use crate::watched::{Judged, Reading, Watched};
use crate::words;
use std::fmt::Write;
use teakpool::MeanVariance;

/// Rows of the table over the day.
const ROWS: usize = 16;

/// All of it.
pub fn report(name: &str, day: &Day, watched: &Watched) -> String {
    let mut text = String::new();
    // Writing to a String cannot fail.
    let _ = head(&mut text, name, day, watched)
        .and_then(|()| course(&mut text, day, watched))
        .and_then(|()| drift(&mut text, day, watched))
        .and_then(|()| never_seen(&mut text, day, watched))
        .and_then(|()| nodes(&mut text, day, watched))
        .and_then(|()| statistics(&mut text, day, watched));
    text
}

type Written = std::fmt::Result;

fn head(text: &mut String, name: &str, day: &Day, watched: &Watched) -> Written {
    writeln!(text, "The day {}: {}", name, words::verdict(watched.verdict()))?;
    lines(text, facts::facts(day, watched))?;
    lines(text, facts::warnings(day, watched))
}

/// Sum and maximum through the day, beside the baseline's means.
fn course(text: &mut String, day: &Day, watched: &Watched) -> Written {
    let readings: Vec<(usize, &Reading)> = watched.readings().collect();
    if readings.is_empty() {
        return Ok(());
    }
    writeln!(text, "\nHow it went: divergences in the window, the baseline's mean at the same length, and")?;
    writeln!(
        text,
        "how many standard deviations lie between (* more than {} above, ? not judged)",
        day.drift
    )?;
    writeln!(
        text,
        "  {:>6} {:>6} {:>10} {:>10} {:>8} {:>10} {:>10} {:>8}",
        "path", "length", "sum", "mean", "dev", "maximum", "mean", "dev"
    )?;
    let every = readings.len().div_ceil(ROWS);
    for (number, (index, reading)) in (1..).zip(&readings) {
        if number % every == 0 || number == readings.len() {
            row(text, *index, reading, watched)?;
        }
    }
    Ok(())
}

fn row(text: &mut String, index: usize, reading: &Reading, watched: &Watched) -> Written {
    let Reading { stats, sum, maximum, judged } = reading;
    let figures = watched.usual(stats.sequence_length).figures;
    let beside = |value: f64, usual: Option<MeanVariance>, held: Held| {
        let mean = usual.map_or(f64::NAN, |usual| usual.mean);
        let above = words::deviations(held.deviations());
        format!("{:>10} {:>10} {:>8}", words::figure(value), words::figure(mean), above)
    };
    let sign = match judged {
        Judged::Calm => "",
        Judged::Drift(_) => " *",
        Judged::Often(_) => " * too often",
        Judged::Not(_) => " ?",
    };
    let sum = beside(stats.sum, figures.map(|figures| figures.sum), *sum);
    let maximum = beside(stats.maximum, figures.map(|figures| figures.maximum), *maximum);
    writeln!(text, "  {:>6} {:>6} {} {}{}", index + 1, stats.sequence_length, sum, maximum, sign)
}

/// Where the day drifts, with the node and the child to look at, and what is not judged.
fn drift(text: &mut String, day: &Day, watched: &Watched) -> Written {
    writeln!(text, "\nWhere it drifts")?;
    if watched.stretches.is_empty() {
        writeln!(text, "  {}", findings::nowhere(day, watched))?;
    }
    let (shown, more) = findings::worst(&watched.stretches);
    for stretch in shown {
        let lines = findings::stretch(day, watched, stretch);
        writeln!(text, "  {}", lines.join("\n    "))?;
    }
    let below = more.into_iter().chain(findings::below_stretches(day, watched));
    lines(text, below)
}

/// What no good day has done.
fn never_seen(text: &mut String, day: &Day, watched: &Watched) -> Written {
    let Some((title, found)) = findings::never_seen(day, watched) else {
        return Ok(());
    };
    writeln!(text, "\n{}", title)?;
    lines(text, found)
}

/// Lines below a title.
fn lines(text: &mut String, lines: impl IntoIterator<Item = String>) -> Written {
    lines.into_iter().try_for_each(|line| writeln!(text, "  {}", line))
}

/// The divergences by node, greatest first.
fn nodes(text: &mut String, day: &Day, watched: &Watched) -> Written {
    writeln!(
        text,
        "\nBy node, {}: divergence, its mean in the training, and what has moved most",
        words::when(day, watched)
    )?;
    let width = watched.nodes.iter().map(|moved| words::node(day, moved.node).chars().count()).max();
    let width = width.unwrap_or(0).max(12);
    for moved in &watched.nodes {
        let [divergence, usual] = words::divergence(moved);
        let (node, share) = (words::node(day, moved.node), words::share(day, moved));
        writeln!(text, "  {:<width$} {:>10} {:>10}   {}", node, divergence, usual, share)?;
    }
    lines(text, words::other_nodes(day, watched))
}

/// The five figures of the last reading beside the baseline's means and variances.
fn statistics(text: &mut String, day: &Day, watched: &Watched) -> Written {
    let Some((_, reading)) = watched.readings().next_back() else {
        return Ok(());
    };
    writeln!(text, "\nStatistics {}, over divergences above 1.0e-10", words::when(day, watched))?;
    writeln!(text, "  sequence length {}", reading.stats.sequence_length)?;
    writeln!(text, "  {:<16} {:>10} {:>10} {:>10} {:>8}", "", "the day", "mean", "variance", "dev")?;
    for [name, value, mean, variance, above] in words::statistics(watched, reading) {
        writeln!(text, "  {:<16} {:>10} {:>10} {:>10} {:>8}", name, value, mean, variance, above)?;
    }
    Ok(())
}

#[cfg(test)]
mod tests {
    use super::report;
    use crate::reader::read;
    use crate::watched::Watched;
    use crate::work::watch;

    /// A day of so many stretches: a dozen paths that stick, a dozen that do not. The later ones
    /// stick longer and are worse.
    fn stretches(count: usize) -> (String, Watched) {
        let calm = "path 1/7 0/7\npath 1/7 0/9\n".repeat(12);
        let sticks = |number: usize| "path 1/7 0/7\n".repeat(12 + number % 30);
        let training = ["0/7", "0/9"].map(|child| {
            format!("sequence\npath 1/7 {}\n{}", child, "path 1/7 0/7\npath 1/7 0/9\n".repeat(20))
        });
        let paths: String = (0..count).map(|number| sticks(number) + &calm).collect();
        let text = format!(
            "window 10\nprior 1/7 1 0/7 50 0/9 50\n{}day\n{}{}",
            training.concat(),
            calm.repeat(2),
            paths
        );
        let day = read(text.as_bytes()).expect("the day can be read");
        let watched = watch(&day).expect("the day can be run");
        (report("a day", &day, &watched), watched)
    }

    #[test]
    fn the_worst_stretches_are_shown_and_the_others_counted() {
        let (text, watched) = stretches(30);
        let told =
            text.lines().filter(|line| line.starts_with("  from path ") || line.starts_with("  at path "));
        let first =
            |line: &str| line.split_whitespace().nth(2).and_then(|word| word.parse().ok()).unwrap_or(0);
        let told: Vec<usize> = told.map(first).collect();
        assert!(watched.stretches.len() > 20, "{}", watched.stretches.len());
        assert_eq!(told.len(), 20);
        assert!(told.is_sorted(), "{:?}", told);
        let more = watched.stretches.len() - 20;
        let line =
            format!("  and {} more stretch{}, none of them worse\n", more, if more == 1 { "" } else { "es" });
        assert!(text.contains(&line), "{}", text);
        // Those that are not shown are not worse than any that is.
        let is_told = |first: usize| told.contains(&(first + 1));
        let (shown, hidden): (Vec<_>, Vec<_>) = watched.stretches.iter().partition(|one| is_told(one.first));
        let least = shown.iter().map(|stretch| stretch.deviations).fold(f64::MAX, f64::min);
        assert!(hidden.iter().all(|stretch| stretch.deviations <= least));
        assert_eq!(hidden.len(), more);
        let (few, _) = stretches(3);
        assert!(!few.contains("none of them worse"), "{}", few);
    }
}
