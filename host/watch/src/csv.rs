//! The figures of every path as comma-separated values, in full precision. There are no addresses
//! in it: a spreadsheet would read 1/7 as a date.

use crate::day::Day;
use crate::usual::{spread, Held, Usual, UsualAt, Why};
use crate::watched::{Judged, LeftOut, Place, Reading, Watched};
use crate::words::NO_FIGURE;
use std::io::{Result, Write};
use teakpool::MeanVariance;

const COLUMNS: &str = "path,line,length,\
                       sum,sum_mean,sum_spread,sum_deviations,\
                       maximum,maximum_mean,maximum_spread,maximum_deviations,\
                       minimum,number,sum_of_squares,judgement,reason";

/// Writes a row for each path.
pub fn write(out: &mut impl Write, day: &Day, watched: &Watched) -> Result<()> {
    writeln!(out, "{}", COLUMNS)?;
    let mut usual = UsualAt::new(watched.trained.as_ref());
    for (index, place) in watched.places.iter().enumerate() {
        let figures = match place {
            Place::Read(reading) => figures(reading, usual.at(reading.stats.sequence_length)),
            Place::Unread | Place::LeftOut(_) => ",".repeat(11),
        };
        let (judgement, reason) = judgement(place);
        writeln!(out, "{},{},{},{},{}", index + 1, day.paths.line(index), figures, judgement, reason)?;
    }
    Ok(())
}

/// From the length to the sum of squares.
fn figures(reading: &Reading, usual: Usual) -> String {
    let Reading { stats, sum, maximum, .. } = reading;
    let beside = |value: f64, usual: Option<MeanVariance>, held: &Held| {
        let (mean, spread) = (usual.map(|usual| usual.mean), usual.and_then(spread));
        [Some(value), mean, spread, held.deviations()].map(number).join(",")
    };
    [
        stats.sequence_length.to_string(),
        beside(stats.sum, usual.figures.map(|figures| figures.sum), sum),
        beside(stats.maximum, usual.figures.map(|figures| figures.maximum), maximum),
        number(Some(stats.minimum)),
        stats.number.to_string(),
        number(Some(stats.sum_of_squares)),
    ]
    .join(",")
}

/// A number, or nothing where there is none.
fn number(value: Option<f64>) -> String {
    let known = value.filter(|value| value.abs() < NO_FIGURE);
    known.map_or(String::new(), |value| value.to_string())
}

fn judgement(place: &Place) -> (&'static str, &'static str) {
    match place {
        Place::Unread => ("not read", "the next reading covers it"),
        Place::LeftOut(LeftOut::NeverSeen) => ("left out", "never seen on a good day"),
        Place::LeftOut(LeftOut::PastTables(_)) => ("left out", "past the tables' end"),
        Place::LeftOut(LeftOut::BookFull) => ("left out", "the book is full"),
        Place::LeftOut(LeftOut::PathsFull) => ("left out", "the tracker takes no more paths"),
        Place::Read(reading) => match reading.judged {
            Judged::Calm => ("calm", ""),
            Judged::Drift(_) => ("drift", ""),
            Judged::Often(_) => ("drift", "done more often than in the training"),
            Judged::Not(Why::NoBaseline) => ("not judged", "no training sequences"),
            Judged::Not(Why::OneSequence) => ("not judged", "one training sequence"),
            Judged::Not(Why::OneKnot) => ("not judged", "one knot"),
            Judged::Not(Why::TooFar) => ("not judged", "far past the last knot"),
            Judged::Not(Why::NoSpread) => ("not judged", "no usable spread"),
            Judged::Not(Why::CarriedOn) => ("not judged", "past the last knot"),
            Judged::Not(Why::MoreOften) => ("not judged", "done more often than in the training"),
            Judged::Not(Why::NothingWatched) => ("not judged", "no node that has a prior"),
        },
    }
}
