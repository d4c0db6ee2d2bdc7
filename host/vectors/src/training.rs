//! training.bin: trainings with all that they are lent, before and after, and baselines with
//! the lengths that `stats` is asked for.

use crate::limits::{within, KNOTS, SMALL, TABLE_ENTRIES, TRAINING_BYTES};
use crate::words::{Case, Reader};
use cases::baselines::{StatsAsked, Training};
use cases::calls::Tables;
use cases::sample;
use recount::limits::KNOT_VALUES;

const TRAIN: u32 = 1;
const STATS: u32 = 2;

pub fn record() -> Vec<Case> {
    let trainings = sample::trainings().into_iter().map(|training| record_training(&training));
    trainings.chain(sample::stats_asked().iter().map(record_stats)).collect()
}

fn record_training(training: &Training) -> Case {
    let mut case = Case::default();
    case.word(TRAIN);
    case.figures(&training.tables.g);
    case.figures(&training.tables.d);
    case.priors(&training.priors);
    case.0.extend([training.sequences, training.paths, training.rate]);
    case.places(&training.places);
    write_lent(&mut case, training);
    write_training_answer(&mut case, training);
    case
}

fn write_lent(case: &mut Case, training: &Training) {
    case.bytes(&training.book);
    case.words(&training.knots);
    case.figures(&training.values);
}

/// What refuses or stops it, the number of knots, then book, knots and values afterwards.
fn write_training_answer(case: &mut Case, training: &Training) {
    let mut after = training.clone();
    let answer = after.run();
    case.refusal(answer.err());
    case.word(answer.unwrap_or(0));
    write_lent(case, &after);
}

fn record_stats(asked: &StatsAsked) -> Case {
    let mut case = Case::default();
    case.word(STATS);
    case.word(asked.sequences);
    case.words(&asked.knots);
    case.figures(&asked.values);
    case.word(asked.lengths.len() as u32);
    for length in &asked.lengths {
        case.word(*length);
        write_stats_answer(&mut case, asked, *length);
    }
    case
}

/// The number that refuses it, and the ten values.
fn write_stats_answer(case: &mut Case, asked: &StatsAsked, length: u32) {
    let answer = recount::stats(asked.sequences, &asked.knots, &asked.values, length);
    case.word(answer.err().map_or(0, |refusal| refusal.number));
    for value in answer.map_or([0.0; KNOT_VALUES], |stats| stats.ten_values()) {
        case.figure(value);
    }
}

pub fn replay(reader: &mut Reader) -> Result<(), String> {
    match reader.word()? {
        TRAIN => replay_training(reader),
        STATS => replay_stats(reader),
        kind => Err(format!("kind {} is not known", kind)),
    }
}

fn replay_training(reader: &mut Reader) -> Result<(), String> {
    let tables = Tables { g: reader.figures()?, d: reader.figures()? };
    let priors = reader.priors()?;
    let (sequences, paths, rate) = (reader.word()?, reader.word()?, reader.word()?);
    let (places, book) = (reader.places()?, reader.bytes()?);
    let (knots, values) = (reader.counted_words()?, reader.figures()?);
    within("table", tables.g.len().max(tables.d.len()), TABLE_ENTRIES)?;
    within("places", places.len(), TRAINING_BYTES)?;
    within("book", book.len(), SMALL.book_bytes)?;
    within("knots", knots.len().max(values.len().div_ceil(KNOT_VALUES)), KNOTS)?;
    let training = Training { tables, priors, book, sequences, paths, rate, places, knots, values };
    let mut now = Case::default();
    write_training_answer(&mut now, &training);
    reader.expect(&now.0)
}

fn replay_stats(reader: &mut Reader) -> Result<(), String> {
    let sequences = reader.word()?;
    let (knots, values) = (reader.counted_words()?, reader.figures()?);
    within("knots", knots.len().max(values.len().div_ceil(KNOT_VALUES)), KNOTS)?;
    let asked = StatsAsked { sequences, knots, values, lengths: Vec::new() };
    for _ in 0..reader.word()? {
        let length = reader.word()?;
        let mut now = Case::default();
        write_stats_answer(&mut now, &asked, length);
        reader.expect(&now.0)?;
    }
    Ok(())
}
