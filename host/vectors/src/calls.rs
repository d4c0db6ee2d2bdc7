//! calls.bin, large.bin, readings.bin, tidies.bin and batches.bin: call lists. Each call is followed by
//! what it gives; an opening, an add and a tidy by the state and sums of book and queue as well. A list
//! ends with the whole book and queue.

use crate::limits::{within, Sizes, BATCH_BYTES, OUTPUT_BYTES, OUTPUT_FIGURES, PATH_BYTES, TABLE_ENTRIES};
use crate::words::{checksum, Case, Reader};
use cases::calls::{Call, CallList, Places, Tables};
use cases::play::{Answer, Bytes, History, Player, Side};
use recount::limits::ENTRY_BYTES;
use recount::Refusal;

const OPEN: u32 = 1;
const ADD: u32 = 2;
const LEND_TABLES: u32 = 3;
const LEND_PRIORS: u32 = 4;
const PROB_VECTOR: u32 = 5;
const EVIDENCE_PROB_VECTOR: u32 = 6;
const POSTERIOR_KL_DIVERGENCE: u32 = 7;
const ALL_NODE_KL: u32 = 8;
const KL_DIV_STATS: u32 = 9;
const TIDY: u32 = 10;
const ADD_PATHS: u32 = 11;

pub fn record(lists: Vec<CallList>) -> Vec<Case> {
    lists.iter().map(record_list).collect()
}

fn record_list(list: &CallList) -> Case {
    let mut case = Case::default();
    let mut player = Player::new(History::default());
    case.word(u32::from(list.fill));
    case.word(list.calls.len() as u32);
    for call in &list.calls {
        write_call(&mut case, call);
        let answer = player.play(call);
        write_answer(&mut case, &answer, &player.side);
    }
    write_memory(&mut case, &player.side);
    case
}

fn write_call(case: &mut Case, call: &Call) {
    match call {
        Call::Open { window, book_len, queue_len } => {
            case.0.extend([OPEN, *window, *book_len as u32, *queue_len as u32]);
        }
        Call::Add { path } => {
            case.word(ADD);
            case.bytes(path);
        }
        Call::AddPaths { places } => {
            case.word(ADD_PATHS);
            case.places(places);
        }
        Call::Tidy => case.word(TIDY),
        Call::LendTables(tables) => {
            case.word(LEND_TABLES);
            case.figures(&tables.g);
            case.figures(&tables.d);
        }
        Call::LendPriors(priors) => {
            case.word(LEND_PRIORS);
            case.priors(priors);
        }
        Call::ProbVector { node, output } => {
            case.word(PROB_VECTOR);
            case.address(*node);
            write_places(case, output);
        }
        Call::EvidenceProbVector { node, output } => {
            case.word(EVIDENCE_PROB_VECTOR);
            case.address(*node);
            write_places(case, output);
        }
        Call::PosteriorKlDivergence { node } => {
            case.word(POSTERIOR_KL_DIVERGENCE);
            case.address(*node);
        }
        Call::AllNodeKl { output } => {
            case.word(ALL_NODE_KL);
            write_places(case, output);
        }
        Call::KlDivStats => case.word(KL_DIV_STATS),
    }
}

fn write_places(case: &mut Case, places: &Places) {
    case.bytes(&places.addresses);
    case.figures(&places.figures);
}

fn write_answer(case: &mut Case, answer: &Answer, side: &impl Side) {
    match answer {
        Answer::Lent => {}
        Answer::Changed(changed) => write_change(case, changed.err(), side),
        Answer::Batch(batch) => {
            case.word(batch.taken);
            write_change(case, batch.refusal, side);
        }
        Answer::Vector(answer, output) => {
            let given = answer.ok().flatten();
            case.refusal(answer.err());
            case.word(u32::from(given.is_some()));
            case.word(given.map_or(0, |vector| vector.places));
            case.figure(given.map_or(0.0, |vector| vector.ending));
            write_places(case, output);
        }
        Answer::Divergence(answer) => {
            let given = answer.ok().flatten();
            case.refusal(answer.err());
            case.word(u32::from(given.is_some()));
            case.figure(given.unwrap_or(0.0));
        }
        Answer::List(answer, output) => {
            case.refusal(answer.err());
            case.word(answer.map_or(0, |list| list.places));
            case.word(answer.map_or(0, |list| list.skipped));
            write_places(case, output);
        }
        Answer::Stats(answer) => {
            case.refusal(answer.err());
            let figure = |pick: fn(&recount::KLDivergenceStats) -> f64| answer.as_ref().map_or(0.0, pick);
            let number = |pick: fn(&recount::KLDivergenceStats) -> u32| answer.as_ref().map_or(0, pick);
            case.figure(figure(|stats| stats.max));
            case.figure(figure(|stats| stats.min));
            case.word(number(|stats| stats.nz_count));
            case.figure(figure(|stats| stats.moment1_nz));
            case.figure(figure(|stats| stats.moment2_nz));
            case.word(number(|stats| stats.sequence_len));
            case.word(number(|stats| stats.skipped));
        }
    }
}

/// The number that refuses a call, then the state and the sums of book and queue.
fn write_change(case: &mut Case, refusal: Option<Refusal>, side: &impl Side) {
    let state = side.state();
    case.word(refusal.map_or(0, |refusal| refusal.number));
    case.0.extend([state.window, state.used, state.accepted]);
    case.0.extend([checksum(&side.book()), checksum(&side.queue())]);
}

/// The book as its length and its used entries, the queue as places.
fn write_memory(case: &mut Case, side: &impl Side) {
    let book = side.book();
    case.word(book.len() as u32);
    case.bytes(&book[..ENTRY_BYTES * side.state().used as usize]);
    case.places(&side.queue());
}

/// Replays a list on the recount's history and on lent bytes.
pub fn replay(reader: &mut Reader, sizes: &Sizes) -> Result<(), String> {
    let fill = reader.word()? as u8;
    let mut history = Player::new(History::default());
    let mut bytes = Player::new(Bytes::filled(fill));
    for number in 0..reader.word()? {
        let call = read_call(reader, sizes)?;
        let mut now = Case::default();
        let answer = history.play(&call);
        write_answer(&mut now, &answer, &history.side);
        let mut on_bytes = Case::default();
        let answer = bytes.play(&call);
        write_answer(&mut on_bytes, &answer, &bytes.side);
        if now.0 != on_bytes.0 {
            return Err(format!("call {}: the history and the bytes differ", number));
        }
        reader.expect(&now.0).map_err(|text| format!("call {}: {}", number, text))?;
    }
    let mut now = Case::default();
    write_memory(&mut now, &history.side);
    reader.expect(&now.0)
}

fn read_call(reader: &mut Reader, sizes: &Sizes) -> Result<Call, String> {
    Ok(match reader.word()? {
        OPEN => {
            let (window, book_len, queue_len) =
                (reader.word()?, reader.word()? as usize, reader.word()? as usize);
            within("book", book_len, sizes.book_bytes)?;
            within("queue", queue_len, sizes.queue_bytes)?;
            Call::Open { window, book_len, queue_len }
        }
        ADD => {
            let path = reader.bytes()?;
            within("path", path.len(), PATH_BYTES)?;
            Call::Add { path }
        }
        LEND_TABLES => {
            let tables = Tables { g: reader.figures()?, d: reader.figures()? };
            within("table", tables.g.len().max(tables.d.len()), TABLE_ENTRIES)?;
            Call::LendTables(tables)
        }
        LEND_PRIORS => Call::LendPriors(reader.priors()?),
        PROB_VECTOR => Call::ProbVector { node: reader.address()?, output: read_places(reader)? },
        EVIDENCE_PROB_VECTOR => {
            Call::EvidenceProbVector { node: reader.address()?, output: read_places(reader)? }
        }
        POSTERIOR_KL_DIVERGENCE => Call::PosteriorKlDivergence { node: reader.address()? },
        ALL_NODE_KL => Call::AllNodeKl { output: read_places(reader)? },
        KL_DIV_STATS => Call::KlDivStats,
        TIDY => Call::Tidy,
        ADD_PATHS => {
            let places = reader.places()?;
            within("places", places.len(), BATCH_BYTES)?;
            Call::AddPaths { places }
        }
        kind => return Err(format!("kind {} is not known", kind)),
    })
}

fn read_places(reader: &mut Reader) -> Result<Places, String> {
    let places = Places { addresses: reader.bytes()?, figures: reader.figures()? };
    within("output addresses", places.addresses.len(), OUTPUT_BYTES)?;
    within("output figures", places.figures.len(), OUTPUT_FIGURES)?;
    Ok(places)
}
