//! One case through the archive and on the recount: answers, outputs, state and every byte of
//! book and queue must be the same, figures bit for bit, and after every call of a list the book must list
//! and count what the paths say and use as many entries as the least capacity is. The archive's answers go
//! to goko, too.

use crate::calls::{Archive, Held, Told};
use cases::altered::AlteredAdd;
use cases::baselines::{StatsAsked, Training};
use cases::calls::{Call, CallList, Places, PriorBytes, Tables};
use cases::exhaustive::Ordered;
use cases::lookups::PriorsCase;
use cases::play::{same_result, Answer, History, Player, Side};
use compare::goko::{self, Beside};
use compare::{hold_sequences, must, own, Compared, Laws, Played, Tally};
use recount::{
    all_node_kl, check_priors, check_tables, evidence_prob_vector, kl_div_stats, memory,
    posterior_kl_divergence, prob_vector, same_figures, Address, Memory, Refusal, State,
};
use std::fmt::Debug;

fn differ(what: &str, recount: impl Debug, archive: impl Debug) -> String {
    format!("{}: the recount has {:?}, the archive {:?}", what, recount, archive)
}

/// The archive's answer to a call of a list.
fn play(archive: &mut Archive, call: &Call, fill: u8) -> Told<Answer> {
    Ok(match call {
        Call::Open { window, book_len, queue_len } => {
            Answer::Changed(archive.open(*window, (*book_len, *queue_len), fill)?)
        }
        Call::Add { path } => Answer::Changed(archive.add_path(path)?),
        Call::AddPaths { places } => Answer::Batch(archive.add_paths(places)?),
        Call::Tidy => Answer::Changed(archive.tidy()?),
        Call::LendTables(tables) => {
            archive.lend_tables(tables);
            Answer::Lent
        }
        Call::LendPriors(priors) => {
            archive.lend_priors(priors);
            Answer::Lent
        }
        Call::ProbVector { node, output } => {
            let (answer, left) = archive.prob_vector(*node, output)?;
            Answer::Vector(answer, left)
        }
        Call::EvidenceProbVector { node, output } => {
            let (answer, left) = archive.evidence_prob_vector(*node, output)?;
            Answer::Vector(answer, left)
        }
        Call::PosteriorKlDivergence { node } => Answer::Divergence(archive.posterior_kl_divergence(*node)?),
        Call::AllNodeKl { output } => {
            let (answer, left) = archive.all_node_kl(output)?;
            Answer::List(answer, left)
        }
        Call::KlDivStats => Answer::Stats(archive.kl_div_stats()?),
    })
}

/// A call list.
pub fn list(archive: &mut Archive, list: &CallList, tally: &mut Tally) -> Compared {
    played(archive, list, tally).map(|_| ())
}

/// A list of paths in one of its orders.
pub fn order(archive: &mut Archive, case: &Ordered, tally: &mut Tally) -> Compared {
    played(archive, &case.list, tally)?.hold_order(case)
}

/// Gives what a call list came to.
fn played(archive: &mut Archive, list: &CallList, tally: &mut Tally) -> Told<Played> {
    tally.lists += 1;
    let mut history = Player::new(History::default());
    let mut beside = Beside::default();
    let mut laws = Laws::default();
    let mut image: Option<Held> = None;
    let mut numbers = Vec::new();
    archive.lend_tables(&Tables::default());
    archive.lend_priors(&PriorBytes::default());
    for (index, call) in list.calls.iter().enumerate() {
        let number = one_call(archive, call, list.fill, &mut history, &mut image, tally)
            .and_then(|answer| {
                laws.hold(call, &answer, archive.used_and_book(), &mut tally.met)?;
                beside.hold(call, &answer, &history, &laws, tally)?;
                Ok(answer.number())
            })
            .map_err(|text| format!("call {} of {:#?}\n{}", index, list, text))?;
        numbers.push(number);
    }
    Ok(Played { numbers, used: archive.used_and_book().0 })
}

/// Gives the archive's answer; `image` is what state, book and queue must be.
fn one_call(
    archive: &mut Archive,
    call: &Call,
    fill: u8,
    history: &mut Player<History>,
    image: &mut Option<Held>,
    tally: &mut Tally,
) -> Told<Answer> {
    let answer = play(archive, call, fill)?;
    let recounted = history.play(call);
    tally.answer(&recounted);
    tally.met.reading(call, &recounted, &history.side, &history.priors);
    must(recounted.same(&answer), || differ("answer", &recounted, &answer))?;
    if answer.changes() {
        let side = &history.side;
        *image = Some(Held { state: side.state(), book: side.book(), queue: side.queue() });
    }
    if let Some(image) = image {
        must(archive.holds(image), || differ("state, book and queue", &*image, archive.held()))?;
    }
    let lent = archive.lends_tables(&history.tables) && archive.lends_priors(&history.priors);
    must(lent, || "the archive changed lent tables or priors".to_string())?;
    Ok(answer)
}

/// All readings, a tidy and an add on memory that others wrote.
pub fn altered(
    archive: &mut Archive,
    add: &AlteredAdd,
    (tables, priors, output): (&Tables, &PriorBytes, &Places),
    tally: &mut Tally,
) -> Compared {
    let held = held_by(add);
    archive.hold(&held);
    archive.lend_tables(tables);
    archive.lend_priors(priors);
    for call in readings_of(add, output) {
        let answer = play(archive, &call, 0)?;
        let recounted = read_altered(add, &call, tables, priors);
        tally.answer(&recounted);
        tally.met.reading(&call, &recounted, &add.memory(), priors);
        must(recounted.same(&answer), || {
            format!("{:?} on {:?}\n{}", call, add, differ("answer", &recounted, &answer))
        })?;
        must(archive.holds(&held), || format!("{:?} changed {:?}", call, add))?;
        let lent = archive.lends_tables(tables) && archive.lends_priors(priors);
        must(lent, || format!("{:?} changed what it was lent", call))?;
    }
    tidied(archive, &held, tally)?;
    archive.hold(&held);
    tally.altered += 1;
    let answer = archive.add_path(&add.path)?;
    let left = |after: &mut Held| memory::add_path(held.state, &mut after.book, &mut after.queue, &add.path);
    let held = as_recounted(archive, &held, answer, left, tally);
    held.map(|_| ()).map_err(|text| format!("an add of {:?}\n{}", add.path, text))
}

/// An add of several paths on memory that others wrote, and then the add, which gets 9 where a count is past
/// 2^30.
pub fn batch(archive: &mut Archive, add: &AlteredAdd, places: &[u8], tally: &mut Tally) -> Compared {
    archive.hold(&held_by(add));
    let answer = archive.add_paths(places)?;
    let (recounted, after) = own::check_batch(add, places, tally)?;
    let after = held_by(&after);
    let told = |text: String| format!("{:?} on {:?}\n{}", places, add, text);
    must(recounted == answer, || told(differ("answer", recounted, answer)))?;
    must(archive.holds(&after), || told(differ("state, book and queue", &after, archive.held())))?;
    let next = archive.add_path(&add.path)?;
    let left = |then: &mut Held| memory::add_path(then.state, &mut then.book, &mut then.queue, &add.path);
    as_recounted(archive, &after, next, left, tally).map(|_| ()).map_err(told)
}

fn held_by(add: &AlteredAdd) -> Held {
    Held { state: add.state, book: add.book.clone(), queue: add.queue.clone() }
}

/// A tidy of memory, whoever wrote it, and a second one.
pub fn tidied(archive: &mut Archive, held: &Held, tally: &mut Tally) -> Compared {
    archive.hold(held);
    let left = |after: &mut Held| memory::tidy(after.state, &mut after.book, &after.queue);
    let answer = archive.tidy()?;
    let after = as_recounted(archive, held, answer, left, tally)?;
    let lent = Memory { state: held.state, book: &held.book, queue: &held.queue };
    tally.met.altered_tidy(&lent, answer.map(|()| after.state), &after.book);
    let answer = archive.tidy()?;
    as_recounted(archive, &after, answer, left, tally).map(|_| ())
}

/// Holds the archive's answer to a call on `held` to the recount's, and what it left there to what the
/// recount leaves. Gives the latter.
fn as_recounted(
    archive: &Archive,
    held: &Held,
    answer: Result<(), Refusal>,
    left: impl Fn(&mut Held) -> Result<State, Refusal>,
    tally: &mut Tally,
) -> Told<Held> {
    let mut after = held.clone();
    let recounted = left(&mut after);
    tally.result(&recounted);
    after.state = recounted.unwrap_or(held.state);
    must(recounted.map(|_| ()) == answer, || format!("{:?}\n{}", held, differ("answer", recounted, answer)))?;
    must(archive.holds(&after), || {
        format!("{:?}\n{}", held, differ("state, book and queue", &after, archive.held()))
    })?;
    Ok(after)
}

/// All five readings, of a node that the book begins with and of one that it may lack.
fn readings_of(add: &AlteredAdd, output: &Places) -> Vec<Call> {
    let first = add.book.get(..8).map(Address::read).unwrap_or_default();
    let mut calls = vec![Call::AllNodeKl { output: output.clone() }, Call::KlDivStats];
    for node in [first, Address::new(0, 1)] {
        calls.push(Call::ProbVector { node, output: output.clone() });
        calls.push(Call::EvidenceProbVector { node, output: output.clone() });
        calls.push(Call::PosteriorKlDivergence { node });
    }
    calls
}

/// The recount's answer to a reading of altered memory.
fn read_altered(add: &AlteredAdd, call: &Call, tables: &Tables, priors: &PriorBytes) -> Answer {
    let lent = add.memory();
    let (tables, priors) = (tables.lent(), priors.lent());
    match call {
        Call::ProbVector { node, output } => {
            let mut output = output.clone();
            Answer::Vector(prob_vector(&lent, priors, *node, &mut output.lent()), output)
        }
        Call::EvidenceProbVector { node, output } => {
            let mut output = output.clone();
            Answer::Vector(evidence_prob_vector(&lent, *node, &mut output.lent()), output)
        }
        Call::PosteriorKlDivergence { node } => {
            Answer::Divergence(posterior_kl_divergence(&lent, tables, priors, *node))
        }
        Call::AllNodeKl { output } => {
            let mut output = output.clone();
            Answer::List(all_node_kl(&lent, tables, priors, &mut output.lent()), output)
        }
        Call::KlDivStats => Answer::Stats(kl_div_stats(&lent, tables, priors)),
        _ => unreachable!("only readings are asked"),
    }
}

/// A training.
pub fn training(archive: &mut Archive, training: &Training, tally: &mut Tally) -> Compared {
    let (answer, left) = archive.train(training)?;
    let mut ours = training.clone();
    let recounted = ours.run();
    tally.result(&recounted);
    tally.met.training(training, recounted);
    must(recounted == answer, || format!("{:#?}\n{}", training, differ("answer", recounted, answer)))?;
    let same = ours.book == left.book && ours.knots == left.knots && same_figures(&ours.values, &left.values);
    must(same, || format!("{:#?}\n{}", training, differ("book, knots and values", &ours, &left)))?;
    hold_sequences(training, answer, &mut tally.met)?;
    goko::hold_training(training, &left, answer, tally)
}

/// A baseline, asked for its lengths.
pub fn stats(archive: &mut Archive, asked: &StatsAsked, tally: &mut Tally) -> Compared {
    for length in &asked.lengths {
        let answer = archive.stats(asked.sequences, &asked.knots, &asked.values, *length)?;
        let recounted = recount::stats(asked.sequences, &asked.knots, &asked.values, *length);
        tally.result(&recounted);
        let recounted = recounted.map(|stats| stats.ten_values());
        let same = same_result(&recounted, &answer, |one, other| same_figures(one, other));
        must(same, || format!("{:?} at {}\n{}", asked, length, differ("answer", recounted, answer)))?;
        goko::hold_stats(asked, *length, answer, tally)?;
    }
    Ok(())
}

/// Tables by themselves.
pub fn tables(archive: &mut Archive, tables: &Tables, tally: &mut Tally) -> Compared {
    archive.lend_tables(tables);
    let answer = archive.check_tables()?;
    let recounted = check_tables(tables.lent());
    tally.result(&recounted);
    must(recounted == answer, || differ("tables", recounted, answer))?;
    must(archive.lends_tables(tables), || "the archive changed lent tables".to_string())
}

/// Priors by themselves.
pub fn priors(archive: &mut Archive, priors: &PriorBytes, tally: &mut Tally) -> Compared {
    archive.lend_priors(priors);
    let answer = archive.check_priors()?;
    let recounted = check_priors(priors.lent()).map(|_| ());
    tally.result(&recounted);
    must(recounted == answer, || format!("{:?}\n{}", priors, differ("priors", recounted, answer)))?;
    must(archive.lends_priors(priors), || "the archive changed lent priors".to_string())
}

/// Look-ups of children in priors.
pub fn lookups(archive: &mut Archive, case: &PriorsCase, tally: &mut Tally) -> Compared {
    archive.lend_priors(&case.priors);
    let checked = check_priors(case.priors.lent());
    let mut answers = Vec::new();
    for ((node, child), recounted) in case.asked.iter().zip(case.answers(&checked)) {
        let answer = archive.child(*node, *child)?;
        tally.result(&recounted);
        tally.met.looked_up(&checked, *node, *child);
        must(recounted == answer, || {
            format!("{:?} in {:?}\n{}", (node, child), case.priors, differ("look-up", recounted, answer))
        })?;
        answers.push(answer);
    }
    must(archive.lends_priors(&case.priors), || "the archive changed lent priors".to_string())?;
    goko::hold_lookups(case, &answers, tally)
}
