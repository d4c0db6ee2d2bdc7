//! What the recount must do by itself, goko or not: its two parts agree byte for byte on
//! every list, a refused call changes nothing that is lent, an answer leaves the places past
//! it alone, after every call the bytes list and count what the paths say and use as many entries as the
//! least capacity is, an add and a tidy on altered memory change what they may and nothing else, an add of
//! several paths there what single ones do, and a child's look-up tells what a walk along the chain finds and
//! reads.

use crate::entries::{entries, Key};
use crate::{hold_sequences, Compared, Laws, Played, Tally};
use cases::altered::AlteredAdd;
use cases::baselines::Training;
use cases::calls::{Call, CallList, Places, PriorBytes};
use cases::exhaustive::Ordered;
use cases::lookups::{Looked, PriorsCase};
use cases::paths::place_path;
use cases::play::{Answer, Bytes, History, Player, Side};
use recount::limits::{ENTRY_BYTES, MAX_CHAIN, MAX_COUNT, PLACE_BYTES};
use recount::{
    check_priors, evidence_prob_vector, is_minus_zero, memory, same_figure, same_figures, stats, word,
    Address, Batch, ChildLookup, Memory, Output, Refusal, State, Tracker,
};
use std::collections::BTreeSet;

fn must(holds: bool, what: &str) -> Compared {
    crate::must(holds, || what.to_string())
}

/// State, book and queue of a side.
fn shown(side: &impl Side) -> (State, Vec<u8>, Vec<u8>) {
    (side.state(), side.book(), side.queue())
}

/// Plays a list on the history and on lent bytes, and gives what it came to.
pub fn check_list(list: &CallList, tally: &mut Tally) -> Result<Played, String> {
    let mut history = Player::new(History::default());
    let mut bytes = Player::new(Bytes::filled(list.fill));
    let mut laws = Laws::default();
    let mut numbers = Vec::new();
    for (index, call) in list.calls.iter().enumerate() {
        let number = check_call(&mut history, &mut bytes, &mut laws, call, tally)
            .map_err(|text| format!("call {} of {:#?}\n{}", index, list, text))?;
        numbers.push(number);
    }
    Ok(Played { numbers, used: bytes.side.state().used })
}

/// A list of paths in one of its orders.
pub fn check_order(case: &Ordered, tally: &mut Tally) -> Compared {
    check_list(&case.list, tally)?.hold_order(case)
}

/// Gives the number that the call is answered.
fn check_call(
    history: &mut Player<History>,
    bytes: &mut Player<Bytes>,
    laws: &mut Laws,
    call: &Call,
    tally: &mut Tally,
) -> Result<u32, String> {
    let before = shown(&bytes.side);
    let answer = bytes.play(call);
    let after = shown(&bytes.side);
    tally.answer(&answer);
    tally.met.reading(call, &answer, &bytes.side, &bytes.priors);
    laws.hold(call, &answer, (after.0.used, &after.1), &mut tally.met)?;
    let recounted = history.play(call);
    must(recounted.same(&answer), &format!("the history answers {:?}, the bytes {:?}", recounted, answer))?;
    must(!answer.told().into_iter().any(is_minus_zero), "a reading told minus zero")?;
    if answer.changes() {
        must(after == shown(&history.side), "state, book or queue is no image of the history")?;
    } else {
        must(after == before, "a refused call or a reading changed the tracker")?;
        check_output(call, &answer)?;
    }
    Ok(answer.number())
}

/// A reading fills places from 0 up and leaves the others; a refused one fills none.
fn check_output(call: &Call, answer: &Answer) -> Compared {
    let (lent, left, filled) = match (call, answer) {
        (
            Call::ProbVector { output, .. } | Call::EvidenceProbVector { output, .. },
            Answer::Vector(answer, left),
        ) => (output, left, answer.ok().flatten().map_or(0, |vector| vector.places)),
        (Call::AllNodeKl { output }, Answer::List(answer, left)) => {
            (output, left, answer.map_or(0, |list| list.places))
        }
        _ => return Ok(()),
    };
    must(past(lent, filled).same(&past(left, filled)), "places past the answer changed")
}

fn past(places: &Places, filled: u32) -> Places {
    let filled = filled as usize;
    Places { addresses: places.addresses[8 * filled..].to_vec(), figures: places.figures[filled..].to_vec() }
}

/// A reading, a tidy and an add on altered memory.
pub fn check_altered(add: &AlteredAdd, tally: &mut Tally) -> Compared {
    let lent = add.memory();
    let in_form = lent.form_holds();
    check_reading(&lent, in_form)?;
    check_tidy(&lent, in_form, tally).map_err(|text| format!("{:?}\n{}", add, text))?;
    let (mut book, mut queue) = (add.book.clone(), add.queue.clone());
    let answer = memory::add_path(add.state, &mut book, &mut queue, &add.path);
    tally.altered += 1;
    tally.result(&answer);
    match answer {
        Err(refusal) => {
            must((refusal.number == 9) != in_form, "9 is not the form test's answer")?;
            must(book == add.book && queue == add.queue, "a refused add changed book or queue")
        }
        Ok(state) => check_accepted(add, state, &book, &queue),
    }
    .map_err(|text| format!("{:?}\n{}", add, text))
}

/// A reading of altered memory is refused with 9 just where the form is broken, and then
/// fills nothing.
fn check_reading(lent: &Memory, in_form: bool) -> Compared {
    let node = lent.book.get(..8).map(Address::read).unwrap_or_default();
    let (mut addresses, mut figures) = ([0x11; 80], [-1.0; 10]);
    let mut output = Output { addresses: &mut addresses, figures: &mut figures };
    let answer = evidence_prob_vector(lent, node, &mut output);
    must(
        matches!(answer, Err(Refusal { number: 9, .. })) != in_form,
        "a reading's 9 is not the form test's answer",
    )?;
    must(in_form || (addresses == [0x11; 80] && figures == [-1.0; 10]), "a refused reading filled places")?;
    let total: f64 = answer
        .ok()
        .flatten()
        .map_or(1.0, |vector| vector.ending + figures[..vector.places as usize].iter().sum::<f64>());
    must((total - 1.0).abs() < 1.0e-9, "probabilities add up to 1")
}

/// A tidy of altered memory is refused just where the form is broken. Else what it leaves has the form, keeps
/// all counts that are not 0 and nothing that was not there, has no child of 0 and no node whose total is 0,
/// and is followed by zeros.
fn check_tidy(lent: &Memory, in_form: bool, tally: &mut Tally) -> Compared {
    let mut book = lent.book.to_vec();
    let answer = memory::tidy(lent.state, &mut book, lent.queue);
    tally.result(&answer);
    tally.met.altered_tidy(lent, answer, &book);
    let state = match answer {
        Err(refusal) => {
            must(refusal == Refusal::plain(9) && !in_form, "a tidy's 9 is not the form test's answer")?;
            return must(book == lent.book, "a refused tidy changed the book");
        }
        Ok(state) => state,
    };
    must(state == State { used: state.used, ..lent.state }, "state after a tidy")?;
    let after = Memory { state, book: &book, queue: lent.queue };
    must(in_form && after.form_holds(), "the form before and after a tidy")?;
    let before: BTreeSet<(Key, u64)> = entries(lent.state.used, lent.book).collect();
    let left: BTreeSet<(Key, u64)> = entries(state.used, &book).collect();
    must(left.is_subset(&before), "a tidy left an entry that was not there")?;
    must(before.difference(&left).all(|(_, count)| *count == 0), "a tidy dropped an entry that counts")?;
    let zero_child = |((_, child), count): &(Key, u64)| child.is_some() && *count == 0;
    must(!left.iter().any(zero_child), "a tidy left a child of 0")?;
    let nodes =
        after.evidence().map_err(|refusal| format!("a tidied book is refused with {:?}", refusal))?.nodes;
    must(nodes.values().all(|node| node.total() > 0), "a tidy left a node whose counts are all 0")?;
    must(book[ENTRY_BYTES * left.len()..].iter().all(|byte| *byte == 0), "zeros follow to the book's end")?;
    let mut again = book.clone();
    let answer = memory::tidy(state, &mut again, lent.queue);
    must(answer == Ok(state) && again == book, "a second tidy changed something")
}

fn check_accepted(add: &AlteredAdd, state: State, book: &[u8], queue: &[u8]) -> Compared {
    must(state.window == add.state.window && state.accepted == add.state.accepted + 1, "state after an add")?;
    must(state.used >= add.state.used, "an entry was dropped")?;
    let used = ENTRY_BYTES * state.used as usize;
    must(book[used..] == add.book[used..], "book bytes past the used entries changed")?;
    let place = add.state.accepted.checked_rem(state.window).map(|place| PLACE_BYTES * place as usize);
    for (index, (now, then)) in queue.iter().zip(&add.queue).enumerate() {
        let written = place.is_some_and(|start| (start..start + PLACE_BYTES).contains(&index));
        must(written || now == then, "a queue byte outside the path's place changed")?;
    }
    if let Some(start) = place {
        let length = (add.path.len() / 8) as u32;
        must(queue[start..start + 4] == length.to_le_bytes(), "the place's length")?;
        must(queue[start + 4..].starts_with(&add.path), "the place's steps")?;
        let rest = &queue[start + 4 + add.path.len()..start + PLACE_BYTES];
        must(rest.iter().all(|byte| *byte == 0), "the place's zeros")?;
    }
    let grown = book[..used].chunks(ENTRY_BYTES).any(past_most);
    let after = Memory { state, book, queue };
    must(after.form_holds() != grown, "the form after an add breaks only by a count past 2^30")?;
    must(grown == matches!(after.evidence(), Err(Refusal { number: 9, .. })), "a reading of a broken form")
}

/// What counts near 2^30 are lowered by, so that no add comes past it.
const LOWERED: u32 = 1 << 16;

/// An add of several paths on altered memory: refused with 9 just where the form is broken, and then nothing
/// changes. Else it comes to what single adds come to where counts near 2^30 are lowered, which else get 9 once
/// a count is past it; and only by such a count the form is broken afterwards. Gives what it came to.
pub fn check_batch(
    add: &AlteredAdd,
    places: &[u8],
    tally: &mut Tally,
) -> Result<(Batch, AlteredAdd), String> {
    let mut after = add.clone();
    let batch = memory::add_paths(&mut after.state, &mut after.book, &mut after.queue, places);
    tally.result(&batch.refusal.map_or(Ok(()), Err));
    let told = |text: &str| format!("{:?}\n{:?} of {:?}, {:?}\n{}", add, batch, places, after, text);
    let came_to = |other: Batch, left: &AlteredAdd| batch == other && after == *left;
    let refused = Batch { taken: 0, refusal: Some(Refusal::plain(9)) };
    let (singles, left) = one_by_one(add.clone(), places);
    let stopped = singles.refusal == refused.refusal;
    tally.met.altered_batch(places, batch, stopped, &after.memory());
    if !add.memory().form_holds() {
        must(came_to(refused, add), &told("the form is broken"))?;
        return Ok((batch, after));
    }
    must(stopped || came_to(singles, &left), &told("single adds come to something else"))?;
    let (singles, left) = one_by_one(shifted(add.clone(), |count| count - LOWERED), places);
    let raised = shifted(left, |count| count + LOWERED);
    must(came_to(singles, &raised), &told("single adds with lowered counts come to something else"))?;
    let grown = after.book.chunks_exact(ENTRY_BYTES).take(after.state.used as usize).any(past_most);
    must(after.memory().form_holds() != grown, &told("a count past 2^30 alone breaks the form"))?;
    Ok((batch, after))
}

fn past_most(entry: &[u8]) -> bool {
    word(entry, 5) > MAX_COUNT
}

/// The paths of the places in single adds up to the first that is refused, a place without one as a path of no
/// steps; and what they leave.
fn one_by_one(mut add: AlteredAdd, places: &[u8]) -> (Batch, AlteredAdd) {
    let mut taken = 0;
    for place in places.chunks(PLACE_BYTES) {
        match memory::add_path(add.state, &mut add.book, &mut add.queue, place_path(place)) {
            Ok(state) => add.state = state,
            Err(refusal) => return (Batch { taken, refusal: Some(refusal) }, add),
        }
        taken += 1;
    }
    (Batch { taken, refusal: None }, add)
}

/// The memory with other counts in place of the great ones.
fn shifted(mut add: AlteredAdd, other: impl Fn(u32) -> u32) -> AlteredAdd {
    for entry in add.book.chunks_mut(ENTRY_BYTES).take(add.state.used as usize) {
        let count = word(entry, 5);
        if count > LOWERED {
            entry[20..].copy_from_slice(&other(count).to_le_bytes());
        }
    }
    add
}

/// A training: refused before its work it changes nothing, stopped it leaves zeros.
pub fn check_training(training: &Training, tally: &mut Tally) -> Compared {
    let mut after = training.clone();
    let zero_book = |book: &[u8]| book.iter().all(|byte| *byte == 0);
    let answer = after.run();
    tally.result(&answer);
    tally.met.training(training, answer);
    hold_sequences(training, answer, &mut tally.met)?;
    match answer {
        Ok(count) => {
            let count = count as usize;
            must(zero_book(&after.book), "the book is not all zero after a training")?;
            must(after.knots[count..] == training.knots[count..], "knots past the answer changed")?;
            let (left, lent) = (&after.values[10 * count..], &training.values[10 * count..]);
            must(same_figures(left, lent), "values past the answer changed")?;
            check_trained(&after, count)
        }
        Err(Refusal { number: 10 | 12 | 14 | 15, .. }) => {
            must(zero_book(&after.book), "the book is not all zero after a stop")?;
            must(after.knots.iter().all(|knot| *knot == 0), "knots are not zero after a stop")?;
            must(
                after.values.iter().all(|value| same_figure(*value, 0.0)),
                "values are not plus zero after a stop",
            )
        }
        Err(_) => {
            must(
                after.book == training.book && after.knots == training.knots,
                "a refused training changed something",
            )?;
            must(same_figures(&after.values, &training.values), "a refused training changed values")
        }
    }
    .map_err(|text| format!("{:#?}\n{}", training, text))
}

/// No sum of a trained baseline is minus zero, nor any figure that it gives at a length.
fn check_trained(trained: &Training, count: usize) -> Compared {
    let (knots, values) = (&trained.knots[..count], &trained.values[..10 * count]);
    must(!values.iter().any(|value| is_minus_zero(*value)), "a training left minus zero")?;
    let last = knots.last().copied().unwrap_or(0);
    for length in 0..=2 * last + 3 {
        let told = stats(trained.sequences, knots, values, length).map(|stats| stats.ten_values());
        let minus_zero = told.is_ok_and(|told| told.into_iter().any(is_minus_zero));
        must(!minus_zero, &format!("a trained baseline gives minus zero at length {}", length))?;
    }
    Ok(())
}

/// Damaged priors get a number from 3 to 7 or 22, or are in order after all.
pub fn check_prior_case(lent: &PriorBytes, tally: &mut Tally) -> Compared {
    let answer = check_priors(lent.lent());
    tally.result(&answer);
    match answer {
        Err(Refusal { number: 3..=7 | 22, .. }) => Ok(()),
        Err(refusal) => Err(format!("priors are refused with {}", refusal.number)),
        Ok(checked) => {
            let ascending = checked.nodes.windows(2).all(|pair| pair[0].address < pair[1].address);
            let in_order = |prior: &recount::Prior| {
                prior.children.len() <= MAX_CHAIN
                    && prior.children.windows(2).all(|pair| pair[0].0 < pair[1].0)
                    && prior.total() > 0
            };
            let mut points = BTreeSet::new();
            let mut below = checked.nodes.iter().filter(|prior| prior.address.scale < checked.floor);
            let apart = below.all(|prior| points.insert(prior.address.point));
            must(apart && ascending && checked.nodes.iter().all(in_order), "priors out of order were taken")
        }
    }
}

/// Look-ups of children: the recount tells what a walk along the chain finds that stops at the first
/// address which is not below the one wanted, and as many records as that walk reads. Gives its answers.
pub fn check_lookups(case: &PriorsCase, tally: &mut Tally) -> Result<Vec<Looked>, String> {
    let checked = check_priors(case.priors.lent());
    let answers = case.answers(&checked);
    for ((node, child), answer) in case.asked.iter().zip(&answers) {
        tally.result(answer);
        tally.met.looked_up(&checked, *node, *child);
        if let Ok(priors) = &checked {
            let walked = walked(priors.node(*node).map_or(&[], |prior| &prior.children), *child);
            if *answer != Ok(walked) {
                return Err(format!(
                    "{:?}, {:?}: {:?}, a walk {:?}\n{:?}",
                    node, child, answer, walked, priors
                ));
            }
        }
    }
    Ok(answers)
}

fn walked(chain: &[(Address, u32)], child: Address) -> ChildLookup {
    let mut read = 0;
    for (address, count) in chain {
        read += 1;
        if *address >= child {
            return ChildLookup { count: (*address == child).then_some(*count), read };
        }
    }
    ChildLookup { count: None, read }
}
