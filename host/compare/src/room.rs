//! Holds a tracker's used entries and its 12s to the least capacity, after every call from an accepted
//! opening on, and tells what was met of both. The least capacity is told by paths alone, those of H from the
//! last tidy's window part on: by their different addresses and their different pairs of neighbours. A
//! training is held to that of the sequence which needs most.

use crate::kept::Kept;
use crate::met::Met;
use crate::{must, Compared};
use cases::baselines::Training;
use cases::calls::Call;
use cases::play::Answer;
use recount::limits::{ENTRY_BYTES, MAX_ACCEPTED, MAX_STEPS, STEP_BYTES};
use recount::{least, steps, Address, Refusal};
use std::collections::BTreeSet;

const HELD: &str = "calls after which the used entries were held to the least capacity";
const FILLED: &str = "adds taken that fill the book to its last entry";
const LACKS_ONE: &str = "adds answered 12 that lack one entry";
const AFTER_12: &str = "adds taken after a 12";
const BY_LENGTH: &str = "adds taken with fewer than 2n - 1 entries free, for n steps";
const BOTH_WAYS: &str = "paths taken that have a pair in both directions";
const NEVER_ENDED: &str = "paths taken with a node that no path has ended at";
const ROOM_BY_TIDIES: &str = "adds taken in a book that would be too small without the tidies before them";
const FULL_AFTER_TIDIES: &str = "adds among these that fill the book to its last entry";
const FREED: &str = "adds that got 12 before a tidy and are taken after it";
const STILL_12: &str = "adds that got 12 before a tidy and after it";
const TRAINED_FULL: &str = "trainings finished in a book with no entry to spare";
const TRAINING_LACKS_ONE: &str = "trainings stopped by 12 for whose sequences one entry is lacking";
const WITH_GOKO: &str = "openings and adds after which goko has as many numbers as the least capacity";

/// What is to be met without goko and with it.
pub const MET: [&str; 9] =
    [HELD, FILLED, LACKS_ONE, AFTER_12, BY_LENGTH, BOTH_WAYS, NEVER_ENDED, TRAINED_FULL, TRAINING_LACKS_ONE];
pub const MET_WITH_GOKO: [&str; 1] = [WITH_GOKO];
/// What is to be met in lists with tidies.
pub const WITH_TIDIES: [&str; 4] = [ROOM_BY_TIDIES, FULL_AFTER_TIDIES, FREED, STILL_12];

/// What H tells of its room.
#[derive(Debug, Default)]
pub struct Room {
    /// The least capacity that serves what H lists.
    least: usize,
    /// Whether an add got 12 since the opening.
    short: bool,
    /// The paths that got 12 since the last tidy, and those that did before it and were not tried again.
    refused: BTreeSet<Vec<Address>>,
    refused_before: BTreeSet<Vec<Address>>,
    /// The nodes that a path of H ends at.
    ended: BTreeSet<Address>,
}

/// An add of a whole path.
struct Add<'a> {
    path: &'a [Address],
    /// The least capacity before it and with it.
    before: usize,
    needed: usize,
    capacity: usize,
    taken: bool,
}

impl Room {
    /// Takes in a call and its answer, which `kept` has heard.
    pub fn hear(&mut self, kept: &Kept, call: &Call, answer: &Answer) {
        match (call, answer) {
            (Call::Open { .. }, Answer::Changed(Ok(()))) => *self = Room::default(),
            (Call::Tidy, Answer::Changed(Ok(()))) => {
                self.least = least(kept.listing());
                self.refused_before.append(&mut self.refused);
            }
            _ if !kept.added().is_empty() => {
                self.least = least(kept.listing());
                self.ended.extend(kept.added().iter().filter_map(|path| path.last()));
            }
            _ => {}
        }
    }

    /// Takes in a call and its answer, which `kept` has heard, and holds the used entries to the least
    /// capacity; and an add of a whole path to it as well.
    pub fn hold(&mut self, kept: &Kept, call: &Call, answer: &Answer, used: u32, met: &mut Met) -> Compared {
        let before = self.least;
        self.hear(kept, call, answer);
        must(used as usize == self.least, || {
            format!("{} entries are used, the least capacity is {}", used, self.least)
        })?;
        met.count(HELD, true);
        match call {
            Call::Add { path } if is_whole(path) => {
                self.hold_add(kept, (&steps(path), before), answer.number(), met)
            }
            _ => Ok(()),
        }
    }

    /// An add of a whole path gets 12 where what is listed, with the path, needs more entries than the book
    /// has, and else is taken, unless as many paths were accepted as can be.
    fn hold_add(
        &mut self,
        kept: &Kept,
        (path, before): (&[Address], usize),
        number: u32,
        met: &mut Met,
    ) -> Compared {
        let (taken, capacity) = (number == 0, kept.capacity);
        let accepted = kept.paths.len() - usize::from(taken);
        if accepted >= MAX_ACCEPTED as usize {
            return Ok(());
        }
        let with_it = || kept.listing().iter().map(Vec::as_slice).chain([path]).collect::<Vec<&[Address]>>();
        let needed = if taken { self.least } else { least(&with_it()) };
        let expected = if needed > capacity { 12 } else { 0 };
        must(number == expected, || {
            format!("an add with which {} entries are needed is answered {} in {}", needed, number, capacity)
        })?;
        met.whole_add(self, &Add { path, before, needed, capacity, taken });
        met.room_by_tidies(kept, (taken, needed));
        met.tried_again(self.refused_before.remove(path), taken);
        self.short |= !taken;
        self.refused.extend((!taken).then(|| path.to_vec()));
        Ok(())
    }

    /// Holds how many numbers goko has to the least capacity.
    pub fn hold_numbers(&self, numbers: usize) -> Compared {
        must(numbers == self.least, || {
            format!("goko has {} numbers, the least capacity is {}", numbers, self.least)
        })
    }
}

/// A training that finishes has as many entries as each of its sequences needs, each being added after an
/// opening of its own; one that 12 stops has fewer than some sequence needs.
pub fn hold_sequences(training: &Training, answer: Result<u32, Refusal>, met: &mut Met) -> Compared {
    let capacity = training.book.len() / ENTRY_BYTES;
    let paths: Vec<Vec<Address>> = training.given_paths().collect();
    let needed = paths.chunks(training.paths.max(1) as usize).map(least).max().unwrap_or(0);
    let (finished, stopped) = (answer.is_ok(), matches!(answer, Err(Refusal { number: 12, .. })));
    must(!(finished && needed > capacity || stopped && needed <= capacity), || {
        format!("a training that needs {} entries came to {:?} in {}", needed, answer, capacity)
    })?;
    met.count(TRAINED_FULL, finished && needed == capacity);
    met.count(TRAINING_LACKS_ONE, stopped && needed == capacity + 1);
    Ok(())
}

/// One to 64 steps of eight bytes.
fn is_whole(path: &[u8]) -> bool {
    path.len().is_multiple_of(STEP_BYTES) && (1..=MAX_STEPS).contains(&(path.len() / STEP_BYTES))
}

fn has_a_pair_both_ways(path: &[Address]) -> bool {
    let turned = |pair: &[Address]| path.windows(2).any(|other| other == [pair[1], pair[0]]);
    path.windows(2).any(|pair| pair[0] != pair[1] && turned(pair))
}

impl Met {
    /// Counts an add of a whole path.
    fn whole_add(&mut self, room: &Room, add: &Add) {
        let Add { path, before, needed, capacity, taken } = *add;
        self.count(LACKS_ONE, !taken && needed == capacity + 1);
        if taken {
            self.count(FILLED, before < needed && needed == capacity);
            self.count(AFTER_12, room.short);
            self.count(BY_LENGTH, before + 2 * path.len() - 1 > capacity);
            self.count(BOTH_WAYS, has_a_pair_both_ways(path));
            self.count(NEVER_ENDED, path.iter().any(|node| !room.ended.contains(node)));
        }
    }

    /// Counts an add with which `needed` entries are listed.
    fn room_by_tidies(&mut self, kept: &Kept, (taken, needed): (bool, usize)) {
        // Where nothing was dropped the two are the same.
        if taken && kept.listing().len() < kept.paths.len() && least(&kept.paths) > kept.capacity {
            self.count(ROOM_BY_TIDIES, true);
            self.count(FULL_AFTER_TIDIES, needed == kept.capacity);
        }
    }

    /// Counts an add of a path that got 12 before a tidy, where it did.
    fn tried_again(&mut self, refused_before: bool, taken: bool) {
        self.count(FREED, refused_before && taken);
        self.count(STILL_12, refused_before && !taken);
    }

    /// Counts an opening or an add after which goko has as many numbers as the least capacity.
    pub fn goko_has_least(&mut self) {
        self.count(WITH_GOKO, true);
    }
}
