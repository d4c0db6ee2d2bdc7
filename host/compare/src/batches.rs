//! Holds what an add of several paths came to, after an accepted opening: by its places, the paths before it
//! and the least capacity alone. Tells what was met of such adds, in lists and on altered memory.

use crate::kept::Kept;
use crate::met::Met;
use crate::{must, Compared};
use cases::calls::Call;
use cases::paths::place_path;
use cases::play::Answer;
use recount::limits::{ENTRY_BYTES, MAX_COUNT, MAX_STEPS, PLACE_BYTES, STEP_BYTES};
use recount::{least, steps, word, Address, Batch, Memory};

const HELD: &str = "batches held to their places and the least capacity";
const NO_PLACES: &str = "batches without places";
const ONE: &str = "batches of one path, which is taken";
const SEVERAL: &str = "batches of several paths, all taken";
const AT_ONCE: &str = "batches whose first place is refused";
const BY_10: &str = "batches ended by 10 after paths that stay in";
const BY_12: &str = "batches ended by 12 after paths that stay in";
const NO_STEPS: &str = "batches ended by a length of 0";
const ONE_STEP_MORE: &str = "batches ended by a length of 65";
const LONGER: &str = "batches ended by a greater length";
const CUT_LENGTH: &str = "batches ended by a place cut off in its length";
const CUT_STEPS: &str = "batches ended by a place cut off in its steps";
const CUT_BEHIND: &str = "batches ended by a place cut off behind its steps, which are all there";
const NOT_REACHED: &str = "batches with a cut-off place that is not reached";
const ROOM_BEHIND: &str = "batches ended by 12 before a path that there is room for";
const PATH_BEHIND: &str = "batches ended by 10 before a path that there is room for";
const BY_EARLIER: &str = "batches ended by 12 at a path that there was room for before the batch";
const PASSED: &str = "batches that take more paths than the window holds";
const NOT_ZERO: &str = "paths kept in the queue from places with other bytes than 0 behind their steps";
const LONGEST: &str = "paths of 64 steps taken from places";
const BY_TIDIES: &str = "batches that take paths in a book too small for all paths without tidies";
const ALTERED_HELD: &str = "batches on altered memory held to single adds";
const ALTERED_9: &str = "batches on altered memory refused with 9";
const ALTERED_EMPTY_9: &str = "batches without places on altered memory refused with 9";
const ALTERED_EMPTY: &str = "batches without places on altered memory that is in form";
const ALTERED_PAST: &str = "batches on altered memory that go on though a count is past 2^30";
const ALTERED_LEFT: &str =
    "batches on altered memory after which a count is past 2^30, and the next call gets 9";
const ALTERED_10: &str = "batches on altered memory ended by 10 after paths that stay in";
const ALTERED_11: &str = "batches on altered memory ended by 11 after paths that stay in";
const ALTERED_12: &str = "batches on altered memory ended by 12 after paths that stay in";
const WITH_GOKO: &str = "batches after which goko, given their paths one by one, has the same counts";

/// What is to be met in lists with adds of several paths, on altered memory, and with goko.
pub const IN_LISTS: [&str; 21] = [
    HELD,
    NO_PLACES,
    ONE,
    SEVERAL,
    AT_ONCE,
    BY_10,
    BY_12,
    NO_STEPS,
    ONE_STEP_MORE,
    LONGER,
    CUT_LENGTH,
    CUT_STEPS,
    CUT_BEHIND,
    NOT_REACHED,
    ROOM_BEHIND,
    PATH_BEHIND,
    BY_EARLIER,
    PASSED,
    NOT_ZERO,
    LONGEST,
    BY_TIDIES,
];
pub const ALTERED: [&str; 9] = [
    ALTERED_HELD,
    ALTERED_9,
    ALTERED_EMPTY_9,
    ALTERED_EMPTY,
    ALTERED_PAST,
    ALTERED_LEFT,
    ALTERED_10,
    ALTERED_11,
    ALTERED_12,
];
pub const MET_WITH_GOKO: [&str; 1] = [WITH_GOKO];

/// The least capacity for what these paths list and one more.
fn least_with(paths: &[Vec<Address>], path: &[u8]) -> usize {
    let path = steps(path);
    least(&paths.iter().chain([&path]).map(Vec::as_slice).collect::<Vec<&[Address]>>())
}

/// Holds a batch that `kept` has heard: what it took are paths, with which no more entries are needed than the
/// book has; the place behind them, where there is one, is answered 10 if it holds no path, else 12, and there
/// is no room for it.
pub fn hold(kept: &Kept, call: &Call, answer: &Answer, met: &mut Met) -> Compared {
    let (Call::AddPaths { places }, Answer::Batch(batch)) = (call, answer) else {
        return Ok(());
    };
    let places: Vec<&[u8]> = places.chunks(PLACE_BYTES).collect();
    let told = || format!("{:?} of {} places", batch, places.len());
    let (taken, rest) = places.split_at_checked(batch.taken as usize).ok_or_else(told)?;
    let expected = match rest.first().map(|place| place_path(place)) {
        None => Some(0),
        Some([]) => Some(10),
        Some(path) => (!fits(kept, path)).then_some(12),
    };
    let are_paths = !taken.iter().any(|place| place_path(place).is_empty());
    let in_room = least(kept.listing()) <= kept.capacity;
    must(expected == Some(answer.number()) && are_paths && in_room, told)?;
    met.batch(kept, (taken, rest), answer.number());
    Ok(())
}

/// Whether there is room for one path more.
fn fits(kept: &Kept, path: &[u8]) -> bool {
    least_with(kept.listing(), path) <= kept.capacity
}

impl Met {
    /// Counts a batch in a list, with what it took of its places and the rest.
    fn batch(&mut self, kept: &Kept, (taken, rest): (&[&[u8]], &[&[u8]]), number: u32) {
        self.count(HELD, true);
        self.count(NO_PLACES, taken.is_empty() && rest.is_empty());
        self.count(ONE, taken.len() == 1 && rest.is_empty());
        self.count(SEVERAL, taken.len() > 1 && rest.is_empty());
        self.count(AT_ONCE, taken.is_empty() && number != 0);
        self.count(BY_10, !taken.is_empty() && number == 10);
        self.count(BY_12, !taken.is_empty() && number == 12);
        self.count(PASSED, kept.window_part().len() < taken.len());
        for place in taken {
            let behind = &place[4 + place_path(place).len()..];
            self.count(NOT_ZERO, !kept.is_unlimited() && behind.iter().any(|byte| *byte != 0));
            self.count(LONGEST, behind.is_empty());
        }
        let dropped = kept.listing().len() < kept.paths.len();
        self.count(BY_TIDIES, !taken.is_empty() && dropped && least(&kept.paths) > kept.capacity);
        if let [ending, behind @ ..] = rest {
            self.ended(kept, (ending, behind), number);
        }
    }

    /// Counts the place that ends a batch, and those behind it.
    fn ended(&mut self, kept: &Kept, (ending, behind): (&[u8], &[&[u8]]), number: u32) {
        let length = if ending.len() < 4 { None } else { Some(word(ending, 0) as usize) };
        let cut = ending.len() < PLACE_BYTES;
        let all_there = |length: usize| length > 0 && 4 + STEP_BYTES * length <= ending.len();
        self.count(NO_STEPS, length == Some(0));
        self.count(ONE_STEP_MORE, length == Some(MAX_STEPS + 1));
        self.count(LONGER, length.is_some_and(|length| length > MAX_STEPS + 1));
        self.count(CUT_LENGTH, length.is_none());
        let not_all_there = |length: usize| (1..=MAX_STEPS).contains(&length) && !all_there(length);
        self.count(CUT_STEPS, cut && length.is_some_and(not_all_there));
        self.count(CUT_BEHIND, cut && length.is_some_and(all_there));
        self.count(NOT_REACHED, behind.last().is_some_and(|place| place.len() < PLACE_BYTES));
        let room_for = |place: &&[u8]| !place_path(place).is_empty() && fits(kept, place_path(place));
        self.count(ROOM_BEHIND, number == 12 && behind.iter().any(room_for));
        self.count(PATH_BEHIND, number == 10 && behind.iter().any(room_for));
        self.count(
            BY_EARLIER,
            number == 12 && least_with(kept.listing_before(), place_path(ending)) <= kept.capacity,
        );
    }

    /// Counts a batch on altered memory, after which state, book and queue are `after`. `stopped` tells
    /// whether 9 would stop the single adds of its paths.
    pub fn altered_batch(&mut self, places: &[u8], batch: Batch, stopped: bool, after: &Memory) {
        let number = batch.refusal.map_or(0, |refusal| refusal.number);
        self.count(ALTERED_HELD, true);
        self.count(ALTERED_9, number == 9);
        self.count(ALTERED_EMPTY_9, number == 9 && places.is_empty());
        self.count(ALTERED_EMPTY, number == 0 && places.is_empty());
        self.count(ALTERED_PAST, number != 9 && stopped);
        let past = |entry: &[u8]| word(entry, 5) > MAX_COUNT;
        let used = after.book.chunks_exact(ENTRY_BYTES).take(after.state.used as usize);
        self.count(ALTERED_LEFT, batch.taken > 0 && used.into_iter().any(past));
        for (ended_by, what) in [(10, ALTERED_10), (11, ALTERED_11), (12, ALTERED_12)] {
            self.count(what, number == ended_by && batch.taken > 0);
        }
    }

    /// Counts a batch whose paths goko was given, too.
    pub fn goko_batch(&mut self) {
        self.count(WITH_GOKO, true);
    }
}
