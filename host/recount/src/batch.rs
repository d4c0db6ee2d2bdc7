//! Several paths in queue places, one after another: each is taken in turn, up to the first that is refused.

use crate::address::word;
use crate::limits::{MAX_STEPS, PLACE_BYTES, STEP_BYTES};
use crate::refusal::{refuse, Refusal};

/// What an add of several paths came to.
#[derive(Debug, Clone, Copy, PartialEq, Eq)]
pub struct Batch {
    /// How many paths were taken.
    pub taken: u32,
    /// Why the next one was not, where there is one, or why none was looked at.
    pub refusal: Option<Refusal>,
}

/// Hands the path of each place to `add`, until one is refused.
pub(crate) fn in_turn(places: &[u8], mut add: impl FnMut(&[u8]) -> Result<(), Refusal>) -> Batch {
    let mut taken = 0;
    for place in places.chunks(PLACE_BYTES) {
        if let Err(refusal) = path_in(place).and_then(&mut add) {
            return Batch { taken, refusal: Some(refusal) };
        }
        taken += 1;
    }
    Batch { taken, refusal: None }
}

/// The bytes of a place's steps; 10 where the place is cut off or its length is not 1 to 64.
pub(crate) fn path_in(place: &[u8]) -> Result<&[u8], Refusal> {
    refuse(10, place.len() < PLACE_BYTES)?;
    let length = word(place, 0) as usize;
    refuse(10, !(1..=MAX_STEPS).contains(&length))?;
    Ok(&place[4..4 + STEP_BYTES * length])
}
