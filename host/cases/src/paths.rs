//! Addresses and paths. Few addresses, so that repeats, self-transitions, counts fallen to
//! zero and full books come up; scales of both signs, parts at the ends of their ranges.

use crate::rng::Rng;
use recount::limits::{MAX_STEPS, PLACE_BYTES, STEP_BYTES};
use recount::{path_bytes, word, Address};

const SCALES: [i32; 8] = [-3, -2, -1, 0, 1, 2, i32::MIN, i32::MAX];
const POINTS: [u32; 8] = [0, 1, 2, 9, 255, 256, 0x8000_0000, u32::MAX];

/// Floors with scales of either side, and those at the ends of the range that have some below.
const FLOORS: [i32; 9] = [-2, -1, 0, 1, 2, i32::MIN + 1, i32::MIN + 2, i32::MAX - 1, i32::MAX];

/// An address that no universe holds.
pub const FOREIGN: Address = Address::new(5, 5);

/// `count` different addresses, at most 64.
pub fn universe(rng: &mut Rng, count: usize) -> Vec<Address> {
    different(count, || Address::new(rng.pick(&SCALES), rng.pick(&POINTS)))
}

/// `count` different addresses, at most 512, on scales next to each other that may have both signs, so
/// that there are others before, between and after them.
pub fn wide_universe(rng: &mut Rng, count: usize) -> Vec<Address> {
    let first = rng.pick(&[-32, -63, 0, i32::MIN, i32::MAX - 63]);
    different(count, || Address::new(first + rng.below(64) as i32, rng.pick(&POINTS)))
}

/// `count` different addresses of those that `next` gives.
fn different(count: usize, mut next: impl FnMut() -> Address) -> Vec<Address> {
    let mut addresses: Vec<Address> = Vec::new();
    while addresses.len() < count {
        let address = next();
        if !addresses.contains(&address) {
            addresses.push(address);
        }
    }
    addresses
}

/// In `percent` of a hundred cases a floor that has scales below it.
pub fn floor(rng: &mut Rng, percent: usize) -> i32 {
    if rng.chance(percent) {
        rng.pick(&FLOORS)
    } else {
        i32::MIN
    }
}

/// `count` different addresses, at most 8; where scales are below the floor, on both sides of it and
/// with few points, so that some share one.
pub fn universe_around(rng: &mut Rng, count: usize, floor: i32) -> Vec<Address> {
    if floor == i32::MIN {
        return universe(rng, count);
    }
    let points = [rng.pick(&POINTS), rng.pick(&POINTS), 7];
    let above = [floor, floor.saturating_add(1), i32::MAX];
    different(count, || {
        let scale = if rng.chance(70) { below(rng, floor) } else { rng.pick(&above) };
        Address::new(scale, rng.pick(&points))
    })
}

/// A scale below the floor, which is not the least.
pub fn below(rng: &mut Rng, floor: i32) -> i32 {
    rng.pick(&[floor - 1, floor.saturating_sub(2), floor.saturating_sub(3), i32::MIN])
}

/// A path of 1 to `most` steps over the universe; every fifth step repeats the one before.
pub fn path(rng: &mut Rng, universe: &[Address], most: usize) -> Vec<Address> {
    let mut path = vec![rng.pick(universe)];
    for _ in 1..rng.between(1, most) {
        let last = path[path.len() - 1];
        path.push(if rng.chance(20) { last } else { rng.pick(universe) });
    }
    path
}

/// A path's bytes; in `bad` of a hundred cases one of the lengths around the limits.
pub fn lent_path(rng: &mut Rng, universe: &[Address], most: usize, bad: usize) -> Vec<u8> {
    if !rng.chance(bad) {
        return path_bytes(&path(rng, universe, most));
    }
    let length = rng.pick(&[0, 1, 7, 9, 504, 511, 512, 513, 519, 520]);
    let mut bytes = Vec::new();
    while bytes.len() < length {
        bytes.extend(rng.pick(universe).bytes());
    }
    bytes.truncate(length);
    bytes
}

/// Lengths that no path has: the nearest ones, one whose first byte is a length, one whose steps would be one
/// if their bytes were counted in 32 bits, and the greatest.
pub const BAD_LENGTHS: [u32; 5] = [0, MAX_STEPS as u32 + 1, 0x101, 0x2000_0001, u32::MAX];

/// What may be left of a cut-off place: a part of its length, all of it, one step as well, all but a byte.
pub const CUTS: [usize; 5] = [1, 3, 4, 4 + STEP_BYTES, PLACE_BYTES - 1];

/// A queue place: a length, the bytes of steps, as far as there is room, and `fill` after them.
pub fn place(length: u32, steps: &[u8], fill: u8) -> Vec<u8> {
    let mut place = [&length.to_le_bytes()[..], steps].concat();
    place.resize(PLACE_BYTES, fill);
    place
}

/// The queue places of lent paths. One that is no path gets a length that is none; in `cut` of a hundred cases
/// the last place is cut off.
pub fn lent_places(rng: &mut Rng, paths: &[Vec<u8>], cut: usize) -> Vec<u8> {
    let mut places = Vec::new();
    for path in paths {
        let whole = path.len().is_multiple_of(STEP_BYTES) && !path.is_empty();
        let length = if whole { (path.len() / STEP_BYTES) as u32 } else { rng.pick(&BAD_LENGTHS) };
        places.extend(place(length, path, rng.pick(&[0, 0x3c])));
    }
    if !places.is_empty() && rng.chance(cut) {
        places.truncate(places.len() - PLACE_BYTES + rng.pick(&CUTS));
    }
    places
}

/// The bytes of a place's steps; none where it is cut off or its length is no path's.
pub fn place_path(place: &[u8]) -> &[u8] {
    match place.len() {
        PLACE_BYTES => place[4..].get(..STEP_BYTES * word(place, 0) as usize).unwrap_or(&[]),
        _ => &[],
    }
}
