//! The rows of adds: one path a call, and lists of paths from an opening on.

use crate::agree;
use crate::clock::timed;
use crate::load::Load;
use crate::rows::{row, rows};
use crate::sides::{goko_address, goko_path, Memory, ENTRIES, MOST_ENTRIES, WINDOW};
use oracle::{Goko, Trace};
use teakpool::{path_bytes, place_bytes, Address, Tracker, PLACE_BYTES};

/// Single adds of a round.
const ADDS: usize = 4_000;

/// Adds one at a time, each with its form test.
pub fn single(load: &mut Load, ours: &mut Tracker, theirs: &mut Goko, rounds: usize) {
    row("add_path, with its form test", rounds, || {
        let paths = load.paths(ADDS);
        let bytes: Vec<Vec<u8>> = paths.iter().map(|path| path_bytes(path)).collect();
        let traces: Vec<Trace> = paths.iter().map(|path| oracle::trace(&goko_path(path))).collect();
        let one = timed(ADDS, || {
            bytes.iter().for_each(|path| ours.add_path_bytes(path).expect("there is room"));
        });
        let other = timed(ADDS, || add_all(theirs, traces));
        (one, other)
    });
    agree::counts(ours.state().used as usize, ours.book(), theirs);
}

/// Lists of `count` paths, by the path: in one call, in one call with no entry free, and in calls of fewer
/// places. On both sides the opening is timed, too. In a round goko goes once and each way once.
pub fn lists(load: &mut Load, count: usize, rounds: usize) {
    let mut places = Vec::with_capacity(PLACE_BYTES * count);
    (0..count).for_each(|_| places.extend_from_slice(&place_bytes(&load.path())));
    let ways = [
        ("add_paths, all places in one call", MOST_ENTRIES, count),
        ("the same, no entry free", ENTRIES, count),
        ("add_paths, 10,000 places a call", MOST_ENTRIES, 10_000),
        ("add_paths, 1,000 places a call", MOST_ENTRIES, 1_000),
        ("add_paths, 250 places a call", MOST_ENTRIES, 250),
        ("add_paths, 100 places a call", MOST_ENTRIES, 100),
    ];
    rows(&ways.map(|(name, ..)| name), rounds, || {
        let (known, other) = goko_list(&places);
        let one = ways.map(|(_, capacity, a_call)| list(&places, capacity, a_call, &known));
        (one.to_vec(), other)
    });
}

/// Microseconds a path of an opening and calls of `a_call` places. All paths must be taken, all nodes and
/// transitions listed, and the counts goko's.
fn list(places: &[u8], capacity: usize, a_call: usize, known: &Goko) -> f64 {
    let (mut memory, mut state) = (Memory::new(capacity), [0; 3]);
    let count = places.len() / PLACE_BYTES;
    let mut all_taken = 0;
    let time = timed(count, || {
        let answer = archive::open(WINDOW, &mut memory.book, &mut memory.queue, &mut state);
        assert_eq!(answer, 0, "the sizes are taken");
        for lent in places.chunks(PLACE_BYTES * a_call) {
            let mut taken = 0;
            let answer =
                archive::add_paths(&mut state, &mut memory.book, &mut memory.queue, lent, &mut taken);
            assert_eq!(answer, 0, "the paths are taken");
            all_taken += taken as usize;
        }
    });
    assert_eq!((all_taken, state[2] as usize), (count, count), "every path is taken");
    assert_eq!(state[1] as usize, ENTRIES, "all nodes and transitions are listed");
    agree::counts(ENTRIES, &memory.book, known);
    time
}

/// goko's tracker, opened and given the paths of all places, and its microseconds a path.
fn goko_list(places: &[u8]) -> (Goko, f64) {
    let traces: Vec<Trace> = places.chunks(PLACE_BYTES).map(trace).collect();
    let mut goko = None;
    let time = timed(traces.len(), || add_all(goko.insert(Goko::open(WINDOW as usize)), traces));
    (goko.expect("it was opened"), time)
}

/// goko's `add_path` of each.
fn add_all(goko: &mut Goko, traces: Vec<Trace>) {
    traces.into_iter().for_each(|trace| goko.add_trace(trace).expect("goko takes it"));
}

/// The path of a place in goko's form.
fn trace(place: &[u8]) -> Trace {
    let (length, steps) = place.split_first_chunk().expect("a place begins with its length");
    let steps = steps.chunks_exact(8).take(u32::from_le_bytes(*length) as usize);
    let address = |step: &[u8]| Address::from_bytes(step.try_into().expect("eight bytes"));
    steps.map(|step| (0.0, goko_address(address(step)))).collect()
}
