//! Lists of paths through the archive, held against single adds in memory of their own.

use teakpool::*;

const NODE: Address = Address::new(1, 7);
const NINE: Address = Address::new(0, 9);

/// The paths as places, with bytes after each path's steps that are not to be read.
fn places(paths: &[&[Address]]) -> Vec<u8> {
    let place = |path: &&[Address]| {
        let mut place = place_bytes(path);
        place[4 + Address::BYTES * path.len().min(MAX_STEPS)..].fill(0xaa);
        place
    };
    paths.iter().flat_map(place).collect()
}

fn stopped<T>(taken: u32, refusal: Refusal) -> Result<T, Stopped> {
    Err(Stopped { taken, refusal })
}

/// Two trackers, one for lists and one for single adds, with memory of the same size.
struct Both {
    lists: (Vec<u8>, Vec<u8>, State),
    single: (Vec<u8>, Vec<u8>, State),
}

impl Both {
    fn open(window: u32, entries: usize) -> Both {
        let places = window as usize + 1;
        let (mut book, mut queue) = (vec![0xff; entries * ENTRY_BYTES], vec![0xff; places * PLACE_BYTES]);
        let state = Tracker::open(window, &mut book, &mut queue).unwrap().state();
        Both { lists: (book.clone(), queue.clone(), state), single: (book, queue, state) }
    }

    fn on<T>(memory: &mut (Vec<u8>, Vec<u8>, State), call: impl FnOnce(&mut Tracker) -> T) -> T {
        let mut tracker = Tracker::resume(memory.2, &mut memory.0, &mut memory.1);
        let answer = call(&mut tracker);
        memory.2 = tracker.state();
        answer
    }

    /// Adds the places in one call, and the paths that it takes one by one.
    fn add(&mut self, paths: &[&[Address]], places: &[u8]) -> Result<u32, Stopped> {
        let answer = Both::on(&mut self.lists, |tracker| tracker.add_paths(places));
        let taken = answer.unwrap_or_else(|stopped| stopped.taken) as usize;
        let next = Both::on(&mut self.single, |tracker| {
            paths[..taken].iter().for_each(|path| tracker.add_path(path).unwrap());
            // What a list refuses a single add refuses then, a place that is cut off apart.
            let next = paths.get(taken).filter(|_| places.len() >= (taken + 1) * PLACE_BYTES);
            next.and_then(|path| tracker.add_path(path).err())
        });
        let told = answer.err().map(|stopped| stopped.refusal);
        assert!(told == next || told == Some(Refusal::PathLength) && places.len() % PLACE_BYTES > 0);
        assert_eq!(self.lists.2, self.single.2);
        assert!(self.lists == self.single, "book and queue after {} of {} paths", taken, paths.len());
        answer
    }

    fn tidy(&mut self) {
        assert_eq!(Both::on(&mut self.lists, |tracker| tracker.tidy()), Ok(()));
        assert_eq!(Both::on(&mut self.single, |tracker| tracker.tidy()), Ok(()));
    }
}

#[test]
fn a_list_is_its_single_adds() {
    let longest: Vec<Address> = (0..64).map(|point| Address::new(-1, point)).collect();
    let paths: [&[Address]; 6] = [&[NODE, NINE], &[NODE], &longest, &[NODE, NODE], &[NINE], &[NODE, NINE]];
    for (window, call) in [(0, 6), (0, 2), (1, 6), (1, 3), (2, 6), (2, 1), (7, 6), (7, 2)] {
        let mut both = Both::open(window, 140);
        for part in paths.chunks(call) {
            assert_eq!(both.add(part, &places(part)), Ok(part.len() as u32), "window {}", window);
        }
        assert_eq!(both.lists.2.accepted, 6);
    }
}

/// Long enough for all that a call notes of where entries stand, with paths that are refused.
#[test]
fn long_lists_are_their_single_adds() {
    let mut random = 1_u64;
    let mut below = |limit: u64| {
        random = random.wrapping_mul(6_364_136_223_846_793_005).wrapping_add(1_442_695_040_888_963_407);
        (random >> 33) % limit
    };
    let [mut taken, mut too_long, mut full] = [0; 3];
    for (window, entries, call) in
        [(0, 400, 900), (1, 60, 1), (2, 100, 150), (40, 300, 99), (40, 2_000, 100), (1_024, 2_000, 900)]
    {
        let mut both = Both::open(window, entries);
        for round in 0..3 + 3_000 / call {
            let mut path = |_| -> Vec<Address> {
                let steps = if below(40) == 0 { below(66) } else { 1 + below(8) };
                let points = if below(3) == 0 { 40 } else { 4 };
                (0..steps).map(|_| Address::new(below(3) as i32 - 1, below(points) as u32)).collect()
            };
            let paths: Vec<Vec<Address>> = (0..call).map(&mut path).collect();
            let paths: Vec<&[Address]> = paths.iter().map(Vec::as_slice).collect();
            let (places, mut from) = (places(&paths), 0);
            while from < paths.len() {
                let answer = both.add(&paths[from..], &places[from * PLACE_BYTES..]);
                let before = answer.unwrap_or_else(|stopped| stopped.taken) as usize;
                taken += before;
                from += before + 1;
                match answer.map_err(Refusal::from) {
                    Err(Refusal::PathLength) => too_long += 1,
                    Err(Refusal::BookFull) => full += 1,
                    answer => assert_eq!(answer, Ok(before as u32)),
                }
            }
            if round % 3 == 2 {
                both.tidy();
            }
        }
    }
    assert!(taken > 10_000 && too_long > 20 && full > 1_000, "{} {} {}", taken, too_long, full);
}

#[test]
fn a_list_stops_at_the_first_refused_path() {
    let (too_long, far_too_long) = ([NODE; MAX_STEPS + 1], [NODE; 257]);
    let two: &[&[Address]] = &[&[NODE], &[NINE]];
    // Entries, paths, bytes that are left off, and what comes of it.
    type Row<'a> = (usize, &'a [&'a [Address]], usize, Result<u32, Stopped>);
    let rows: [Row; 11] = [
        (2, &[], 0, Ok(0)),
        (2, two, 0, Ok(2)),
        (2, two, 1, stopped(1, Refusal::PathLength)),
        // Its length and its step are all there.
        (2, two, PLACE_BYTES - 12, stopped(1, Refusal::PathLength)),
        (2, two, PLACE_BYTES + 1, stopped(0, Refusal::PathLength)),
        (2, &[&[NODE], &[], &[NINE]], 0, stopped(1, Refusal::PathLength)),
        (2, &[&[NODE], &too_long, &[NINE]], 0, stopped(1, Refusal::PathLength)),
        (2, &[&[NODE], &far_too_long, &[NINE]], 0, stopped(1, Refusal::PathLength)),
        (1, &[&[NODE], &[NINE], &[NODE]], 0, stopped(1, Refusal::BookFull)),
        // The first place that is refused decides, and not the lowest number.
        (1, &[&[NODE], &[NINE], &[]], 0, stopped(1, Refusal::BookFull)),
        (1, &[&[NODE], &[], &[NINE]], 0, stopped(1, Refusal::PathLength)),
    ];
    for (entries, paths, less, answer) in rows {
        let places = places(paths);
        assert_eq!(Both::open(1, entries).add(paths, &places[..places.len() - less]), answer);
    }
}

#[test]
fn a_list_ends_with_the_last_path_that_a_tracker_takes() {
    let mut both = Both::open(0, 1);
    let three: &[&[Address]] = &[&[NODE], &[NODE], &[NODE]];
    assert_eq!(both.add(three, &places(three)), Ok(3));
    (both.lists.2.accepted, both.single.2.accepted) = (16_777_214, 16_777_214);
    assert_eq!(both.add(three, &places(three)), stopped(2, Refusal::PathsFull));
    // In one place 10 comes before 11, and 11 before 12.
    assert_eq!(both.add(&[&[]], &places(&[&[]])), stopped(0, Refusal::PathLength));
    assert_eq!(both.add(&[&[NINE]], &places(&[&[NINE]])), stopped(0, Refusal::PathsFull));
}

#[test]
fn a_list_of_a_broken_form_changes_nothing() {
    let mut book = [0xff; 2 * ENTRY_BYTES];
    for state in [State { window: 1_025, ..State::default() }, State { used: 1, ..State::default() }] {
        for places in [&places(&[&[NODE]])[..], &[0], &[]] {
            let mut tracker = Tracker::resume(state, &mut book, &mut []);
            assert_eq!(tracker.add_paths(places), stopped(0, Refusal::Form));
            assert_eq!(tracker.state(), state);
        }
    }
    assert_eq!(book, [0xff; 2 * ENTRY_BYTES]);
}

#[test]
fn counts_past_their_limit_do_not_stop_a_list() {
    let mut book = [0; ENTRY_BYTES];
    let mut tracker = Tracker::open(0, &mut book, &mut []).unwrap();
    tracker.add_path(&[NODE]).unwrap();
    let state = tracker.state();
    book[20..].copy_from_slice(&(1_u32 << 30).to_le_bytes());
    let mut tracker = Tracker::resume(state, &mut book, &mut []);
    assert_eq!(tracker.add_paths(&places(&[&[NODE], &[NODE], &[NODE]])), Ok(3));
    assert_eq!(tracker.book()[20..], ((1_u32 << 30) + 3).to_le_bytes());
    assert_eq!(tracker.add_paths(&[]), stopped(0, Refusal::Form));
}
