//! Adds of several paths, worked by hand: in a list of calls, where they are single adds up to the first that is
//! refused, and on memory that others wrote, where the form is tested once.

mod both;

use both::Both;
use recount::limits::*;
use recount::*;

const A: Address = Address::new(-1, 7);
const B: Address = Address::new(0, 3);

/// A queue place with other bytes than 0 behind its steps.
fn place(length: u32, path: &[Address]) -> Vec<u8> {
    let mut place = [&length.to_le_bytes()[..], &path_bytes(path)].concat();
    place.resize(PLACE_BYTES, 0x3c);
    place
}

/// The places of these paths.
fn places(paths: &[&[Address]]) -> Vec<u8> {
    paths.iter().flat_map(|path| place(path.len() as u32, path)).collect()
}

impl Both {
    /// How many paths are taken, and the refusal's number, 0 where it is none.
    fn add_all(&mut self, places: &[u8]) -> (u32, u32) {
        let batch = memory::add_paths(&mut self.state, &mut self.book, &mut self.queue, places);
        assert_eq!(self.history.add_paths(places), batch);
        self.must_agree();
        (batch.taken, batch.refusal.map_or(0, |refusal| refusal.number))
    }
}

/// Shuts out one that goes on after a refusal, one that puts back what it took, and one that counts the refused
/// path: A lies behind B, for which there is no room.
#[test]
fn the_first_refused_ends_it() {
    let mut both = Both::open(0, 1);
    assert_eq!(both.add_all(&places(&[&[A], &[B], &[A]])), (1, 12));
    assert_eq!(both.state, State { window: 0, used: 1, accepted: 1 });
    assert_eq!(both.add_all(&places(&[&[B], &[A]])), (0, 12));
    assert_eq!(both.add_all(&[place(0, &[]), places(&[&[A]])].concat()), (0, 10));
    assert_eq!((both.state.accepted, both.add_all(&places(&[&[A], &[A]]))), (1, (2, 0)));
}

/// Shuts out a test of the whole length before the first add, and a place that counts as whole since its length
/// and steps are there.
#[test]
fn every_cut() {
    for left in 1..PLACE_BYTES {
        let cut = &place(1, &[A])[..left];
        assert_eq!(Both::open(1, 9).add_all(cut), (0, 10), "{} bytes", left);
        let mut both = Both::open(1, 9);
        assert_eq!(both.add_all(&[&places(&[&[A], &[B]]), cut].concat()), (2, 10), "{} bytes", left);
        assert_eq!(both.state.accepted, 2);
    }
}

#[test]
fn every_length() {
    for length in (0..=70).chain([0x100, 0x101, 0x1_0001, 0x2000_0001, 0x8000_0001, u32::MAX]) {
        let taken = u32::from((1..=64).contains(&length));
        let batch = [places(&[&[B]]), place(length, &[A; MAX_STEPS])].concat();
        let number = if taken == 1 { 0 } else { 10 };
        assert_eq!(Both::open(0, 9).add_all(&batch), (1 + taken, number), "{} steps", length);
    }
}

/// Shuts out a place copied whole.
#[test]
fn bytes_behind_the_steps() {
    let mut both = Both::open(2, 9);
    assert_eq!(both.add_all(&places(&[&[A], &[A, B, A], &[B]])), (3, 0));
    let (first, second) = both.queue.split_at(PLACE_BYTES);
    assert_eq!((&first[4..12], &first[12..]), (&B.bytes()[..], &[0; PLACE_BYTES - 12][..]));
    assert!(second[28..].iter().all(|byte| *byte == 0));
}

/// No places: done, or 9.
#[test]
fn no_places() {
    let mut both = Both::open(1, 9).after(&[&[A]]);
    assert_eq!(both.add_all(&[]), (0, 0));
    let used = |used: u32| {
        let (mut book, mut state) = (vec![0; ENTRY_BYTES], State { window: 0, used, accepted: 0 });
        memory::add_paths(&mut state, &mut book, &mut [], &[])
    };
    assert_eq!(used(0), Batch { taken: 0, refusal: None });
    assert_eq!(used(2), Batch { taken: 0, refusal: Some(Refusal::plain(9)) });
}

/// What a tidy drops makes room, and paths of the batch itself leave the window before later ones are added.
#[test]
fn after_a_tidy() {
    let mut both = Both::open(1, 2);
    let batch = places(&[&[A], &[B], &[B, B]]);
    assert_eq!(both.add_all(&batch), (2, 12));
    let mut both = both.tidied();
    assert_eq!(both.state, State { window: 1, used: 1, accepted: 2 });
    assert_eq!((both.add_all(&batch[2 * PLACE_BYTES..]), both.state.used), ((1, 0), 2));
    assert_eq!(both.add_all(&batch), (0, 12));
}

/// In any split into batches, and in a mix of these with single adds, a list comes to the same.
#[test]
fn any_split() {
    let paths: [&[Address]; 5] = [&[A, B], &[B, B], &[A], &[B, A, B], &[A, A]];
    for (window, cuts) in (0..4).flat_map(|window| (0..16_u32).map(move |cuts| (window, cuts))) {
        let singly = Both::open(window, 9).after(&paths);
        let (mut split, mut mixed) = (Both::open(window, 9), Both::open(window, 9));
        let mut first = 0;
        for last in (0..5).filter(|last| *last == 4 || cuts >> last & 1 == 1) {
            let batch = &paths[first..=last];
            assert_eq!(split.add_all(&places(batch)), (batch.len() as u32, 0));
            mixed = match batch {
                [path] => mixed.after(&[path]),
                batch => {
                    mixed.add_all(&places(batch));
                    mixed
                }
            };
            first = last + 1;
        }
        for other in [split, mixed] {
            assert_eq!((other.state, &other.book, &other.queue), (singly.state, &singly.book, &singly.queue));
        }
    }
}

/// What a batch of A, so many times, comes to where A's ending has this count: how many are taken, the number,
/// and the count then.
fn of_a(times: usize, count: u32, state: State) -> (u32, u32, u32) {
    let (mut state, mut book) = (state, entry_bytes(A, None, count).to_vec());
    let mut queue = place(1, &[A]).repeat(state.window as usize);
    let before = (state, book.clone(), queue.clone());
    let batch = memory::add_paths(&mut state, &mut book, &mut queue, &place(1, &[A]).repeat(times));
    assert_eq!(state.accepted, before.0.accepted + batch.taken);
    if batch.taken == 0 {
        assert_eq!((state, &book, &queue), (before.0, &before.1, &before.2));
    }
    let next = memory::add_paths(&mut state, &mut book, &mut queue, &[]).refusal;
    assert_eq!(next.is_some(), word(&book, 5) > MAX_COUNT || state.accepted > MAX_ACCEPTED);
    (batch.taken, batch.refusal.map_or(0, |refusal| refusal.number), word(&book, 5))
}

/// Shuts out a form test at every path: counts past 2^30 get 9 from the next call, not from this one.
#[test]
fn counts_past_the_greatest() {
    let state = State { window: 0, used: 1, accepted: 3 };
    assert_eq!(of_a(3, MAX_COUNT - 1, state), (3, 0, MAX_COUNT + 2));
    assert_eq!(of_a(1, MAX_COUNT - 1, state), (1, 0, MAX_COUNT));
    assert_eq!(of_a(3, MAX_COUNT, state), (3, 0, MAX_COUNT + 3));
    assert_eq!(of_a(3, MAX_COUNT + 1, state), (0, 9, MAX_COUNT + 1));
    // With each path one leaves.
    assert_eq!(of_a(3, MAX_COUNT, State { window: 1, ..state }), (3, 0, MAX_COUNT));
    // Two come in before one leaves.
    assert_eq!(of_a(3, MAX_COUNT, State { window: 2, accepted: 0, ..state }), (3, 0, MAX_COUNT + 2));
}

/// 11 by the paths that the batch itself took.
#[test]
fn as_many_paths_as_can_be() {
    for left in 0..4 {
        let state = State { window: 1, used: 1, accepted: MAX_ACCEPTED - left };
        let expected = if left == 3 { (3, 0, 7) } else { (left, 11, 7) };
        assert_eq!(of_a(3, 7, state), expected);
    }
    let past = State { window: 1, used: 1, accepted: MAX_ACCEPTED + 1 };
    assert_eq!((of_a(3, 7, past), of_a(0, 7, past)), ((0, 9, 7), (0, 9, 7)));
}
