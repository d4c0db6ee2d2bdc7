//! What holds used entries and 12 to the least capacity, on answers that are wrong: each must be told.

use cases::baselines::Training;
use cases::calls::{Call, PriorBytes, Tables};
use cases::play::{Answer, Bytes, Player, Side};
use compare::{hold_sequences, Kept, Met, Room};
use recount::limits::{ENTRY_BYTES, MAX_STEPS, PLACE_BYTES};
use recount::{path_bytes, Address, Refusal};

const ONE: Address = Address::new(-1, 7);
const TWO: Address = Address::new(0, 3);

fn open(capacity: usize) -> Call {
    Call::Open { window: 1, book_len: ENTRY_BYTES * capacity, queue_len: PLACE_BYTES }
}

fn add(path: &[Address]) -> Call {
    Call::Add { path: path_bytes(path) }
}

fn answered(number: u32) -> Answer {
    Answer::Changed(if number == 0 { Ok(()) } else { Err(Refusal::plain(number)) })
}

/// What holds the calls, after an opening and these adds, all taken.
fn after(capacity: usize, paths: &[&[Address]]) -> (Kept, Room) {
    let (mut kept, mut room) = (Kept::default(), Room::default());
    for call in [open(capacity)].into_iter().chain(paths.iter().map(|path| add(path))) {
        kept.hear(&call, &answered(0));
        room.hear(&kept, &call, &answered(0));
    }
    (kept, room)
}

/// Whether this answer to a further call passes, with so many entries used after it.
fn passes((mut kept, mut room): (Kept, Room), call: &Call, number: u32, used: u32) -> bool {
    let answer = answered(number);
    kept.hear(call, &answer);
    room.hold(&kept, call, &answer, used, &mut Met::default()).is_ok()
}

/// (ONE, TWO) in a book of four entries, of which it uses three.
fn one_add() -> (Kept, Room) {
    after(4, &[&[ONE, TWO]])
}

#[test]
fn the_bytes_themselves() {
    let (mut kept, mut room) = (Kept::default(), Room::default());
    let mut player = Player::new(Bytes::filled(0xa5));
    let adds: [&[Address]; 5] = [&[ONE, TWO, ONE], &[TWO], &[ONE, ONE], &[TWO, ONE], &[]];
    let calls = [open(4)].into_iter().chain(adds.iter().map(|path| add(path))).chain([open(0), open(1)]);
    let mut numbers = Vec::new();
    for call in calls {
        let answer = player.play(&call);
        kept.hear(&call, &answer);
        let used = player.side.state().used;
        room.hold(&kept, &call, &answer, used, &mut Met::default())
            .expect("the bytes use the least capacity");
        numbers.push(answer.number());
    }
    assert_eq!(numbers, [0, 0, 0, 12, 0, 10, 9, 0]);
}

#[test]
fn another_number_of_entries() {
    for used in 0..6 {
        assert_eq!(passes(one_add(), &Call::KlDivStats, 0, used), used == 3, "{} entries", used);
        assert_eq!(passes(one_add(), &open(4), 0, used), used == 0, "{} entries after an opening", used);
        assert_eq!(passes(one_add(), &add(&[]), 10, used), used == 3, "{} entries after a 10", used);
    }
}

/// The path back brings one entry, and fills the book.
#[test]
fn room_for_the_last_entry() {
    let back = add(&[TWO, ONE]);
    assert!(passes(one_add(), &back, 0, 4));
    assert!(!passes(one_add(), &back, 12, 3), "12 where the capacity is reached");
    assert!(!passes(one_add(), &back, 0, 3), "a pair without an order");
    let room_for_three = || after(3, &[&[ONE, TWO]]);
    assert!(passes(room_for_three(), &back, 12, 3));
    assert!(!passes(room_for_three(), &back, 0, 4), "taken in one entry too few");
    assert!(!passes(room_for_three(), &back, 9, 3) && !passes(room_for_three(), &back, 11, 3));
}

/// By its length the path needs 127 entries, and brings none.
#[test]
fn room_for_what_is_listed() {
    let steps: Vec<Address> = [ONE, TWO].into_iter().cycle().take(MAX_STEPS).collect();
    let full = || after(4, &[&[ONE, TWO, ONE]]);
    assert!(passes(full(), &add(&steps), 0, 4));
    assert!(!passes(full(), &add(&steps), 12, 4));
}

/// ONE is in mid-path alone.
#[test]
fn an_ending_that_no_path_has() {
    assert!(passes(after(5, &[]), &add(&[TWO, ONE, TWO]), 0, 4));
    assert!(!passes(after(5, &[]), &add(&[TWO, ONE, TWO]), 0, 3));
}

/// (ONE, TWO) has left the window of a book of three entries, TWO is in it, and both took all three.
fn before_a_tidy() -> (Kept, Room) {
    after(3, &[&[ONE, TWO], &[TWO]])
}

fn tidied((mut kept, mut room): (Kept, Room)) -> (Kept, Room) {
    kept.hear(&Call::Tidy, &answered(0));
    room.hear(&kept, &Call::Tidy, &answered(0));
    (kept, room)
}

/// Shuts out a tidy that keeps too much or too little, and 12 by what it dropped.
#[test]
fn room_after_a_tidy() {
    let back = add(&[TWO, ONE]);
    assert!(passes(before_a_tidy(), &back, 12, 3) && !passes(before_a_tidy(), &back, 0, 4));
    for used in 0..4 {
        assert_eq!(passes(before_a_tidy(), &Call::Tidy, 0, used), used == 1, "{} entries", used);
        assert_eq!(passes(tidied(before_a_tidy()), &Call::Tidy, 0, used), used == 1, "{} entries", used);
    }
    assert!(passes(tidied(before_a_tidy()), &back, 0, 3));
    assert!(!passes(tidied(before_a_tidy()), &back, 12, 1), "12 by what was listed before");
    let twice = add(&[ONE, TWO, ONE]);
    assert!(passes(tidied(before_a_tidy()), &twice, 12, 1) && !passes(tidied(before_a_tidy()), &twice, 0, 4));
}

/// Shuts out 12 by the window part alone: TWO has left since the tidy and keeps its entry, so that one is
/// free where two are needed.
#[test]
fn room_for_what_leaves_after_a_tidy() {
    let (mut kept, mut room) = tidied(before_a_tidy());
    kept.hear(&add(&[ONE]), &answered(0));
    room.hear(&kept, &add(&[ONE]), &answered(0));
    let three = Address::new(0, 7);
    assert!(passes((kept, room), &add(&[ONE, three]), 12, 2));
}

/// A path that is not whole is another number's matter.
#[test]
fn paths_that_are_not_whole() {
    let long = vec![ONE; MAX_STEPS + 1];
    let cut = Call::Add { path: path_bytes(&[ONE, TWO])[..15].to_vec() };
    for call in [add(&[]), add(&long), cut] {
        assert!(passes(one_add(), &call, 10, 3) && !passes(one_add(), &call, 10, 4), "{:?}", call);
    }
}

/// Sequences of one path each: (ONE, TWO), which needs three entries, and (ONE, ONE), which needs two. Both
/// after one opening would need four.
fn training(capacity: usize) -> Training {
    let place = |path: [Address; 2]| {
        let mut place = [&2_u32.to_le_bytes()[..], &path_bytes(&path)].concat();
        place.resize(PLACE_BYTES, 0);
        place
    };
    Training {
        tables: Tables::default(),
        priors: PriorBytes::default(),
        book: vec![0; ENTRY_BYTES * capacity],
        sequences: 2,
        paths: 1,
        rate: 1,
        places: [place([ONE, TWO]), place([ONE, ONE])].concat(),
        knots: Vec::new(),
        values: Vec::new(),
    }
}

#[test]
fn the_sequence_that_needs_most() {
    let comes_to = |capacity: usize, number: u32| {
        let answer = if number == 0 { Ok(1) } else { Err(Refusal::plain(number)) };
        hold_sequences(&training(capacity), answer, &mut Met::default()).is_ok()
    };
    for capacity in 1..6 {
        assert_eq!(comes_to(capacity, 0), capacity >= 3, "finished in {} entries", capacity);
        assert_eq!(comes_to(capacity, 12), capacity < 3, "stopped by 12 in {} entries", capacity);
        assert!(comes_to(capacity, 14), "another number says nothing about the book");
    }
}
