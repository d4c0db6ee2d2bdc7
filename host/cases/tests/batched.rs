//! Every short list is tried with its paths added at once, in every split and with every way in which such an
//! add ends, once in each book; and random lists have such adds just where their shape asks for them.

use cases::calls::Call;
use cases::exhaustive::each_batched;
use cases::lists::{call_list, Shape};
use cases::paths::{lent_places, place, place_path, BAD_LENGTHS, CUTS};
use cases::rng::Rng;
use recount::limits::PLACE_BYTES;
use std::collections::BTreeSet;

/// The batches of a list, each by the bytes of its places.
fn batches(calls: &[Call]) -> Vec<Vec<u8>> {
    let places = |call: &Call| match call {
        Call::AddPaths { places } => places.clone(),
        other => panic!("{:?} is no batch", other),
    };
    calls[1..].iter().map(places).collect()
}

#[test]
fn every_split_and_every_end_in_every_book() {
    let (mut lists, mut ways) = (BTreeSet::new(), BTreeSet::new());
    let tried: Result<u64, ()> = each_batched(|list| {
        assert!(lists.insert(format!("{:?}", list)), "{:?} is tried twice", list);
        ways.insert(batches(&list.calls));
        Ok(())
    });
    assert_eq!(tried.unwrap(), lists.len() as u64);
    // Of one, two and three paths out of six, in 1, 2 and 4 splits; and of one or two of them with each length
    // at each place, with a cut-off place behind that or without, and with each cut-off place alone.
    let splits = 6 + 36 * 2 + 216 * 4;
    let ended = |paths: usize| 2 * BAD_LENGTHS.len() * (paths + 1) + CUTS.len();
    assert_eq!(ways.len(), splits + 6 * ended(1) + 36 * ended(2));
}

#[test]
fn random_lists_with_batches_and_without() {
    let batched = |shape: &Shape| {
        let made = (0..200).map(|seed| call_list(&mut Rng::new(seed), shape));
        made.filter(|list| list.calls.iter().any(|call| matches!(call, Call::AddPaths { .. }))).count()
    };
    assert_eq!((batched(&Shape::small()), batched(&Shape::tidied())), (0, 0));
    assert!(batched(&Shape::batched(0)) > 150 && batched(&Shape::batched(30)) > 150);
}

/// What a place holds, and what it does not.
#[test]
fn paths_of_places() {
    let steps: Vec<u8> = (0..=255).chain(0..=255).collect();
    for length in 0..=64 {
        let whole = place(length, &steps, 0x3c);
        assert_eq!(place_path(&whole), &steps[..8 * length as usize]);
        assert!(CUTS.iter().all(|left| place_path(&whole[..*left]).is_empty()));
    }
    assert!(BAD_LENGTHS.iter().all(|length| place_path(&place(*length, &steps, 0)).is_empty()));
    // The longest path is one of 64 steps; one of 65 and one that is no whole number of them are none.
    let paths = [512, 520, 9].map(|length| vec![1; length]);
    let lent = lent_places(&mut Rng::new(1), &paths, 0);
    let held: Vec<usize> = lent.chunks(PLACE_BYTES).map(|place| place_path(place).len()).collect();
    assert_eq!(held, [512, 0, 0]);
}
