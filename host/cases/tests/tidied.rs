//! Every short list is tried with tidies at every choice of places, once in each book; and random lists have
//! tidies just where their shape asks for them.

use cases::calls::Call;
use cases::exhaustive::each_tidied;
use cases::lists::{call_list, Shape};
use cases::rng::Rng;
use std::collections::{BTreeMap, BTreeSet};

/// The calls that are no tidies, and which of the adds a tidy follows.
fn parts(calls: &[Call]) -> (Vec<String>, Vec<bool>) {
    let (mut others, mut tidied) = (Vec::new(), Vec::new());
    for call in calls {
        match (call, tidied.last_mut()) {
            (Call::Tidy, Some(last)) => *last = true,
            (Call::Tidy, None) => panic!("a tidy without an add before it"),
            (other, _) => {
                others.push(format!("{:?}", other));
                tidied.extend(matches!(other, Call::Add { .. }).then_some(false));
            }
        }
    }
    (others, tidied)
}

#[test]
fn every_choice_of_places_in_every_book() {
    let mut tried_with: BTreeMap<Vec<String>, BTreeSet<Vec<bool>>> = BTreeMap::new();
    let tried: Result<u64, ()> = each_tidied(|list| {
        let (others, tidied) = parts(&list.calls);
        assert!(tidied.contains(&true), "{:?} has no tidy", list);
        assert!(tried_with.entry(others).or_default().insert(tidied), "{:?} is tried twice", list);
        Ok(())
    });
    for (others, choices) in &tried_with {
        let adds = others.len() - 1;
        assert_eq!(choices.len(), (1 << adds) - 1, "{:?}", others);
    }
    let paths: BTreeSet<&[String]> = tried_with.keys().map(|others| &others[1..]).collect();
    assert_eq!(paths.len(), 6 + 6 * 6 + 6 * 6 * 6);
    assert_eq!(tried.unwrap(), tried_with.values().map(|choices| choices.len() as u64).sum());
}

#[test]
fn random_lists_with_tidies_and_without() {
    let tidies = |shape: &Shape| {
        let made = (0..200).map(|seed| call_list(&mut Rng::new(seed), shape));
        made.filter(|list| list.calls.iter().any(|call| matches!(call, Call::Tidy))).count()
    };
    assert_eq!(tidies(&Shape::small()), 0);
    assert!(tidies(&Shape::tidied()) > 150);
}
