//! Every order of a short list is tried once, in each book from one entry to one more than the list needs.

use cases::calls::Call;
use cases::exhaustive::{each_order, Ordered, Tried};
use recount::limits::ENTRY_BYTES;
use std::collections::{BTreeMap, BTreeSet};

/// A window and a capacity.
type Book = (u32, usize);

/// A list's book, and its paths in their order.
fn parts(case: &Ordered) -> (Book, Vec<Vec<u8>>) {
    let [Call::Open { window, book_len, .. }, adds @ ..] = &case.list.calls[..] else {
        panic!("{:?} has no opening", case);
    };
    assert_eq!(*book_len, ENTRY_BYTES * case.capacity);
    let path = |call: &Call| match call {
        Call::Add { path } => path.clone(),
        other => panic!("{:?} is no add", other),
    };
    ((*window, case.capacity), adds.iter().map(path).collect())
}

#[test]
fn every_order_in_every_book() {
    let mut tried_in: BTreeMap<Vec<Vec<u8>>, (usize, BTreeSet<Book>)> = BTreeMap::new();
    let tried: Result<Tried, ()> = each_order(|case| {
        let (book, order) = parts(case);
        let (least, books) = tried_in.entry(order).or_insert((case.least, BTreeSet::new()));
        assert_eq!(*least, case.least);
        assert!(books.insert(book), "{:?} is tried twice", case);
        Ok(())
    });
    let all =
        |least: usize| (0..4).flat_map(move |window| (1..=least + 1).map(move |entries| (window, entries)));
    for (order, (least, books)) in &tried_in {
        assert!(books.iter().copied().eq(all(*least)), "{:?} in {:?}", order, books);
    }
    // Of one to three paths out of 12, and of two out of 14 unless both are among the 6 shorter ones: in any
    // order, and in each.
    let (lists, orders) = (12 + 78 + 364 + (105 - 21), 12 + 12 * 12 + 12 * 12 * 12 + (14 * 14 - 6 * 6));
    let books = tried_in.values().map(|(_, books)| books.len() as u64).sum();
    assert_eq!(tried.unwrap(), Tried { lists, orders, books });
    assert_eq!(tried_in.len() as u64, orders);
}
