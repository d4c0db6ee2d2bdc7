//! The look-up of a child: its count, and how many records of the chain are read, by the rows of
//! document 02's reading; under a floor; and what is refused.

use recount::limits::MAX_CHAIN;
use recount::*;

const MIN: i32 = i32::MIN;
const MAX: i32 = i32::MAX;

/// The node of the chains here, and one that has no children.
const NODE: Address = Address::new(1, 7);
const BARE: Address = Address::new(2, 7);

/// A chain's child records, numbered on from `first`; counts are 10, 20, 30 and so on.
fn chain(first: u32, children: &[Address]) -> Vec<u8> {
    let last = children.len();
    let record = |(index, child): (usize, &Address)| {
        let own = first + index as u32;
        let next = if index + 1 < last { own + 1 } else { 0 };
        record_bytes(*child, 10 * (index as u32 + 1), next)
    };
    children.iter().enumerate().flat_map(record).collect()
}

/// What a look-up tells, as count and number read, of `NODE` with these children; `BARE` has a
/// record, too.
fn told(children: &[Address], node: Address, child: Address) -> (Option<u32>, u32) {
    let first = u32::from(!children.is_empty());
    let nodes = [record_bytes(NODE, 1, first), record_bytes(BARE, 1, 0)].concat();
    let lent = LentPriors { nodes: &nodes, children: &chain(1, children), floor: MIN };
    let ChildLookup { count, read } = recount::child(lent, node, child).unwrap();
    (count, read)
}

fn at(points: &[u32]) -> Vec<Address> {
    points.iter().map(|point| Address::new(0, *point)).collect()
}

#[test]
fn each_row_of_the_table() {
    let children = at(&[2, 4, 6]);
    let asked = |point: u32| told(&children, NODE, Address::new(0, point));
    assert_eq!(told(&[], NODE, NODE), (None, 0), "an empty chain");
    assert_eq!((asked(0), asked(1)), ((None, 1), (None, 1)), "before the first");
    assert_eq!((asked(2), asked(4), asked(6)), ((Some(10), 1), (Some(20), 2), (Some(30), 3)), "at place p");
    assert_eq!((asked(3), asked(5)), ((None, 2), (None, 3)), "between p - 1 and p");
    assert_eq!((asked(7), asked(u32::MAX)), ((None, 3), (None, 3)), "past the last");
}

#[test]
fn a_chain_of_one() {
    let children = at(&[5]);
    let asked = |point: u32| told(&children, NODE, Address::new(0, point));
    assert_eq!((asked(4), asked(5), asked(6)), ((None, 1), (Some(10), 1), (None, 1)));
}

#[test]
fn without_a_prior_nothing_is_read() {
    let children = at(&[2, 4]);
    for child in [1, 2, 4, 9] {
        let child = Address::new(0, child);
        assert_eq!(told(&children, Address::new(1, 8), child), (None, 0), "no record");
        assert_eq!(told(&children, BARE, child), (None, 0), "a record without children");
    }
}

#[test]
fn sixty_four_children() {
    let points: Vec<u32> = (0..MAX_CHAIN as u32).map(|place| 2 * place + 1).collect();
    let children = at(&points);
    for place in 0..MAX_CHAIN as u32 {
        let asked = |point: u32| told(&children, NODE, Address::new(0, point));
        assert_eq!(asked(2 * place + 1), (Some(10 * (place + 1)), place + 1), "at place {}", place);
        assert_eq!(asked(2 * place), (None, place + 1), "before place {}", place);
    }
    for past in [Address::new(0, 128), Address::new(1, 0), Address::new(MAX, u32::MAX)] {
        assert_eq!(told(&children, NODE, past), (None, 64));
    }
    for before in [Address::new(MIN, 0), Address::new(-1, u32::MAX)] {
        assert_eq!(told(&children, NODE, before), (None, 1), "scales are signed");
    }
}

#[test]
fn scales_come_first_and_are_signed() {
    let children = [(MIN, 9), (-1, 5), (0, 3), (MAX, 0)].map(|(scale, point)| Address::new(scale, point));
    let asked = |scale: i32, point: u32| told(&children, NODE, Address::new(scale, point));
    assert_eq!((asked(MIN, 8), asked(MIN, 9), asked(MIN, 10)), ((None, 1), (Some(10), 1), (None, 2)));
    assert_eq!((asked(-1, 9), asked(0, 0), asked(1, 5)), ((None, 3), (None, 3), (None, 4)));
    assert_eq!((asked(MAX, 0), asked(MAX, 1)), ((Some(40), 4), (None, 4)));
}

#[test]
fn a_shared_tail_is_read_as_part_of_its_chain() {
    let children = chain(1, &at(&[2, 4, 6]));
    let nodes = [record_bytes(NODE, 1, 1), record_bytes(BARE, 1, 3)].concat();
    let lent = LentPriors { nodes: &nodes, children: &children, floor: MIN };
    let asked = |node: Address| recount::child(lent, node, Address::new(0, 6)).unwrap();
    assert_eq!(asked(NODE), ChildLookup { count: Some(30), read: 3 });
    assert_eq!(asked(BARE), ChildLookup { count: Some(30), read: 1 });
}

#[test]
fn below_a_floor_the_node_goes_by_point_and_the_child_does_not() {
    let (record, children) = (Address::new(-3, 7), [Address::new(-5, 4), Address::new(-3, 4)]);
    let (nodes, children) = (record_bytes(record, 1, 1), chain(1, &children));
    let asked = |floor: i32, node: i32, child: i32| {
        let lent = LentPriors { nodes: &nodes, children: &children, floor };
        let told = recount::child(lent, Address::new(node, 7), Address::new(child, 4)).unwrap();
        (told.count, told.read)
    };
    for node in [MIN, -9, -3, -1] {
        assert_eq!((asked(0, node, -5), asked(0, node, -3)), ((Some(10), 1), (Some(20), 2)));
        assert_eq!(asked(0, node, -6), (None, 1), "below the floor, with the point of both");
        assert_eq!((asked(0, node, -4), asked(0, node, -1)), ((None, 2), (None, 2)));
    }
    assert_eq!(asked(0, 0, -5), (None, 0), "at the floor the record is not found");
    assert_eq!((asked(MIN, -3, -5), asked(MIN, -1, -5)), ((Some(10), 1), (None, 0)), "no floor");
}

#[test]
fn refused_whatever_is_asked() {
    let (node, child) = (record_bytes(NODE, 1, 1), record_bytes(BARE, 1, 0));
    let unordered = [record_bytes(BARE, 1, 2), record_bytes(NODE, 1, 0)].concat();
    let one_point = [record_bytes(NODE, 1, 1), record_bytes(BARE, 1, 0)].concat();
    let cases: [(u32, &[u8], &[u8], i32); 8] = [
        (3, &node[1..], &child, MIN),
        (3, &node, &child[1..], MIN),
        (4, &[&node[..], &node].concat(), &child, MIN),
        (5, &node, &[], MIN),
        (6, &node, &unordered, MIN),
        (7, &node, &record_bytes(BARE, 0, 0), MIN),
        (22, &one_point, &child, 3),
        (0, &one_point, &child, 2),
    ];
    for (number, nodes, children, floor) in cases {
        for asked in [(NODE, BARE), (BARE, BARE), (Address::new(9, 9), NODE)] {
            let told = recount::child(LentPriors { nodes, children, floor }, asked.0, asked.1);
            assert_eq!(told.err().map_or(0, |refusal| refusal.number), number, "{:?}", asked);
        }
    }
}
