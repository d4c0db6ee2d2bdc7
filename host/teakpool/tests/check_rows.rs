//! The kit's check rows, through the archive, with the feature `std` and without. G(k) = k × k and D(k) = 4k up to
//! index 7; the prior of (1,7) has singleton 1 and children (0,7) with 2 and (0,9) with 3; the
//! window is 1.

use teakpool::*;

const NODE: Address = Address::new(1, 7);
const SEVEN: Address = Address::new(0, 7);
const NINE: Address = Address::new(0, 9);

struct Kit {
    g: Vec<f64>,
    d: Vec<f64>,
    nodes: [u8; RECORD_BYTES],
    children: Vec<u8>,
}

impl Kit {
    fn up_to(last: u32) -> Kit {
        Kit {
            g: (0..=last).map(|k| f64::from(k * k)).collect(),
            d: (0..=last).map(|k| f64::from(4 * k)).collect(),
            nodes: record_bytes(NODE, 1, 1),
            children: [record_bytes(SEVEN, 2, 2), record_bytes(NINE, 3, 0)].concat(),
        }
    }
    fn tables(&self) -> Tables<'_> {
        Tables::new(&self.g, &self.d)
    }
    fn priors(&self) -> Priors<'_> {
        Priors::new(&self.nodes, &self.children)
    }
}

/// Calls `ask` on a tracker with a book of `entries` and these paths added.
fn after<T>(entries: usize, paths: &[&[Address]], ask: impl FnOnce(&Tracker) -> T) -> Result<T, Refusal> {
    let (mut book, mut queue) = (vec![0xff; ENTRY_BYTES * entries], [0xff; PLACE_BYTES]);
    let mut tracker = Tracker::open(1, &mut book, &mut queue)?;
    for path in paths {
        tracker.add_path(path)?;
    }
    Ok(ask(&tracker))
}

const FIRST: &[&[Address]] = &[&[NODE, NINE]];
const SECOND: &[&[Address]] = &[&[NODE, NINE], &[NODE]];

#[test]
fn the_first_add() {
    let kit = Kit::up_to(7);
    let (mut addresses, mut figures) = ([0; 16], [-1.0; 2]);
    let mut output = Output { addresses: &mut addresses, figures: &mut figures };
    let ask = |tracker: &Tracker| {
        let list = tracker.all_node_kl(kit.tables(), kit.priors(), &mut output).unwrap();
        (list, tracker.kl_div_stats(kit.tables(), kit.priors()).unwrap())
    };
    let (list, stats) = after(8, FIRST, ask).unwrap();
    assert_eq!(list, NodeKlList { places: 1, skipped: 1 });
    assert_eq!(output.places(1).collect::<Vec<_>>(), [(NODE, 6.0)]);
    assert_eq!(figures, [6.0, -1.0]);
    assert_eq!((stats.maximum, stats.minimum, stats.number), (6.0, 6.0, 1));
    assert_eq!((stats.sum, stats.sum_of_squares, stats.skipped), (6.0, 36.0, 1));
}

#[test]
fn the_second_add() {
    let kit = Kit::up_to(7);
    let ask = |tracker: &Tracker| {
        let ending_and_child = [tracker.book()[3 * 24 - 4 - 24], tracker.book()[3 * 24 - 4]];
        let stats = tracker.kl_div_stats(kit.tables(), kit.priors()).unwrap();
        let divergence = tracker.posterior_kl_divergence(kit.tables(), kit.priors(), NODE);
        (ending_and_child, divergence, stats.sequence_length)
    };
    // (0,9) comes first, then the ending of (1,7) and its child, which stays with 0.
    assert_eq!(after(8, SECOND, ask), Ok(([1, 0], Ok(Some(10.0)), 1)));
}

#[test]
fn the_second_add_tidied() {
    let kit = Kit::up_to(7);
    let (mut book, mut queue) = ([0xff; 8 * ENTRY_BYTES], [0xff; PLACE_BYTES]);
    let mut tracker = Tracker::open(1, &mut book, &mut queue).unwrap();
    SECOND.iter().for_each(|path| tracker.add_path(path).unwrap());
    let (mut addresses, mut figures) = ([0; 16], [0.0; 2]);
    let mut output = Output { addresses: &mut addresses, figures: &mut figures };
    let mut read = |tracker: &Tracker| {
        let list = tracker.all_node_kl(kit.tables(), kit.priors(), &mut output).unwrap();
        let stats = tracker.kl_div_stats(kit.tables(), kit.priors()).unwrap();
        let vector = tracker.prob_vector(kit.priors(), NODE, &mut output).unwrap();
        let evidence = tracker.evidence_prob_vector(NODE, &mut output).unwrap();
        let divergence = tracker.posterior_kl_divergence(kit.tables(), kit.priors(), NODE);
        assert_eq!((divergence, stats.sum, stats.sequence_length), (Ok(Some(10.0)), 10.0, 1));
        assert_eq!(vector, Some(ProbVector { places: 2, ending: 2.0 / 7.0 }));
        (list.skipped, stats.skipped, evidence)
    };
    assert_eq!(read(&tracker), (1, 1, Some(ProbVector { places: 1, ending: 1.0 })));
    let kept_queue = tracker.queue().to_vec();
    for _ in 0..2 {
        assert_eq!(tracker.tidy(), Ok(()));
        assert_eq!(tracker.state(), State { window: 1, used: 1, accepted: 2 });
        // The ending of (1,7) with its count of 1, and zeros.
        let ending = [&NODE.bytes()[..], &[0; 12], &[1, 0, 0, 0]].concat();
        assert_eq!((&tracker.book()[..ENTRY_BYTES], tracker.queue()), (&ending[..], &kept_queue[..]));
        assert!(tracker.book()[ENTRY_BYTES..].iter().all(|byte| *byte == 0));
        assert_eq!(read(&tracker), (0, 0, Some(ProbVector { places: 0, ending: 1.0 })));
    }
}

#[test]
fn a_tidy_makes_room_where_a_path_has_left() {
    // Window, and the answer to a third path when the book of five entries is tidied before it.
    for (window, used, answer) in
        [(0, 5, Err(Refusal::BookFull)), (1, 3, Ok(())), (2, 5, Err(Refusal::BookFull))]
    {
        let (mut book, mut queue) = ([0; 5 * ENTRY_BYTES], [0; 2 * PLACE_BYTES]);
        let mut tracker = Tracker::open(window, &mut book, &mut queue).unwrap();
        [NINE, SEVEN].iter().for_each(|child| tracker.add_path(&[NODE, *child]).unwrap());
        let third = [NODE, Address::new(0, 8)];
        assert_eq!(tracker.add_path(&third), Err(Refusal::BookFull));
        assert_eq!((tracker.tidy(), tracker.state()), (Ok(()), State { window, used, accepted: 2 }));
        assert_eq!(tracker.add_path(&third), answer, "window {}", window);
    }
}

#[test]
fn a_tidy_forgets_a_transition_that_has_left() {
    let kit = Kit::up_to(7);
    let (mut book, mut queue) = ([0; 8 * ENTRY_BYTES], [0; PLACE_BYTES]);
    let mut tracker = Tracker::open(1, &mut book, &mut queue).unwrap();
    let read = |tracker: &Tracker| tracker.kl_div_stats(kit.tables(), kit.priors()).map(|stats| stats.sum);
    let unseen = Err(Refusal::MissingChild(NODE));
    tracker.add_path(&[NODE, Address::new(0, 8)]).unwrap();
    tracker.tidy().unwrap();
    assert_eq!(read(&tracker), unseen);
    tracker.add_path(&[NODE]).unwrap();
    assert_eq!(read(&tracker), unseen);
    tracker.tidy().unwrap();
    assert_eq!(read(&tracker), Ok(10.0));
}

#[test]
fn a_tidy_of_a_broken_form_changes_nothing() {
    let mut book = [0xff; 2 * ENTRY_BYTES];
    for state in [State { window: 1_025, ..State::default() }, State { used: 1, ..State::default() }] {
        let mut tracker = Tracker::resume(state, &mut book, &mut []);
        assert_eq!(tracker.tidy(), Err(Refusal::Form));
        assert_eq!(tracker.state(), state);
    }
    assert_eq!(book, [0xff; 2 * ENTRY_BYTES]);
    // With the form, bytes past the used entries become zero, whoever wrote them.
    assert_eq!(Tracker::resume(State::default(), &mut book, &mut []).tidy(), Ok(()));
    assert_eq!(book, [0; 2 * ENTRY_BYTES]);
}

#[test]
fn the_probabilities() {
    let kit = Kit::up_to(7);
    let (mut addresses, mut figures) = ([0; 16], [0.0; 2]);
    let mut output = Output { addresses: &mut addresses, figures: &mut figures };
    let ask = |tracker: &Tracker| {
        let vector = tracker.prob_vector(kit.priors(), NODE, &mut output);
        (vector, tracker.evidence_prob_vector(NINE, &mut output))
    };
    let vector = ProbVector { places: 2, ending: 2.0 / 7.0 };
    assert_eq!(after(8, SECOND, ask), Ok((Ok(Some(vector)), Ok(None))));
    assert_eq!(output.places(2).collect::<Vec<_>>(), [(SEVEN, 2.0 / 7.0), (NINE, 3.0 / 7.0)]);
}

#[test]
fn tables_that_end_at_6() {
    let kit = Kit::up_to(6);
    let ask = |tracker: &Tracker| tracker.kl_div_stats(kit.tables(), kit.priors());
    assert_eq!(after(8, SECOND, ask), Ok(Err(Refusal::PastTable(NODE))));
}

#[test]
fn a_book_of_two_entries() {
    assert_eq!(after(2, FIRST, |_| ()), Err(Refusal::BookFull));
    assert_eq!(after(3, FIRST, |_| ()), Ok(()));
}

/// Ten values a knot of two sequences whose maxima are `first` and `second`.
fn maxima(first: f64, second: f64) -> Vec<f64> {
    let mut values = vec![0.0; KNOT_VALUES];
    values[..2].copy_from_slice(&[first + second, first * first + second * second]);
    values
}

#[test]
fn two_sequences() {
    let baseline = Baseline { s: 2, knots: &[1], values: &maxima(6.0, 10.0) };
    assert_eq!(baseline.stats(1).unwrap().maximum, MeanVariance { mean: 8.0, variance: 4.0 });
    assert_eq!(baseline.stats(2), Err(Refusal::OneKnot));
}

#[test]
fn means_between_and_past_knots() {
    let values = [maxima(6.0, 10.0), maxima(10.0, 10.0)].concat();
    let baseline = Baseline { s: 2, knots: &[1, 11], values: &values };
    let mean = |length: u32| baseline.stats(length).unwrap().maximum.mean;
    assert_eq!([mean(6), mean(21), mean(0)].map(f64::to_bits), [9.0, 12.0, 0.0_f64].map(f64::to_bits));
}

/// A baseline's mean of the maxima as bits: two knots, with these sums of one sequence.
fn mean_bits(sums: [f64; 2], length: u32) -> u64 {
    let knot = |sum: f64| [vec![sum], vec![0.0; KNOT_VALUES - 1]].concat();
    let baseline = Baseline { s: 1, knots: &[1, 5], values: &sums.map(knot).concat() };
    baseline.stats(length).unwrap().maximum.mean.to_bits()
}

#[test]
fn the_sign_of_zero_in_a_baseline() {
    let next_below = -f64::from_bits(1);
    assert_eq!(mean_bits([-0.0, next_below], 1), (-0.0_f64).to_bits());
    assert_eq!(mean_bits([-0.0, next_below], 2), (-0.0_f64).to_bits());
    for length in [0, 2, 9] {
        assert_eq!(mean_bits([-0.0, -0.0], length), 0, "length {}", length);
    }
}

#[test]
fn path_lengths_and_windows() {
    let longest = vec![NODE; 65];
    for (count, answer) in
        [(0, Err(Refusal::PathLength)), (1, Ok(())), (64, Ok(())), (65, Err(Refusal::PathLength))]
    {
        assert_eq!(after(8, &[&longest[..count]], |_| ()), answer, "{} steps", count);
    }
    // The form comes first, also where a path is too long.
    let broken = State { window: 1_025, ..State::default() };
    let answer = Tracker::resume(broken, &mut [0; ENTRY_BYTES], &mut []).add_path(&longest);
    assert_eq!(answer, Err(Refusal::Form));
    let mut queue = vec![0; PLACE_BYTES * 1_025];
    let mut open = |window: u32| Tracker::open(window, &mut [0; ENTRY_BYTES], &mut queue).map(|_| ());
    assert_eq!((open(1_024), open(1_025)), (Ok(()), Err(Refusal::Window)));
}

#[test]
fn path_lengths_in_a_training() {
    let kit = Kit::up_to(7);
    let train = |steps: usize| {
        let places = place_bytes(&vec![NINE; steps]);
        let sequences = Sequences { s: 1, n: 1, rate: 1, places: &places };
        let (mut book, mut knots, mut values) = ([0; 8 * ENTRY_BYTES], [0; 1], [0.0; KNOT_VALUES]);
        Baseline::train(kit.tables(), kit.priors(), sequences, &mut book, &mut knots, &mut values).map(|_| ())
    };
    assert_eq!((train(0), train(65)), (Err(Refusal::PathLength), Err(Refusal::PathLength)));
    assert_eq!((train(1), train(64)), (Ok(()), Ok(())));
}

#[test]
fn paths_as_bytes() {
    let (mut book, mut other) = ([0; 8 * ENTRY_BYTES], [0; 8 * ENTRY_BYTES]);
    let path = [NODE, NINE, NODE].map(Address::bytes).concat();
    let mut tracker = Tracker::open(0, &mut book, &mut []).unwrap();
    assert_eq!(tracker.add_path_bytes(&path[..23]), Err(Refusal::PathLength));
    tracker.add_path_bytes(&path).unwrap();
    let mut same = Tracker::open(0, &mut other, &mut []).unwrap();
    same.add_path(&[NODE, NINE, NODE]).unwrap();
    assert_eq!((tracker.state(), tracker.book()), (same.state(), same.book()));
}

/// What the feature `std` adds holds the same bytes.
#[cfg(feature = "std")]
#[test]
fn what_is_put_together_with_std() {
    let kit = Kit::up_to(7);
    let mut records = PriorRecords::default();
    records.node(NODE, 1, &[(SEVEN, 2), (NINE, 3)]);
    assert_eq!((records.lent().nodes, records.lent().children), (kit.priors().nodes, kit.priors().children));
    assert_eq!((records.lent().floor, kit.priors().floor), (i32::MIN, i32::MIN));
    records.set_floor(-3);
    assert_eq!(records.lent().floor, -3);
    assert_eq!(path_bytes(&[NODE, NINE]), [NODE, NINE].map(Address::bytes).concat());
}

#[test]
fn a_path_tried_by_itself() {
    let kit = Kit::up_to(7);
    let tried = |path: &[Address]| try_path(kit.tables(), kit.priors(), path);
    assert_eq!((tried(&[NODE, NINE]), tried(&[NINE, SEVEN])), (Ok(()), Ok(())));
    assert_eq!(tried(&[NODE, NODE]), Err(Refusal::MissingChild(NODE)));
    assert_eq!(tried(&[NODE, NINE, NODE]), Err(Refusal::PastTable(NODE)));
    assert_eq!((tried(&[]), tried(&[NODE; 65])), (Err(Refusal::PathLength), Err(Refusal::PathLength)));
    // The longest path of nodes without a prior fits in the book.
    let longest: Vec<Address> = (0..64).map(|point| Address::new(-1, point)).collect();
    assert_eq!(tried(&longest), Ok(()));
}

#[test]
fn a_node_without_a_child_that_was_seen() {
    let kit = Kit::up_to(7);
    let ask = |tracker: &Tracker| tracker.kl_div_stats(kit.tables(), kit.priors());
    assert_eq!(after(8, &[&[NODE, NODE]], ask), Ok(Err(Refusal::MissingChild(NODE))));
}

/// A node that has a record, and one of its point that a path meets.
const RECORDED: Address = Address::new(-5, 7);
const MET: Address = Address::new(-4, 7);

fn fine_kit(last: u32) -> Kit {
    Kit { nodes: record_bytes(RECORDED, 1, 1), ..Kit::up_to(last) }
}

#[test]
fn nodes_below_the_floor_are_found_by_their_points() {
    let kit = fine_kit(7);
    for (floor, divergence) in [
        (i32::MIN, None),
        (RECORDED.scale, None),
        (MET.scale, None),
        (MET.scale + 1, Some(6.0)),
        (i32::MAX, Some(6.0)),
    ] {
        let priors = kit.priors().with_floor(floor);
        let ask = |tracker: &Tracker| {
            let mut output = Output { addresses: &mut [0; 16], figures: &mut [0.0; 2] };
            let list = tracker.all_node_kl(kit.tables(), priors, &mut output);
            let vector = tracker.prob_vector(priors, MET, &mut output);
            let stats = tracker.kl_div_stats(kit.tables(), priors).map(|stats| stats.sum);
            (list, vector, tracker.posterior_kl_divergence(kit.tables(), priors, MET), stats)
        };
        let places = u32::from(divergence.is_some());
        let vector = divergence.map(|_| ProbVector { places: 2, ending: 1.0 / 7.0 });
        let list = NodeKlList { places, skipped: 2 - places };
        let answers = (Ok(list), Ok(vector), Ok(divergence), Ok(divergence.unwrap_or(0.0)));
        assert_eq!(after(8, &[&[MET, NINE]], ask), Ok(answers), "floor {}", floor);
        let (mut book, mut knots, mut values) = ([0; 8 * ENTRY_BYTES], [0; 1], [0.0; KNOT_VALUES]);
        let sequences = Sequences { s: 1, n: 1, rate: 1, places: &place_bytes(&[MET, NINE]) };
        let trained =
            Baseline::train(kit.tables(), priors, sequences, &mut book, &mut knots, &mut values).unwrap();
        assert_eq!(trained.stats(1).unwrap().sum.mean, divergence.unwrap_or(0.0), "floor {}", floor);
    }
}

/// Asks for children, each with the count, or none, and the records read that are expected.
fn looked_up(priors: Priors, expected: &[(Address, Address, Option<u32>, u32)]) {
    for (node, child, count, read) in expected.iter().copied() {
        let found = Ok(ChildLookup { count, read });
        assert_eq!(priors.child(node, child), found, "{} under {}", child, node);
    }
}

#[test]
fn children_in_a_prior() {
    let expected = [
        (NODE, SEVEN, Some(2), 1),
        (NODE, NINE, Some(3), 2),
        (NODE, Address::new(-1, 9), None, 1),
        (NODE, Address::new(0, 8), None, 2),
        (NODE, Address::new(1, 0), None, 2),
        (NINE, SEVEN, None, 0),
    ];
    looked_up(Kit::up_to(7).priors(), &expected);
}

#[test]
fn children_of_the_widest_node() {
    let (root, leaf) = (Address::new(40, 0), Address::new(41, 0));
    let child = |place: u32, point: u32| Address::new(place as i32 - 32, point);
    let record = |place: u32| record_bytes(child(place, 10), 100 + place, (place + 2) % 65);
    let children = (0..64).map(record).collect::<Vec<_>>().concat();
    let nodes = [record_bytes(root, 0, 1), record_bytes(leaf, 1, 0)].concat();
    let priors = Priors::new(&nodes, &children);
    looked_up(priors, &[(leaf, child(0, 10), None, 0)]);
    for place in 0..64 {
        let expected = [
            (root, child(place, 9), None, place + 1),
            (root, child(place, 10), Some(100 + place), place + 1),
            (root, child(place, 11), None, 64.min(place + 2)),
        ];
        looked_up(priors, &expected);
    }
}

#[test]
fn children_below_the_floor_are_found_by_their_addresses() {
    let kit = fine_kit(7);
    looked_up(kit.priors(), &[(RECORDED, NINE, Some(3), 2), (MET, NINE, None, 0)]);
    let expected = [
        (RECORDED, NINE, Some(3), 2),
        (MET, NINE, Some(3), 2),
        (MET, Address::new(-1, 9), None, 1),
        (MET, Address::new(1, 7), None, 2),
    ];
    looked_up(kit.priors().with_floor(2), &expected);
}

#[test]
fn children_in_priors_that_are_refused() {
    let kit = Kit::up_to(7);
    let (two, chain) = ([record_bytes(SEVEN, 1, 0), kit.nodes].concat(), kit.children.as_slice());
    let changed = |at: usize, byte: u8| {
        let mut children = kit.children.clone();
        children[at] = byte;
        children
    };
    let asked = |nodes: &[u8], children: &[u8], floor: i32| {
        let priors = Priors::new(nodes, children).with_floor(floor);
        assert_eq!(priors.child(NODE, NINE).map(|_| ()), priors.check());
        priors.check()
    };
    assert_eq!(asked(&two, chain, i32::MIN), Ok(()));
    assert_eq!(asked(&two[1..], chain, i32::MIN), Err(Refusal::PriorSizes));
    assert_eq!(asked(&[kit.nodes, kit.nodes].concat(), chain, i32::MIN), Err(Refusal::NodeOrder));
    assert_eq!(asked(&two, &changed(12, 3), i32::MIN), Err(Refusal::Links));
    assert_eq!(asked(&two, &changed(4, 9), i32::MIN), Err(Refusal::ChainOrder));
    assert_eq!(asked(&two, &changed(8, 0), i32::MIN), Err(Refusal::ZeroPrior));
    assert_eq!(asked(&two, chain, NODE.scale + 1), Err(Refusal::SharedPoint));
}

#[test]
fn what_names_a_node_names_the_one_that_was_met() {
    let tried = |last: u32, path: &[Address]| {
        let kit = fine_kit(last);
        try_path(kit.tables(), kit.priors().with_floor(-3), path)
    };
    assert_eq!(tried(7, &[MET, NINE]), Ok(()));
    assert_eq!(tried(7, &[MET, Address::new(-1, 9)]), Err(Refusal::MissingChild(MET)));
    assert_eq!(tried(6, &[MET, NINE]), Err(Refusal::PastTable(MET)));
}

#[test]
fn a_point_that_two_records_below_the_floor_have() {
    let kit = Kit::up_to(7);
    let nodes = [record_bytes(RECORDED, 1, 0), record_bytes(MET, 1, 0)].concat();
    let priors = |floor: i32| Priors::new(&nodes, &[]).with_floor(floor);
    assert_eq!((priors(i32::MIN).check(), priors(MET.scale).check()), (Ok(()), Ok(())));
    assert_eq!(priors(MET.scale + 1).check(), Err(Refusal::SharedPoint));
    // It comes before the form of a tracker.
    let broken = State { window: 1_025, ..State::default() };
    let mut book = [0; ENTRY_BYTES];
    let tracker = Tracker::resume(broken, &mut book, &mut []);
    let read = |floor: i32| tracker.kl_div_stats(kit.tables(), priors(floor)).map(|_| ());
    assert_eq!((read(0), read(i32::MIN)), (Err(Refusal::SharedPoint), Err(Refusal::Form)));
}
