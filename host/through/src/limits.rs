//! Every short list, also in every order, with tidies at every choice of places and with its paths added at
//! once, every short chain, the recorded sample, and cases at the limits: tables of 1, 2, 1,048,576 and
//! 1,048,577 entries and a U at the last index, priors of the most records and one more, as many in scales of
//! their own below a floor, chains of 62 to 65 with look-ups in them, books and queues at their largest sizes,
//! the largest book full, also by one batch, and tidied, long windows, counts far past 2^30, thousands of paths
//! at once, 1,024 knots and one more.

use crate::calls::{Archive, Held};
use crate::check;
use cases::altered::AlteredAdd;
use cases::baselines::Training;
use cases::calls::{Call, CallList, Places, PriorBytes, Tables};
use cases::exhaustive::Ordered;
use cases::lists::{call_list, Shape};
use cases::paths::place;
use cases::rng::Rng;
use cases::{exhaustive, lookups, priors, sample, tables};
use compare::{must, Compared, Tally};
use recount::limits::{
    ENTRY_BYTES, KNOT_VALUES, MAX_CHAIN, MAX_CHILDREN, MAX_COUNT, MAX_ENTRIES, MAX_KNOTS, MAX_NODES,
    MAX_STEPS, MAX_WINDOW, PLACE_BYTES,
};
use recount::{entry_bytes, least, path_bytes, record_bytes, Address, State};

/// All of them.
pub fn all(archive: &mut Archive, tally: &mut Tally) -> Compared {
    sample::all_lists().iter().try_for_each(|list| check::list(archive, list, tally))?;
    let output = Places { addresses: vec![0x11; 64], figures: vec![-1.0; 8] };
    let beside = (&tables::gamma(40), &PriorBytes::default(), &output);
    sample::altered_adds().iter().try_for_each(|add| check::altered(archive, add, beside, tally))?;
    for (add, places) in sample::altered_batches() {
        check::batch(archive, &add, &places, tally)?;
    }
    sample::trainings().iter().try_for_each(|training| check::training(archive, training, tally))?;
    sample::stats_asked().iter().try_for_each(|asked| check::stats(archive, asked, tally))?;
    sample::table_cases().iter().try_for_each(|tables| check::tables(archive, tables, tally))?;
    for case in sample::priors_cases() {
        check::priors(archive, &case.priors, tally)?;
        check::lookups(archive, &case, tally)?;
    }
    exhaustive::every_chain().iter().try_for_each(|case| check::lookups(archive, case, tally))?;
    exhaustive::each_short_list(|list| check::list(archive, list, tally))?;
    let tried = exhaustive::each_order(|case| check::order(archive, case, tally))?;
    tally.tried.join(tried);
    tally.tidied += exhaustive::each_tidied(|list| check::list(archive, list, tally))?;
    tally.batched += exhaustive::each_batched(|list| check::list(archive, list, tally))?;
    exhaustive::under_floors().iter().try_for_each(|lent| check::priors(archive, lent, tally))?;
    table_lengths(archive, tally)?;
    prior_sizes(archive, tally)?;
    widest_chains(archive, tally)?;
    scales_below_a_floor(archive, tally)?;
    fullest_book(archive, tally)?;
    tidied_books(archive, tally)?;
    large_batches(archive, tally)?;
    long_days(archive)?;
    knots(archive, tally)?;
    [(1_023, 0, 0), (1_024, 0, 20), (1_024, 5, 0)].into_iter().try_for_each(|(window, tidies, batches)| {
        let shape = Shape { tidies, batches, ..Shape::long(window) };
        check::list(archive, &call_list(&mut Rng::new(u64::from(window)), &shape), tally)
    })
}

const NODE: Address = Address::new(1, 7);
const CHILD: Address = Address::new(0, 9);

/// A node with its singleton count, and `CHILD` below it.
fn one_child((node, singleton): (Address, u32), count: u32) -> PriorBytes {
    PriorBytes {
        nodes: record_bytes(node, singleton, 1),
        children: record_bytes(CHILD, count, 0),
        ..PriorBytes::default()
    }
}

/// Readings with tables of each length, and priors whose U is the last index, or one past it.
fn table_lengths(archive: &mut Archive, tally: &mut Tally) -> Compared {
    for length in [1, 2, 1_048_576, 1_048_577] {
        let lent = tables::gamma(length - 1);
        check::tables(archive, &lent, tally)?;
        for total in [1, length as u32 - 1, length as u32] {
            let singleton = total.max(3) - 2;
            let priors = one_child((NODE, singleton), 1);
            let output = || Places { addresses: vec![0x11; 16], figures: vec![-1.0; 2] };
            let calls = vec![
                Call::Open { window: 1, book_len: 4 * ENTRY_BYTES, queue_len: PLACE_BYTES },
                Call::LendTables(lent.clone()),
                Call::LendPriors(priors),
                Call::Add { path: path_bytes(&[NODE, CHILD]) },
                Call::PosteriorKlDivergence { node: NODE },
                Call::AllNodeKl { output: output() },
                Call::KlDivStats,
                Call::ProbVector { node: NODE, output: output() },
            ];
            check::list(archive, &CallList { fill: 0xff, calls }, tally)?;
        }
    }
    let unequal = Tables { g: vec![0.0; 1_048_576], d: vec![0.0; 1_048_575] };
    check::tables(archive, &unequal, tally)
}

/// The most records and one more, all in one book of priors.
fn prior_sizes(archive: &mut Archive, tally: &mut Tally) -> Compared {
    for (nodes, children) in
        [(MAX_NODES, MAX_CHILDREN), (MAX_NODES + 1, MAX_CHILDREN), (MAX_NODES, MAX_CHILDREN + 1)]
    {
        let node = |index: usize| record_bytes(Address::new(3, index as u32), 1, (index % 9) as u32);
        let child = |index: usize| record_bytes(Address::new(2, index as u32), 1, 0);
        let lent = PriorBytes {
            nodes: (0..nodes).flat_map(node).collect(),
            children: (0..children).flat_map(child).collect(),
            ..PriorBytes::default()
        };
        check::priors(archive, &lent, tally)?;
    }
    [63, 64, 65].iter().try_for_each(|length| check::priors(archive, &priors::long_chain(*length), tally))
}

/// The most records of both kinds in chains of 64, each chain's records as far apart as they can be. A
/// chain belongs to several nodes. Look-ups around every child of the first, a middle and the last node,
/// and in chains of 62 to 65 by themselves.
fn widest_chains(archive: &mut Archive, tally: &mut Tally) -> Compared {
    let chains = MAX_CHILDREN / MAX_CHAIN;
    let node = |index: usize| record_bytes(Address::new(3, index as u32), 1, (index % chains + 1) as u32);
    let child = |index: usize| {
        let next = if index + chains < MAX_CHILDREN { index + chains + 1 } else { 0 };
        record_bytes(Address::new(index as i32 / 4_096 - 2, 2 * index as u32), index as u32 + 1, next as u32)
    };
    let priors = PriorBytes {
        nodes: (0..MAX_NODES).flat_map(node).collect(),
        children: (0..MAX_CHILDREN).flat_map(child).collect(),
        ..PriorBytes::default()
    };
    let nodes = [0, 2_047, 4_095].map(|point| Address::new(3, point));
    check::lookups(archive, &lookups::every(priors, &nodes), tally)?;
    [62, 63, 64, 65].into_iter().try_for_each(|length| {
        let case = lookups::every(priors::long_chain(length), &[Address::new(1, 0)]);
        check::lookups(archive, &case, tally)
    })
}

/// The most node records, each in a scale of its own below the floor. The last may have the first
/// one's point, or lie at the floor with it.
fn scales_below_a_floor(archive: &mut Archive, tally: &mut Tally) -> Compared {
    let last = MAX_NODES as i32 - 1;
    for (last_point, floor) in [(last as u32, last + 1), (0, last + 1), (0, last)] {
        let point = |scale: i32| if scale == last { last_point } else { scale as u32 };
        let node = |scale: i32| record_bytes(Address::new(scale, point(scale)), 1 + scale as u32 % 3, 0);
        let priors =
            PriorBytes { nodes: (0..=last).flat_map(node).collect(), floor, ..PriorBytes::default() };
        check::priors(archive, &priors, tally)?;
        let asked = [(-1, 0), (last, 0), (last + 1, 0), (-9, last_point), (0, 2_047), (last - 1, 4_096)];
        let asked = asked.map(|(scale, point)| Address::new(scale, point));
        let output = Places { addresses: vec![0x11; 48], figures: vec![-1.0; 6] };
        let mut calls = vec![
            Call::Open { window: 0, book_len: 6 * ENTRY_BYTES, queue_len: 0 },
            Call::LendTables(tables::gamma(9)),
            Call::LendPriors(priors),
        ];
        calls.extend(asked.map(|node| Call::Add { path: path_bytes(&[node]) }));
        calls.extend(asked.map(|node| Call::ProbVector { node, output: output.clone() }));
        calls.extend(asked.map(|node| Call::PosteriorKlDivergence { node }));
        calls.extend([Call::AllNodeKl { output }, Call::KlDivStats]);
        check::list(archive, &CallList { fill: 0, calls }, tally)?;
    }
    Ok(())
}

/// Paths that need as many entries as a book can have. Each is of 64 new nodes, so of 127 entries, and one is
/// of a single node.
fn filling_paths() -> Vec<Vec<Address>> {
    let node = |number: usize| Address::new(number as i32 % 5 - 2, number as u32);
    let path = |first: usize| (first..first + MAX_STEPS).map(node).collect();
    let whole = MAX_ENTRIES / (2 * MAX_STEPS - 1);
    let mut paths: Vec<Vec<Address>> = (0..whole).map(|number| path(MAX_STEPS * number)).collect();
    paths.push(vec![node(MAX_STEPS * whole)]);
    paths
}

/// An opening with window 1 and a book of so many entries, and adds of these paths.
fn adds_to(capacity: usize, paths: &[Vec<Address>]) -> Vec<Call> {
    let open = Call::Open { window: 1, book_len: ENTRY_BYTES * capacity, queue_len: PLACE_BYTES };
    let adds = paths.iter().map(|path| Call::Add { path: path_bytes(path) });
    [open].into_iter().chain(adds).collect()
}

/// A list that needs as many entries as a book can have, and the same backwards; and both in a book of one
/// entry less.
fn fullest_book(archive: &mut Archive, tally: &mut Tally) -> Compared {
    let mut paths = filling_paths();
    let least = least(&paths);
    must(least == MAX_ENTRIES, || format!("the list needs {} entries", least))?;
    for _ in 0..2 {
        for capacity in [MAX_ENTRIES - 1, MAX_ENTRIES] {
            let list = CallList { fill: 0xa5, calls: adds_to(capacity, &paths) };
            check::order(archive, &Ordered { list, capacity, least }, tally)?;
        }
        paths.reverse();
    }
    Ok(())
}

/// Tidies of the largest book full: of what a list left in it, after which the first paths are taken again;
/// and of nodes without children and of one node with all the children, with counts of 0, of 1, and of both
/// in turn.
fn tidied_books(archive: &mut Archive, tally: &mut Tally) -> Compared {
    let paths = filling_paths();
    let again = paths[..3].iter().map(|path| Call::Add { path: path_bytes(path) });
    let calls = adds_to(MAX_ENTRIES, &paths).into_iter().chain([Call::Tidy]).chain(again).chain([Call::Tidy]);
    check::list(archive, &CallList { fill: 0xa5, calls: calls.collect() }, tally)?;
    let counts: [fn(usize) -> u32; 4] =
        [|_| 0, |_| 1, |index| index as u32 % 2, |index| 1 - index as u32 % 2];
    for count in counts {
        for one_node in [false, true] {
            let entry = |index: usize| {
                let (own, node) = (Address::new(2, index as u32), Address::new(3, 0));
                match index {
                    _ if !one_node => entry_bytes(own, None, count(index)),
                    0 => entry_bytes(node, None, count(index)),
                    _ => entry_bytes(node, Some(own), count(index)),
                }
            };
            let book = (0..MAX_ENTRIES).flat_map(entry).collect();
            let state = State { window: 0, used: MAX_ENTRIES as u32, accepted: 0 };
            check::tidied(archive, &Held { state, book, queue: Vec::new() }, tally)?;
        }
    }
    Ok(())
}

/// The queue place of a path, with bytes behind its steps.
fn placed(path: &[Address]) -> Vec<u8> {
    place(path.len() as u32, &path_bytes(path), 0x3c)
}

/// A batch that fills the largest book, in two orders, and in a book of one entry less; one that goes past the
/// longest window; and one that brings counts of 2^30 far past it.
fn large_batches(archive: &mut Archive, tally: &mut Tally) -> Compared {
    let mut paths = filling_paths();
    for _ in 0..2 {
        for capacity in [MAX_ENTRIES - 1, MAX_ENTRIES] {
            let places = paths.iter().flat_map(|path| placed(path)).collect();
            let calls = [adds_to(capacity, &[]), vec![Call::AddPaths { places }]].concat();
            check::list(archive, &CallList { fill: 0xa5, calls }, tally)?;
        }
        paths.reverse();
    }
    let queue_len = PLACE_BYTES * MAX_WINDOW as usize;
    let path =
        |number: usize| placed(&[Address::new(0, number as u32 % 7), Address::new(0, number as u32 % 5)]);
    let calls = vec![
        Call::Open { window: MAX_WINDOW, book_len: 48 * ENTRY_BYTES, queue_len },
        Call::AddPaths { places: (0..MAX_WINDOW as usize + 80).flat_map(path).collect() },
    ];
    check::list(archive, &CallList { fill: 0xa5, calls }, tally)?;
    let book = [entry_bytes(NODE, None, MAX_COUNT), entry_bytes(NODE, Some(NODE), MAX_COUNT)].concat();
    let state = State { window: 0, used: 2, accepted: 0 };
    let add = AlteredAdd { state, book, queue: Vec::new(), path: path_bytes(&[NODE]) };
    check::batch(archive, &add, &placed(&[NODE; MAX_STEPS]).repeat(1_000), tally)
}

/// A day of 6,000 paths of ten steps over 2,000 nodes with seven children each, in batches of so many paths:
/// what these take and leave is what single adds through the archive take and leave. The last book is too small
/// for the day; there both go on behind a path that is refused.
fn long_days(archive: &mut Archive) -> Compared {
    let mut rng = Rng::new(14);
    let mut path = || {
        let mut node = rng.below(2_000);
        let mut step = || {
            node = (7 * node + 13 * rng.below(7) + 1) % 2_000;
            Address::new(node as i32 % 5 - 2, node as u32)
        };
        (0..10).map(|_| step()).collect::<Vec<Address>>()
    };
    let paths: Vec<Vec<Address>> = (0..6_000).map(|_| path()).collect();
    let places: Vec<Vec<u8>> = paths.iter().map(|path| placed(path)).collect();
    for (window, capacity, count) in
        [(0, MAX_ENTRIES, 6_000), (40, MAX_ENTRIES, 700), (1_024, MAX_ENTRIES, 6_000), (1_024, 9_000, 37)]
    {
        let lengths = (ENTRY_BYTES * capacity, PLACE_BYTES * window as usize);
        let open = |archive: &mut Archive| {
            archive.open(window, lengths, 0xa5)?.map_err(|refusal| format!("an opening: {:?}", refusal))
        };
        open(archive)?;
        let mut singly = Vec::new();
        for path in &paths {
            singly.push(archive.add_path(&path_bytes(path))?.is_ok());
        }
        let held = archive.held();
        must(singly.contains(&false) == (capacity < MAX_ENTRIES), || "the day's room".to_string())?;
        open(archive)?;
        let mut taken = Vec::new();
        while taken.len() < paths.len() {
            let last = paths.len().min(taken.len() + count);
            let batch = archive.add_paths(&places[taken.len()..last].concat())?;
            must(batch.taken > 0 || batch.refusal.is_some(), || format!("{:?} of some places", batch))?;
            taken.resize(taken.len() + batch.taken as usize, true);
            taken.extend(batch.refusal.map(|_| false));
        }
        must(taken == singly && archive.holds(&held), || {
            format!("batches of {}, window {}: not what single adds leave", count, window)
        })?;
    }
    Ok(())
}

/// As many knots as there may be, and one more.
fn knots(archive: &mut Archive, tally: &mut Tally) -> Compared {
    for paths in [MAX_KNOTS, MAX_KNOTS + 1] {
        let training = Training {
            tables: tables::gamma(2_000),
            priors: one_child((NODE, 2), 3),
            book: vec![0xff; 3 * ENTRY_BYTES],
            sequences: 2,
            paths: paths as u32,
            rate: 1,
            places: placed(&[NODE, CHILD]).repeat(2 * paths),
            knots: vec![9; paths],
            values: vec![9.0; KNOT_VALUES * paths],
        };
        check::training(archive, &training, tally)?;
    }
    Ok(())
}
