//! The cases of the recorded sample in `vectors/`: fixed seeds, small sizes, so that a reader
//! with fixed buffers can replay them. The comparison with goko runs the call lists, trainings,
//! baselines and look-ups among them.

use crate::altered::{altered_add, AlteredAdd};
use crate::baselines::{self, StatsAsked, Training};
use crate::calls::{Call, CallList, Places, PriorBytes, Tables};
use crate::lists::{call_list, Shape};
use crate::lookups::PriorsCase;
use crate::paths::{below, floor, path, place, universe, universe_around, BAD_LENGTHS, CUTS};
use crate::rng::Rng;
use crate::{priors, tables};
use recount::limits::{
    ENTRY_BYTES, MAX_ACCEPTED, MAX_COUNT, MAX_ENTRIES, MAX_STEPS, MAX_WINDOW, PLACE_BYTES,
};
use recount::{
    check_priors, check_tables, entry_bytes, memory, path_bytes, record_bytes, Address, Priors, Refusal,
    State,
};
use std::collections::BTreeMap;

/// Cases of 200 seeds from `seed` on: at most `answered` that are not refused, and `refused` of
/// each refusal, so that all of them come up.
fn balanced<T>(
    seed: u64,
    (answered, refused): (u32, u32),
    make: impl Fn(&mut Rng) -> T,
    number: impl Fn(&T) -> u32,
) -> Vec<T> {
    let mut taken: BTreeMap<u32, u32> = BTreeMap::new();
    let cases = (seed..seed + 200).map(|seed| make(&mut Rng::new(seed)));
    cases
        .filter(|case| {
            let number = number(case);
            let count = taken.entry(number).or_default();
            *count += 1;
            *count <= if number == 0 { answered } else { refused }
        })
        .collect()
}

fn refusal_number<T>(result: Result<T, Refusal>) -> u32 {
    result.err().map_or(0, |refusal| refusal.number)
}

/// All call lists.
pub fn all_lists() -> Vec<CallList> {
    [call_lists(), large_lists(), reading_lists(), tidy_lists(), batch_lists()].concat()
}

/// Lists of openings and adds.
pub fn call_lists() -> Vec<CallList> {
    let short = Shape { readings: 0, adds: (0, 8), bad_paths: 3, floors: 0, ..Shape::small() };
    (0..80).map(|seed| call_list(&mut Rng::new(1_000 + seed), &short)).collect()
}

/// Lists with books and queues around their largest sizes, and a longer window that is passed.
pub fn large_lists() -> Vec<CallList> {
    let largest = ENTRY_BYTES * MAX_ENTRIES;
    let full_queue = PLACE_BYTES * MAX_WINDOW as usize;
    let mut rng = Rng::new(2_000);
    let addresses = universe(&mut rng, 5);
    let mut adds = |count: usize, most: usize| -> Vec<Call> {
        (0..count).map(|_| Call::Add { path: path_bytes(&path(&mut rng, &addresses, most)) }).collect()
    };
    let open = |window: u32, book_len: usize, queue_len: usize| Call::Open { window, book_len, queue_len };
    let around = [
        vec![open(MAX_WINDOW, largest, full_queue)],
        adds(4, 64),
        vec![open(MAX_WINDOW + 1, largest, full_queue), open(MAX_WINDOW, largest, full_queue - 1)],
        vec![open(MAX_WINDOW, largest + ENTRY_BYTES, full_queue)],
        adds(2, 64),
        vec![open(MAX_WINDOW - 1, largest - ENTRY_BYTES, full_queue)],
        adds(2, 64),
    ];
    let passed = [vec![open(40, ENTRY_BYTES * 40, PLACE_BYTES * 40)], adds(50, 3)];
    let list = |calls: Vec<Call>| CallList { fill: 0xa5, calls };
    vec![list(around.concat()), list(passed.concat())]
}

/// Few addresses and short paths, so that lists with readings stay small.
fn with_readings() -> Shape {
    Shape {
        addresses: 4,
        adds: (2, 6),
        steps: 4,
        bad_paths: 1,
        readings: 30,
        counts: vec![1, 3],
        floors: 0,
        ..Shape::small()
    }
}

/// Lists with readings in between, some with floors, and two whose divergence is plus zero only by the
/// order of its sums.
pub fn reading_lists() -> Vec<CallList> {
    let shape = with_readings();
    let random = (0..42).map(|seed| call_list(&mut Rng::new(3_500 + seed), &shape));
    let floored = Shape { floors: 100, ..shape.clone() };
    let floored = (0..8).map(|seed| call_list(&mut Rng::new(3_600 + seed), &floored));
    // Without the empty sums the first would be minus zero, with sums begun by their first term
    // the second.
    let zeros = [plus_zero(0, &[0.0, -0.0, 0.0]), plus_zero(1, &[0.0, 0.0, -0.0, 0.0])];
    random.chain(zeros).chain(floored).chain([around_a_floor()]).collect()
}

/// Two listed nodes below the floor with one prior, whose record has the address of the first, and one
/// at the floor with its own; then no floor, one that is refused, and the first floor again with a child
/// that the prior lacks.
fn around_a_floor() -> CallList {
    let at = |scale: i32| Address::new(scale, 7);
    let lend = |floor: i32| {
        let nodes = [record_bytes(at(-3), 1, 1), record_bytes(at(0), 2, 0)].concat();
        let children = [record_bytes(at(-3), 2, 2), record_bytes(at(-1), 1, 0)].concat();
        Call::LendPriors(PriorBytes { nodes, children, floor })
    };
    let add = |path: &[Address]| Call::Add { path: path_bytes(path) };
    let output = Places { addresses: vec![0x33; 24], figures: vec![-1.0; 3] };
    let readings = || {
        let one = |scale: i32| {
            let (node, output) = (at(scale), output.clone());
            [Call::ProbVector { node, output }, Call::PosteriorKlDivergence { node }]
        };
        let all = [Call::AllNodeKl { output: output.clone() }, Call::KlDivStats];
        [-9, -3, -1, 0, 1].into_iter().flat_map(one).chain(all)
    };
    let open = Call::Open { window: 3, book_len: 7 * ENTRY_BYTES, queue_len: 3 * PLACE_BYTES };
    let mut calls = vec![Call::LendTables(tables::gamma(12)), open];
    calls.extend([add(&[at(-3), at(-1)]), add(&[at(-1)]), add(&[at(0)])]);
    for floor in [0, i32::MIN, 1] {
        calls.push(lend(floor));
        calls.extend(readings());
    }
    calls.extend([lend(0), add(&[at(-1), at(-2)])]);
    calls.extend(readings());
    CallList { fill: 0xa5, calls }
}

/// Lists with tidies, without readings and with them, some with floors, and one whose answers a tidy changes.
pub fn tidy_lists() -> Vec<CallList> {
    let plain = Shape { adds: (3, 9), readings: 0, bad_paths: 2, floors: 0, ..Shape::tidied() };
    let plain = (0..16).map(|seed| call_list(&mut Rng::new(9_000 + seed), &plain));
    let Shape { windows, tidies, .. } = Shape::tidied();
    let read = Shape { windows, tidies, adds: (3, 7), readings: 12, floors: 20, ..with_readings() };
    let read = (0..18).map(|seed| call_list(&mut Rng::new(9_500 + seed), &read));
    plain.chain(read).chain([around_a_tidy()]).collect()
}

/// Window 1 in a book of four entries. A path that gets 12 is taken after the tidy. Readings before it are
/// refused with 14, then with 15, by a node that it drops; and nodes and children that it drops have no
/// place in those after it.
fn around_a_tidy() -> CallList {
    let [one, two, three] = [Address::new(-1, 7), Address::new(0, 3), Address::new(0, 7)];
    let add = |path: &[Address]| Call::Add { path: path_bytes(path) };
    let lend = |children: &[Address]| Call::LendPriors(priors::one_chain((one, 4), children, i32::MIN));
    let output = Places { addresses: vec![0x33; 16], figures: vec![-1.0; 2] };
    let readings = || {
        let of_one = |node: Address| {
            let output = output.clone();
            [Call::EvidenceProbVector { node, output }, Call::PosteriorKlDivergence { node }]
        };
        let all = [Call::AllNodeKl { output: output.clone() }, Call::KlDivStats];
        [one, three].into_iter().flat_map(of_one).chain(all)
    };
    let open = Call::Open { window: 1, book_len: 4 * ENTRY_BYTES, queue_len: PLACE_BYTES };
    let mut calls = vec![open, add(&[one, two]), add(&[three]), add(&[one, three])];
    for (last, children) in [(9, &[three][..]), (4, &[two][..])] {
        calls.extend([Call::LendTables(tables::gamma(last)), lend(children)]);
        calls.extend(readings());
    }
    calls.push(Call::Tidy);
    calls.extend(readings());
    calls.extend([add(&[one, three]), Call::LendTables(tables::gamma(9)), lend(&[two, three])]);
    calls.extend(readings());
    calls.extend([add(&[one]), Call::KlDivStats, Call::Tidy]);
    calls.extend(readings());
    CallList { fill: 0xa5, calls }
}

/// Lists with adds of several paths, without readings and with them, some with tidies, and one with every way
/// in which such an add ends.
pub fn batch_lists() -> Vec<CallList> {
    let plain = |tidies: usize| {
        let shape = Shape { adds: (3, 9), readings: 0, floors: 0, ..Shape::batched(tidies) };
        (0..10).map(move |seed| call_list(&mut Rng::new(10_000 + seed + tidies as u64), &shape))
    };
    let Shape { windows, tidies, batches, .. } = Shape::batched(30);
    let read = Shape { windows, tidies, batches, adds: (3, 7), readings: 20, ..with_readings() };
    let read = (0..8).map(|seed| call_list(&mut Rng::new(10_500 + seed), &read));
    plain(0).chain(plain(30)).chain(read).chain([around_batches()]).collect()
}

/// Window 2 in a book of four entries: no places; more paths than the window holds; lengths that no path has
/// between two paths; every cut-off place behind one, and one behind a length that no path has; a path of the
/// most steps; a 12, behind which there is a path that fits, and the same after a tidy.
fn around_batches() -> CallList {
    let [one, two, three] = [Address::new(-1, 7), Address::new(0, 3), Address::new(0, 7)];
    let holding = |path: &[Address]| place(path.len() as u32, &path_bytes(path), 0x3c);
    let bad = |length: u32| place(length, &one.bytes(), 0x3c);
    let add = |places: &[Vec<u8>]| Call::AddPaths { places: places.concat() };
    let cut = |left: usize| bad(1)[..left].to_vec();
    let full = [holding(&[one, three]), holding(&[two, three]), holding(&[one])];
    let mut calls = vec![
        Call::Open { window: 2, book_len: 4 * ENTRY_BYTES, queue_len: 2 * PLACE_BYTES },
        add(&[]),
        add(&[holding(&[one]), holding(&[one, one]), holding(&[two]), holding(&[one])]),
    ];
    calls.extend(BAD_LENGTHS.map(|length| add(&[holding(&[one]), bad(length), holding(&[two])])));
    calls.extend(CUTS.map(|left| add(&[holding(&[two]), cut(left)])));
    calls.extend([add(&[holding(&[one]), bad(0), cut(CUTS[0])]), add(&[cut(CUTS[3])])]);
    calls.extend([add(&[holding(&[one; MAX_STEPS])]), add(&full), Call::Tidy, add(&full)]);
    CallList { fill: 0xa5, calls }
}

/// One path of one step, with a prior of one child and D of zeros: the divergence is plus zero. The
/// output holds minus zero past the answer.
fn plus_zero(singleton_count: u32, g: &[f64]) -> CallList {
    let node = Address::new(1, 0);
    let output = Places { addresses: vec![0x33; 16], figures: vec![-0.0; 2] };
    let calls = vec![
        Call::LendTables(Tables { g: g.to_vec(), d: vec![0.0; g.len()] }),
        Call::LendPriors(priors::one_child(singleton_count)),
        Call::Open { window: 1, book_len: 3 * ENTRY_BYTES, queue_len: PLACE_BYTES },
        Call::Add { path: path_bytes(&[node]) },
        Call::PosteriorKlDivergence { node },
        Call::AllNodeKl { output: output.clone() },
        Call::KlDivStats,
        Call::ProbVector { node, output: output.clone() },
        Call::EvidenceProbVector { node, output },
    ];
    CallList { fill: 0xa5, calls }
}

/// Adds on altered memory.
pub fn altered_adds() -> Vec<AlteredAdd> {
    let number = |add: &AlteredAdd| {
        let (mut book, mut queue) = (add.book.clone(), add.queue.clone());
        refusal_number(memory::add_path(add.state, &mut book, &mut queue, &add.path))
    };
    balanced(4_000, (30, 18), |rng| altered_add(rng, 3), number)
}

/// Adds of several paths on memory with counts next to 2^30 and as many paths accepted as can be, or nearly so:
/// of none, of one path three times, and with a length that no path has before the paths or between them, or one
/// new node too many. They are not recorded.
pub fn altered_batches() -> Vec<(AlteredAdd, Vec<u8>)> {
    let node = Address::new(0, 3);
    let of = |path: &[Address]| place(path.len() as u32, &path_bytes(path), 0x3c);
    let (short, long) = (of(&[node]), of(&[node; MAX_STEPS]));
    let [bad, other] = [place(0, &[], 0x3c), of(&[Address::new(0, 4)])];
    let batches = [
        Vec::new(),
        short.repeat(3),
        long.repeat(3),
        [&bad[..], &short].concat(),
        [&short[..], &bad, &short].concat(),
        [&long[..], &other, &long].concat(),
    ];
    let mut cases = Vec::new();
    for count in [MAX_COUNT - 1, MAX_COUNT, MAX_COUNT + 1] {
        for accepted in [0, 1, MAX_ACCEPTED - 2, MAX_ACCEPTED - 1, MAX_ACCEPTED, MAX_ACCEPTED + 1] {
            for window in 0..3 {
                let book = [entry_bytes(node, None, count), entry_bytes(node, Some(node), count)].concat();
                let queue = short.repeat(window as usize);
                let state = State { window, used: 2, accepted };
                let add = AlteredAdd { state, book, queue, path: path_bytes(&[node]) };
                cases.extend(batches.iter().map(|places| (add.clone(), places.clone())));
            }
        }
    }
    cases
}

/// Trainings, some with floors: of those that are answered, ones that find a prior by point alone.
pub fn trainings() -> Vec<Training> {
    let number = |training: &Training| refusal_number(training.clone().run());
    let mut cases = balanced(5_000, (12, 4), |rng| baselines::training(rng, (3, 4), i32::MIN), number);
    let floored = |rng: &mut Rng| {
        let floor = floor(rng, 100);
        baselines::training(rng, (2, 3), floor)
    };
    let by_point = |training: &Training| {
        let found = |priors: Priors| training.nodes().iter().any(|node| priors.found_by_point(*node));
        check_priors(training.priors.lent()).is_ok_and(found)
    };
    let met = |training: &Training| match number(training) {
        0 => by_point(training),
        number => number == 22,
    };
    cases.extend(balanced(5_500, (4, 2), floored, number).into_iter().filter(met));
    cases
}

/// Baselines with the lengths they are asked for, and those of the minus zeros.
pub fn stats_asked() -> Vec<StatsAsked> {
    let random = (0..16).map(|seed| baselines::stats_asked(&mut Rng::new(6_000 + seed), 4));
    random.chain(baselines::minus_zeros()).collect()
}

/// Tables, good and refused.
pub fn table_cases() -> Vec<Tables> {
    let made = |rng: &mut Rng| {
        let last = rng.between(1, 6);
        tables::damaged(rng, last)
    };
    balanced(7_000, (10, 10), made, |tables| refusal_number(check_tables(tables.lent())))
}

/// Priors, good and refused, with look-ups.
pub fn priors_cases() -> Vec<PriorsCase> {
    let number = |case: &PriorsCase| refusal_number(check_priors(case.priors.lent()));
    let mut cases = balanced(8_000, (40, 10), random_priors, number);
    cases.extend([
        long_chain(63, &[(0, 125), (0, 126)]),
        long_chain(64, &AROUND_64),
        long_chain(65, &[(0, 129)]),
    ]);
    cases.extend(balanced(8_500, (6, 2), floored_priors, number));
    cases.push(children_below_a_floor());
    cases.extend([i32::MIN, i32::MIN + 1, i32::MAX - 1, i32::MAX].map(priors_at_the_ends));
    cases
}

/// Around the chain of 64, whose first children are (-1,1) and (-1,3) and whose last (0,125) and
/// (0,127): those, what lies next to them, and their points at other scales.
const AROUND_64: [(i32, u32); 12] = [
    (i32::MIN, 127),
    (-1, 0),
    (-1, 1),
    (-1, 2),
    (-1, 3),
    (-1, 127),
    (0, 1),
    (0, 125),
    (0, 126),
    (0, 127),
    (0, 128),
    (1, 1),
];

/// A long chain, and look-ups of children in it.
fn long_chain(length: usize, children: &[(i32, u32)]) -> PriorsCase {
    let under = |(scale, point): &(i32, u32)| (Address::new(1, 0), Address::new(*scale, *point));
    PriorsCase { priors: priors::long_chain(length), asked: children.iter().map(under).collect() }
}

/// A record below the floor that a node's point alone finds, with two children of one point below the
/// floor, of which each is found at its own scale.
fn children_below_a_floor() -> PriorsCase {
    let children = [Address::new(-5, 4), Address::new(-3, 4)];
    let priors = priors::one_chain((Address::new(-3, 7), 1), &children, 0);
    let asked = [(-1, -6), (-9, -5), (-1, -4), (-9, -3), (-1, -1), (0, -3)];
    let under = |(node, child): (i32, i32)| (Address::new(node, 7), Address::new(child, 4));
    PriorsCase { priors, asked: asked.map(under).to_vec() }
}

/// Priors with a floor, and look-ups of nodes at scales on both sides of it.
fn floored_priors(rng: &mut Rng) -> PriorsCase {
    let floor = floor(rng, 100);
    let addresses = universe_around(rng, 4, floor);
    let good = priors::sparse(rng, &addresses, 9, 70);
    let priors = priors::floored(rng, good, floor);
    let asked = addresses.iter().map(|address| {
        let fine = below(rng, floor);
        let scale = rng.pick(&[fine, address.scale, floor]);
        (Address::new(scale, address.point), rng.pick(&addresses))
    });
    PriorsCase { asked: asked.collect(), priors }
}

/// Records at the ends of the scales' range, with a floor there.
fn priors_at_the_ends(floor: i32) -> PriorsCase {
    let records = [(i32::MIN, 7), (0, 5), (i32::MAX - 1, 7), (i32::MAX, 3)];
    let node = |(scale, point): (i32, u32)| record_bytes(Address::new(scale, point), point, 0);
    let priors =
        PriorBytes { nodes: records.into_iter().flat_map(node).collect(), floor, ..PriorBytes::default() };
    let asked = [i32::MIN, i32::MIN + 1, i32::MAX - 1, i32::MAX]
        .into_iter()
        .flat_map(|scale| [7, 3].map(|point| (Address::new(scale, point), Address::default())));
    PriorsCase { priors, asked: asked.collect() }
}

fn random_priors(rng: &mut Rng) -> PriorsCase {
    let count = rng.between(1, 5);
    let addresses = universe(rng, count);
    let priors = match rng.below(3) {
        0 => priors::sparse(rng, &addresses, 9, 70),
        _ => priors::damaged(rng, &addresses),
    };
    let wanted = universe(rng, 2);
    let asked =
        (0..5).map(|_| (rng.pick(&addresses), rng.pick(&[&addresses[..], &wanted].concat()))).collect();
    PriorsCase { priors, asked }
}
