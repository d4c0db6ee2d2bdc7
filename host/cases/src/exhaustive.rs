//! Every short list over two addresses: all paths of up to `steps` steps, all lists of `adds`
//! of them, for given windows and capacities, with all readings at the end. With a floor the two
//! addresses have one point. Every order of every short list over two or three, in every book from one entry
//! to one more than it needs. Every short list with tidies at every choice of places, and every one with its
//! paths added at once, whole and with something among them that is no path. And every look-up in every chain
//! over six addresses.

use crate::calls::{Call, CallList, Places, PriorBytes, Tables};
use crate::lookups::PriorsCase;
use crate::paths::{place, BAD_LENGTHS, CUTS};
use crate::rng::Rng;
use crate::{priors, tables};
use recount::limits::{ENTRY_BYTES, PLACE_BYTES};
use recount::{check_priors, least, path_bytes, record_bytes, Address};
use std::collections::BTreeSet;

/// The two addresses, ordered by signed scale.
const ADDRESSES: [Address; 2] = [Address::new(-1, 7), Address::new(0, 3)];

/// Three addresses, of which two have one scale and two one point.
const THREE: [Address; 3] = [Address::new(-1, 7), Address::new(0, 3), Address::new(0, 7)];

/// Two addresses with one point.
const ONE_POINT: [Address; 2] = [Address::new(-1, 7), Address::new(0, 7)];

/// All paths of 1 to `steps` steps over these addresses.
fn paths(addresses: &[Address], steps: usize) -> Vec<Vec<Address>> {
    let mut longest: Vec<Vec<Address>> = vec![Vec::new()];
    let mut all = Vec::new();
    for _ in 0..steps {
        let longer = |path: &Vec<Address>| -> Vec<Vec<Address>> {
            addresses.iter().map(|step| [&path[..], &[*step]].concat()).collect()
        };
        longest = longest.iter().flat_map(longer).collect();
        all.extend(longest.clone());
    }
    all
}

/// Calls `each` with every list of up to four paths of up to two steps, and of two paths of up to
/// three, with whole priors, with priors that lack something, and with tables that end early; and of
/// two paths of up to three steps with priors under a floor. Ends at the first that `each` fails on.
pub fn each_short_list<E>(mut each: impl FnMut(&CallList) -> Result<(), E>) -> Result<(), E> {
    let mut rng = Rng::new(0);
    let gamma = tables::gamma(24);
    let whole = priors::whole(&mut rng, &ADDRESSES, 3);
    let sparse = priors::sparse(&mut rng, &ADDRESSES, 3, 60);
    let cut = tables::gamma(6);
    for lent in [(&gamma, &whole), (&gamma, &sparse), (&cut, &whole)] {
        for (capacities, size) in
            [(&[1, 2, 3, 4, 5, 6][..], (2, 3)), (&[5, 6][..], (2, 4)), (&[6][..], (3, 2))]
        {
            each_list(ADDRESSES, capacities, size, lent, &mut each)?;
        }
    }
    for lent in under_floors().iter().filter(|lent| check_priors(lent.lent()).is_ok()) {
        each_list(ONE_POINT, &[6], (3, 2), (&gamma, lent), &mut each)?;
    }
    Ok(())
}

/// A list of paths in one of its orders: an opening with a book of `capacity` entries, and the adds.
#[derive(Debug)]
pub struct Ordered {
    /// The calls.
    pub list: CallList,
    /// The book's entries.
    pub capacity: usize,
    /// The least capacity for its paths.
    pub least: usize,
}

/// How many lists of paths were tried, in how many orders, and in how many books.
#[derive(Debug, Clone, Copy, Default, PartialEq, Eq)]
pub struct Tried {
    /// The lists, whatever the order of their paths.
    pub lists: u64,
    /// The orders of all of them.
    pub orders: u64,
    /// The books that these were added to, one for each window and capacity.
    pub books: u64,
}

impl Tried {
    /// Adds what another counted.
    pub fn join(&mut self, other: Tried) {
        self.lists += other.lists;
        self.orders += other.orders;
        self.books += other.books;
    }
}

/// Calls `each` with every order of every list of one to three paths of up to two steps over three
/// addresses, and of two paths of up to three steps over two of which one has three: for each window up to
/// 3, and in each book from one entry to one more than the list needs. Ends at the first that `each` fails on.
pub fn each_order<E>(mut each: impl FnMut(&Ordered) -> Result<(), E>) -> Result<Tried, E> {
    let mut tried = Tried::default();
    let short = (1..=3).flat_map(|adds| lists(&paths(&THREE, 2), adds));
    let has_three_steps = |list: &Vec<Vec<Address>>| list.iter().any(|path| path.len() == 3);
    let long = lists(&paths(&ADDRESSES, 3), 2).into_iter().filter(has_three_steps);
    for list in short.chain(long) {
        tried.lists += 1;
        let least = least(&list);
        for order in orders(&list) {
            tried.orders += 1;
            for (window, capacity) in windows_and_capacities(least + 1) {
                tried.books += 1;
                let mut calls = opening(window, capacity);
                calls.extend(order.iter().map(|path| Call::Add { path: path_bytes(path) }));
                each(&Ordered { list: CallList { fill: 0xa5, calls }, capacity, least })?;
            }
        }
    }
    Ok(tried)
}

/// Calls `each` with every list of one to three paths of up to two steps over two addresses, and with a tidy
/// after every choice of them: for each window up to 3, and in each book from one entry to one more than the
/// list needs without tidies. Gives how many there are. Ends at the first that `each` fails on.
pub fn each_tidied<E>(mut each: impl FnMut(&CallList) -> Result<(), E>) -> Result<u64, E> {
    let paths = paths(&ADDRESSES, 2);
    let mut tried = 0;
    for list in (1..=3).flat_map(|adds| lists(&paths, adds)).flat_map(|list| orders(&list)) {
        for places in 1..1_u32 << list.len() {
            for (window, capacity) in windows_and_capacities(least(&list) + 1) {
                tried += 1;
                let mut calls = opening(window, capacity);
                for (place, path) in list.iter().enumerate() {
                    calls.push(Call::Add { path: path_bytes(path) });
                    calls.extend((places >> place & 1 == 1).then_some(Call::Tidy));
                }
                each(&CallList { fill: 0xa5, calls })?;
            }
        }
    }
    Ok(tried)
}

/// Calls `each` with every list of one to three paths of up to two steps over two addresses, added in every
/// split into batches; and of one or two of them in one batch with a place that holds no path at every place
/// among them, with a place cut off behind them, and with both: for each window up to 3, and in each book from
/// one entry to one more than the list needs. Gives how many there are. Ends at the first that `each` fails on.
pub fn each_batched<E>(mut each: impl FnMut(&CallList) -> Result<(), E>) -> Result<u64, E> {
    let paths = paths(&ADDRESSES, 2);
    let mut tried = 0;
    for list in (1..=3).flat_map(|adds| lists(&paths, adds)).flat_map(|list| orders(&list)) {
        let places: Vec<Vec<u8>> =
            list.iter().map(|path| place(path.len() as u32, &path_bytes(path), 0x3c)).collect();
        let mut ways = splits(&places);
        if list.len() < 3 {
            ways.extend(interrupted(&places).into_iter().map(|batch| vec![batch]));
        }
        for way in ways {
            for (window, capacity) in windows_and_capacities(least(&list) + 1) {
                tried += 1;
                let mut calls = opening(window, capacity);
                calls.extend(way.iter().map(|places| Call::AddPaths { places: places.clone() }));
                each(&CallList { fill: 0xa5, calls })?;
            }
        }
    }
    Ok(tried)
}

/// The places in every split into batches that follow one another.
fn splits(places: &[Vec<u8>]) -> Vec<Vec<Vec<u8>>> {
    if places.is_empty() {
        return vec![Vec::new()];
    }
    let beginning = |first: usize| {
        let rests = splits(&places[first..]).into_iter();
        rests.map(move |rest| [vec![places[..first].concat()], rest].concat())
    };
    (1..=places.len()).flat_map(beginning).collect()
}

/// The places in one batch, with one that holds no path at every place among them, with every cut-off place
/// behind them, and with the former and the shortest of the latter.
fn interrupted(places: &[Vec<u8>]) -> Vec<Vec<u8>> {
    let last = |length: u32| place(length, &ADDRESSES[0].bytes(), 0x3c);
    let cut = |cut: usize| last(1)[..cut].to_vec();
    let with_bad = |at: usize| {
        let bad = move |length: u32| [places[..at].concat(), last(length), places[at..].concat()].concat();
        BAD_LENGTHS.into_iter().map(bad)
    };
    let bad: Vec<Vec<u8>> = (0..=places.len()).flat_map(with_bad).collect();
    let both: Vec<Vec<u8>> = bad.iter().map(|bad| [&bad[..], &cut(CUTS[0])].concat()).collect();
    let cuts = CUTS.iter().map(|left| [places.concat(), cut(*left)].concat());
    bad.into_iter().chain(both).chain(cuts).collect()
}

fn windows_and_capacities(most: usize) -> impl Iterator<Item = (u32, usize)> {
    (0..=3).flat_map(move |window| (1..=most).map(move |capacity| (window, capacity)))
}

/// Every list of `adds` of these paths, in one order each: no path comes after one that follows it here.
fn lists(paths: &[Vec<Address>], adds: usize) -> Vec<Vec<Vec<Address>>> {
    if adds == 0 {
        return vec![Vec::new()];
    }
    let beginning = |first: usize| {
        let rests = lists(&paths[first..], adds - 1);
        rests.into_iter().map(move |rest| [&paths[first..=first], &rest].concat())
    };
    (0..paths.len()).flat_map(beginning).collect()
}

/// Every order of these paths, each once.
fn orders(list: &[Vec<Address>]) -> BTreeSet<Vec<Vec<Address>>> {
    if list.is_empty() {
        return BTreeSet::from([Vec::new()]);
    }
    let beginning = |first: usize| {
        let rests = orders(&[&list[..first], &list[first + 1..]].concat());
        rests.into_iter().map(move |rest| [&list[first..=first], &rest].concat())
    };
    (0..list.len()).flat_map(beginning).collect()
}

/// Priors whose records all have one point, at every choice of scales from -2 to 1, with every floor
/// from -1 to 2. Each knows two addresses as children.
pub fn under_floors() -> Vec<PriorBytes> {
    let children = [record_bytes(ONE_POINT[0], 2, 2), record_bytes(ONE_POINT[1], 1, 0)].concat();
    let mut lent = Vec::new();
    for floor in -1..=2 {
        for chosen in 1..16_u32 {
            let scales = (-2..=1).filter(|scale| chosen & (1 << (scale + 2)) != 0);
            // The counts tell the records apart.
            let node = |scale: i32| record_bytes(Address::new(scale, 7), (scale + 3) as u32, 1);
            let nodes = scales.flat_map(node).collect();
            lent.push(PriorBytes { nodes, children: children.clone(), floor });
        }
    }
    lent
}

/// Look-ups of every address of six in every chain of some of them, and of one before them all and one
/// past them: under a node at each of three scales, whose record is at the middle one, with no floor,
/// with one at the record's scale and with one past it.
pub fn every_chain() -> Vec<PriorsCase> {
    let nodes = [-1, 0, 1].map(|scale| Address::new(scale, 7));
    let known: Vec<Address> =
        nodes.iter().flat_map(|node| [3, 7].map(|point| Address::new(node.scale, point))).collect();
    let wanted = [&known[..], &[Address::new(-2, 9), Address::new(2, 0)]].concat();
    let asked: Vec<(Address, Address)> =
        nodes.iter().flat_map(|node| wanted.iter().map(|child| (*node, *child))).collect();
    let chosen = |choice: usize| -> Vec<Address> {
        (0..known.len()).filter(|index| choice & (1 << index) != 0).map(|index| known[index]).collect()
    };
    let lent = |choice: usize, floor: i32| priors::one_chain((nodes[1], 1), &chosen(choice), floor);
    (0..1 << known.len())
        .flat_map(|choice| [i32::MIN, 0, 1].map(|floor| lent(choice, floor)))
        .map(|priors| PriorsCase { priors, asked: asked.clone() })
        .collect()
}

/// Calls `each` with every list of exactly `adds` paths.
fn each_list<E>(
    addresses: [Address; 2],
    capacities: &[usize],
    (steps, adds): (usize, usize),
    (tables, priors): (&Tables, &PriorBytes),
    mut each: impl FnMut(&CallList) -> Result<(), E>,
) -> Result<(), E> {
    let paths: Vec<Vec<u8>> = paths(&addresses, steps).iter().map(|path| path_bytes(path)).collect();
    for window in [0, 1, 2, 3] {
        for capacity in capacities {
            for number in 0..paths.len().pow(adds as u32) {
                let mut calls = opening(window, *capacity);
                calls.push(Call::LendTables(tables.clone()));
                calls.push(Call::LendPriors(priors.clone()));
                calls.extend(chosen(&paths, adds, number));
                calls.extend(readings(addresses));
                each(&CallList { fill: 0xa5, calls })?;
            }
        }
    }
    Ok(())
}

fn opening(window: u32, capacity: usize) -> Vec<Call> {
    let queue_len = PLACE_BYTES * window as usize;
    vec![Call::Open { window, book_len: ENTRY_BYTES * capacity, queue_len }]
}

/// The list with this number: its digits choose the paths.
fn chosen(paths: &[Vec<u8>], adds: usize, mut number: usize) -> Vec<Call> {
    let mut calls = Vec::new();
    for _ in 0..adds {
        calls.push(Call::Add { path: paths[number % paths.len()].clone() });
        number /= paths.len();
    }
    calls
}

/// All five readings, of both addresses where a reading is of one node.
fn readings(addresses: [Address; 2]) -> Vec<Call> {
    let output = || Places { addresses: vec![0x11; 24], figures: vec![-1.0; 3] };
    let mut calls = vec![Call::AllNodeKl { output: output() }, Call::KlDivStats];
    for node in addresses {
        calls.push(Call::ProbVector { node, output: output() });
        calls.push(Call::EvidenceProbVector { node, output: output() });
        calls.push(Call::PosteriorKlDivergence { node });
    }
    calls
}
