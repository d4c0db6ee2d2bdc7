//! Random call lists. Each is played on the recount while it is made, so that books, tables
//! and outputs can be a little too small, just large enough, or larger. Where tidies come between the
//! other calls, three of four books are sized by what is needed with them. Some paths may be added several
//! at once.

use crate::calls::{Call, CallList, Places, PriorBytes, Tables};
use crate::paths::{below, floor, lent_path, lent_places, universe_around, FOREIGN};
use crate::play::{Answer, History, Player};
use crate::rng::Rng;
use crate::{priors, tables};
use recount::limits::{ENTRY_BYTES, MAX_ENTRIES, MAX_WINDOW, PLACE_BYTES};
use recount::{check_priors, Address, Recount, Tracker};

/// Counts that a table leaves room for at most.
const MOST_AHEAD: usize = 32;

/// After a call where tidies come, the chance of one in a hundred.
const TIDY_HERE: usize = 20;

/// Of a hundred adds of several paths, how many have a last place that is cut off.
const CUT_OFF: usize = 20;

/// How large a list may become.
#[derive(Debug, Clone)]
pub struct Shape {
    /// The windows to choose from.
    pub windows: Vec<u32>,
    /// Most addresses.
    pub addresses: usize,
    /// Fewest and most adds after an opening.
    pub adds: (usize, usize),
    /// Most steps of a usual path.
    pub steps: usize,
    /// Of a hundred paths, how many have a length around the limits.
    pub bad_paths: usize,
    /// After an add, the chance of readings in a hundred.
    pub readings: usize,
    /// Most openings that are accepted.
    pub openings: usize,
    /// Largest prior counts to choose from.
    pub counts: Vec<usize>,
    /// Whether books may be too small for the paths.
    pub short_books: bool,
    /// Of a hundred lists, how many have a floor with scales below it.
    pub floors: usize,
    /// Of a hundred adds, how many are followed by a tidy before the next one.
    pub tidies: usize,
    /// Of a hundred adds, how many are of several paths.
    pub batches: usize,
}

impl Shape {
    /// Lists over few addresses, with all windows that are short.
    pub fn small() -> Shape {
        Shape {
            windows: vec![0, 1, 2, 3, 7],
            addresses: 5,
            adds: (0, 12),
            steps: 5,
            bad_paths: 8,
            readings: 40,
            openings: 2,
            counts: vec![1, 3, 10],
            short_books: true,
            floors: 33,
            tidies: 0,
            batches: 0,
        }
    }

    /// Lists with tidies, and windows that are soon passed.
    pub fn tidied() -> Shape {
        Shape { windows: vec![0, 1, 1, 2, 3], tidies: 40, ..Shape::small() }
    }

    /// Lists with adds of several paths, and tidies after so many of a hundred adds.
    pub fn batched(tidies: usize) -> Shape {
        Shape { windows: vec![0, 1, 2, 3], tidies, batches: 60, ..Shape::small() }
    }

    /// Lists that go past a long window.
    pub fn long(window: u32) -> Shape {
        Shape {
            windows: vec![window],
            addresses: 4,
            adds: (window as usize + 20, window as usize + 40),
            steps: 3,
            bad_paths: 1,
            readings: 1,
            openings: 1,
            counts: vec![10],
            short_books: false,
            floors: 50,
            tidies: 0,
            batches: 0,
        }
    }
}

/// A call list of at most that size.
pub fn call_list(rng: &mut Rng, shape: &Shape) -> CallList {
    let count = rng.between(1, shape.addresses);
    let floor = if shape.floors == 0 { i32::MIN } else { floor(rng, shape.floors) };
    let universe = universe_around(rng, count, floor);
    let player = Player::new(History::default());
    let mut maker = Maker { universe, floor, player, calls: Vec::new(), tidying: false };
    for _ in 0..rng.between(1, shape.openings) {
        maker.stretch(rng, shape);
    }
    CallList { fill: rng.pick(&[0, 0xa5, 0xff]), calls: maker.calls }
}

struct Maker {
    universe: Vec<Address>,
    floor: i32,
    player: Player<History>,
    calls: Vec<Call>,
    /// Whether tidies come between the calls now.
    tidying: bool,
}

impl Maker {
    fn play(&mut self, call: Call) -> Answer {
        let answer = self.player.play(&call);
        self.calls.push(call);
        answer
    }

    /// A call, and now and then a tidy after it.
    fn call(&mut self, rng: &mut Rng, call: Call) -> Answer {
        let answer = self.play(call);
        if self.tidying && rng.chance(TIDY_HERE) {
            self.play(Call::Tidy);
        }
        answer
    }

    /// An opening and what follows it, up to the next.
    fn stretch(&mut self, rng: &mut Rng, shape: &Shape) {
        let window = rng.pick(&shape.windows);
        let paths: Vec<Vec<u8>> = (0..rng.between(shape.adds.0, shape.adds.1))
            .map(|_| lent_path(rng, &self.universe, shape.steps, shape.bad_paths))
            .collect();
        let tidied: Vec<bool> = match shape.tidies {
            0 => vec![false; paths.len()],
            percent => paths.iter().map(|_| rng.chance(percent)).collect(),
        };
        let with_tidies = tidied.contains(&true) && rng.chance(75);
        let needed = needed(window, &paths, |path| with_tidies && tidied[path]);
        let book_len = ENTRY_BYTES * capacity(rng, needed, shape.short_books);
        let queue_len = PLACE_BYTES * window as usize + rng.pick(&[0, 0, 0, 1, 515, 516]);
        if rng.chance(15) {
            let opening = refused_opening(rng, window, book_len);
            self.call(rng, opening);
        }
        self.tidying = shape.tidies > 0;
        self.call(rng, Call::Open { window, book_len, queue_len });
        if shape.readings > 0 {
            let steps: usize = paths.iter().map(|path| path.len() / 8).sum();
            self.lend(rng, shape, steps.min(MOST_AHEAD));
        }
        let mut first = 0;
        while first < paths.len() {
            let (add, count) = next_add(rng, shape, &paths[first..]);
            self.tidying = tidied[first..first + count].contains(&true);
            self.add(rng, shape, add);
            first += count;
        }
        if shape.readings > 0 {
            self.readings(rng, shape);
        }
        if rng.chance(15) {
            let opening = refused_opening(rng, window, book_len);
            self.call(rng, opening);
        }
    }

    /// An add, and what follows it up to the next. Where a tidy does, a path for which there was no room is
    /// tried again, with those that were to come after it.
    fn add(&mut self, rng: &mut Rng, shape: &Shape, add: Call) {
        let answer = self.call(rng, add.clone());
        if rng.chance(shape.readings) {
            self.readings(rng, shape);
        }
        if self.tidying {
            self.play(Call::Tidy);
            if answer.number() == 12 {
                self.play(rest(add, &answer));
            }
        }
    }

    /// Lends tables and priors anew. Tables end just where they must, or next to it, or leave
    /// room for `ahead` more counts.
    fn lend(&mut self, rng: &mut Rng, shape: &Shape, ahead: usize) {
        let most = rng.pick(&shape.counts);
        let lent_priors = match rng.below(10) {
            0 => priors::damaged(rng, &self.universe),
            1 | 2 => priors::sparse(rng, &self.universe, most, 75),
            3..=5 => priors::fewer_nodes(rng, &self.universe, most),
            _ => priors::whole(rng, &self.universe, most),
        };
        let lent_priors = self.with_floor(rng, lent_priors);
        let last = self.table_end(rng, &lent_priors, ahead);
        let lent_tables: Tables = match rng.below(12) {
            0 => tables::damaged(rng, last),
            _ => tables::good(rng, last),
        };
        self.call(rng, Call::LendPriors(lent_priors));
        self.call(rng, Call::LendTables(lent_tables));
    }

    /// The list's floor, now and then one next to it or none.
    fn with_floor(&self, rng: &mut Rng, lent_priors: PriorBytes) -> PriorBytes {
        if self.floor == i32::MIN {
            return lent_priors;
        }
        let near = [self.floor - 1, self.floor.saturating_add(1), i32::MIN];
        let floor = if rng.chance(20) { rng.pick(&near) } else { self.floor };
        if check_priors(lent_priors.lent()).is_err() {
            return PriorBytes { floor, ..lent_priors };
        }
        priors::floored(rng, lent_priors, floor)
    }

    /// A last index: the greatest U, or around it, or `ahead` past it.
    fn table_end(&self, rng: &mut Rng, lent_priors: &PriorBytes, ahead: usize) -> usize {
        let evidence = self.player.side.evidence().expect("the recount's tracker is in form");
        let greatest = check_priors(lent_priors.lent()).ok().and_then(|checked| {
            let seen = evidence.nodes.iter().filter_map(|(node, counted)| {
                checked.node(*node).map(|prior| prior.total() + counted.total())
            });
            seen.chain(checked.nodes.iter().map(|prior| prior.total())).max()
        });
        let greatest = greatest.unwrap_or(1).min(100) as usize;
        let last = match rng.below(8) {
            0 => greatest - 1,
            1 => greatest,
            2 => greatest + 1,
            _ => greatest + ahead,
        };
        last.max(1)
    }

    /// Some of the five readings.
    fn readings(&mut self, rng: &mut Rng, shape: &Shape) {
        if rng.chance(20) {
            self.lend(rng, shape, MOST_AHEAD / 4);
        }
        for _ in 0..rng.between(2, 5) {
            let node = self.asked_node(rng);
            let output = Places::default();
            let call = match rng.below(6) {
                0 => Call::ProbVector { node, output },
                1 => Call::EvidenceProbVector { node, output },
                2 => Call::PosteriorKlDivergence { node },
                3 => Call::AllNodeKl { output },
                _ => Call::KlDivStats,
            };
            let call = self.with_places(rng, call);
            self.call(rng, call);
        }
    }

    /// Mostly a listed node, else any of the universe, or one outside it.
    fn asked_node(&self, rng: &mut Rng) -> Address {
        let evidence = self.player.side.evidence().expect("the recount's tracker is in form");
        let listed: Vec<Address> = evidence.nodes.keys().copied().collect();
        match rng.below(10) {
            0 => FOREIGN,
            1 if self.floor != i32::MIN => {
                Address::new(below(rng, self.floor), rng.pick(&self.universe).point)
            }
            1 | 2 => rng.pick(&self.universe),
            _ if listed.is_empty() => rng.pick(&self.universe),
            _ => rng.pick(&listed),
        }
    }

    /// Gives a reading output places, around as many as its answer fills.
    fn with_places(&mut self, rng: &mut Rng, mut call: Call) -> Call {
        let ample = self.universe.len() + 1;
        match call.output() {
            Some(output) => *output = places(rng, ample, 0),
            None => return call,
        }
        let filled = match self.player.play(&call) {
            Answer::Vector(Ok(Some(vector)), _) => vector.places as usize,
            Answer::List(Ok(list), _) => list.places as usize,
            _ => rng.below(3),
        };
        let count = (filled + rng.pick(&[0, 0, 1, 2])).saturating_sub(usize::from(rng.chance(12)));
        let extra = rng.pick(&[0, 0, 0, 3, 7]);
        if let Some(output) = call.output() {
            *output = places(rng, count, extra);
        }
        call
    }
}

/// The next path by itself, or the next ones at once, none of them among the choices; and how many they are.
fn next_add(rng: &mut Rng, shape: &Shape, paths: &[Vec<u8>]) -> (Call, usize) {
    if shape.batches == 0 || !rng.chance(shape.batches) {
        return (Call::Add { path: paths[0].clone() }, 1);
    }
    let count = rng.pick(&[0, 1, 2, 3, 5, 40]).min(paths.len());
    (Call::AddPaths { places: lent_places(rng, &paths[..count], CUT_OFF) }, count)
}

/// What an add has left to be added.
fn rest(add: Call, answer: &Answer) -> Call {
    match (add, answer) {
        (Call::AddPaths { places }, Answer::Batch(batch)) => {
            Call::AddPaths { places: places[PLACE_BYTES * batch.taken as usize..].to_vec() }
        }
        (add, _) => add,
    }
}

/// Places that hold something, now and then one more in either slice; `extra` bytes after the
/// last whole address.
fn places(rng: &mut Rng, count: usize, extra: usize) -> Places {
    let (addresses, figures) = rng.pick(&[(0, 0), (0, 0), (0, 1), (1, 0)]);
    Places {
        addresses: rng.bytes(8 * (count + addresses) + extra),
        figures: (0..count + figures).map(|_| rng.figure()).collect(),
    }
}

/// The most entries that the paths need at any time, with tidies after those that `tidied` says.
fn needed(window: u32, paths: &[Vec<u8>], tidied: impl Fn(usize) -> bool) -> usize {
    let mut ample = Recount::open(window, ENTRY_BYTES * MAX_ENTRIES, PLACE_BYTES * window as usize)
        .expect("the largest book is taken");
    let mut most = 0;
    for (number, path) in paths.iter().enumerate() {
        // A refused path needs no entries.
        let _ = ample.add_path(path);
        if tidied(number) {
            most = most.max(ample.state().used);
            ample.tidy();
        }
    }
    most.max(ample.state().used) as usize
}

/// A book's entries: as many as are needed, or around that if books may be short.
fn capacity(rng: &mut Rng, needed: usize, short: bool) -> usize {
    match rng.below(8) {
        _ if !short => needed,
        0 => needed / 2,
        1 => needed.saturating_sub(2),
        2 => needed.saturating_sub(1),
        3 | 4 => needed,
        _ => needed + rng.between(1, 3),
    }
    .max(1)
}

/// An opening that 8 or 9 turns back.
fn refused_opening(rng: &mut Rng, window: u32, book_len: usize) -> Call {
    let queue_len = PLACE_BYTES * window as usize;
    let (window, book_len, queue_len) = match rng.below(5) {
        0 => (MAX_WINDOW + 1, book_len, queue_len),
        1 => (u32::MAX, book_len, queue_len),
        2 => (window, book_len + rng.between(1, 23), queue_len),
        3 => (window, 0, queue_len),
        _ => (window + 1, book_len, queue_len + PLACE_BYTES - 1),
    };
    Call::Open { window, book_len, queue_len }
}
