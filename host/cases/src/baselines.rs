//! Trainings, good and refused, and baselines to ask `stats` of.

use crate::calls::{PriorBytes, Tables};
use crate::paths::{path, place, universe_around};
use crate::rng::Rng;
use crate::{priors, tables};
use recount::limits::{ENTRY_BYTES, KNOT_VALUES, PLACE_BYTES, STEP_BYTES};
use recount::{path_bytes, Address, Baseline, Refusal, Sequences};

/// A training with all that it is lent.
#[derive(Debug, Clone)]
pub struct Training {
    /// The tables.
    pub tables: Tables,
    /// The priors.
    pub priors: PriorBytes,
    /// The book.
    pub book: Vec<u8>,
    /// s.
    pub sequences: u32,
    /// n.
    pub paths: u32,
    /// The rate.
    pub rate: u32,
    /// The queue places of all paths.
    pub places: Vec<u8>,
    /// The lent knots.
    pub knots: Vec<u32>,
    /// The lent values.
    pub values: Vec<f64>,
}

impl Training {
    /// Runs the training in place: book, knots and values are changed as lent slices are.
    pub fn run(&mut self) -> Result<u32, Refusal> {
        let sequences =
            Sequences { sequences: self.sequences, paths: self.paths, rate: self.rate, places: &self.places };
        let mut baseline = Baseline { knots: &mut self.knots, values: &mut self.values };
        recount::train(self.tables.lent(), self.priors.lent(), &mut self.book, sequences, &mut baseline)
    }

    /// The paths in whole places, each cut at 64 steps.
    pub fn given_paths(&self) -> impl Iterator<Item = Vec<Address>> + '_ {
        self.places.chunks_exact(PLACE_BYTES).map(|place| {
            let length = u32::from_le_bytes([place[0], place[1], place[2], place[3]]) as usize;
            place[4..].chunks(STEP_BYTES).take(length).map(Address::read).collect()
        })
    }

    /// The steps of all these paths.
    pub fn nodes(&self) -> Vec<Address> {
        self.given_paths().flatten().collect()
    }
}

/// A training of at most `sequences` times `paths` paths, lent priors with this floor.
pub fn training(rng: &mut Rng, (sequences, paths): (usize, usize), floor: i32) -> Training {
    let count = rng.between(1, 3);
    let addresses = universe_around(rng, count, floor);
    let (s, n) = (rng.between(1, sequences), rng.between(0, paths));
    let rate = rng.between(1, 3);
    let places = (0..s * n).flat_map(|_| random_place(rng, &addresses)).collect();
    let most = rng.pick(&[1, 3]);
    let lent_priors = match rng.below(8) {
        0 => priors::sparse(rng, &addresses, most, 85),
        _ => priors::whole(rng, &addresses, most),
    };
    let lent_priors = priors::floored(rng, lent_priors, floor);
    let last = (count + 1) * most + rng.pick(&[0, n, 3 * n, 3 * n]);
    let knots = n.div_ceil(rate) + rng.pick(&[0, 0, 1, 2]);
    let values = KNOT_VALUES * knots + rng.pick(&[0, 0, 3]);
    let capacity = rng.pick(&[1, 6, 12, 12, 12, 12]);
    let mut training = Training {
        tables: tables::good(rng, last.max(1)),
        priors: lent_priors,
        book: rng.bytes(ENTRY_BYTES * capacity),
        sequences: s as u32,
        paths: n as u32,
        rate: rate as u32,
        places,
        knots: (0..knots).map(|_| rng.bits() as u32).collect(),
        values: (0..values).map(|_| rng.figure()).collect(),
    };
    if rng.chance(35) {
        damage(rng, &mut training, &addresses);
    }
    training
}

/// A queue place with a path and bytes after its steps, which nobody reads.
fn random_place(rng: &mut Rng, addresses: &[Address]) -> Vec<u8> {
    let steps = path(rng, addresses, 4);
    place(steps.len() as u32, &path_bytes(&steps), rng.pick(&[0, 0x3c]))
}

/// Changes one thing, often to something that is refused.
fn damage(rng: &mut Rng, training: &mut Training, addresses: &[Address]) {
    match rng.below(9) {
        0 => training.rate = 0,
        1 => training.sequences = rng.pick(&[0, 65, training.sequences + 1]),
        2 => training.paths = rng.pick(&[65_537, u32::MAX, training.paths + 1]),
        3 => training.places.push(0),
        4 => training.knots.truncate(training.knots.len() / 2),
        5 => training.values.truncate(training.values.len().saturating_sub(rng.between(1, 25))),
        6 => training.book.truncate(training.book.len() - rng.between(1, ENTRY_BYTES)),
        7 => training.priors = PriorBytes { floor: training.priors.floor, ..priors::damaged(rng, addresses) },
        _ if !training.places.is_empty() => {
            let start = PLACE_BYTES * rng.below(training.places.len() / PLACE_BYTES);
            let length: u32 = rng.pick(&[0, 65, u32::MAX]);
            training.places[start..start + 4].copy_from_slice(&length.to_le_bytes());
        }
        _ => training.tables = tables::damaged(rng, 4),
    }
}

/// A baseline, and the lengths that `stats` is asked for.
#[derive(Debug, Clone)]
pub struct StatsAsked {
    /// s.
    pub sequences: u32,
    /// The knots.
    pub knots: Vec<u32>,
    /// Ten values a knot.
    pub values: Vec<f64>,
    /// The lengths.
    pub lengths: Vec<u32>,
}

/// The least figure above 0.
const LEAST: f64 = f64::from_bits(1);

/// A knot's values: the maxima's sum and squares, and zeros for the other figures.
fn knot_of(sum: f64, squares: f64) -> Vec<f64> {
    let mut values = vec![0.0; KNOT_VALUES];
    values[..2].copy_from_slice(&[sum, squares]);
    values
}

/// Baselines where minus zero comes out: as a mean, from a sum of minus zero or of the figure next
/// below 0 over two sequences; as a variance, from squares of minus zero; between knots, a quarter
/// of the way from minus zero to the figure next below it. And two knots of minus zero,
/// between which, below which and past which it must not.
pub fn minus_zeros() -> Vec<StatsAsked> {
    let at_knot = |sum: f64, squares: f64, sequences: u32| StatsAsked {
        sequences,
        knots: vec![1],
        values: knot_of(sum, squares),
        lengths: vec![0, 1],
    };
    let along = |left: f64, right: f64| {
        let values = [knot_of(left, 0.0), knot_of(right, 0.0)].concat();
        StatsAsked { sequences: 1, knots: vec![1, 5], values, lengths: vec![0, 1, 2, 3, 4, 5, 6, 9] }
    };
    vec![
        at_knot(-0.0, 0.0, 1),
        at_knot(-LEAST, 0.0, 2),
        at_knot(0.0, -0.0, 1),
        at_knot(-0.0, -0.0, 1),
        along(-0.0, -LEAST),
        along(-0.0, -0.0),
    ]
}

/// A baseline of at most `most` knots with lengths at, between and around them.
pub fn stats_asked(rng: &mut Rng, most: usize) -> StatsAsked {
    let mut knot = 0;
    let count = rng.between(0, most);
    let mut knots: Vec<u32> = Vec::new();
    for _ in 0..count {
        knots.push(knot + rng.between(usize::from(!knots.is_empty()), 5) as u32);
        knot = knots[knots.len() - 1];
    }
    let mut values: Vec<f64> = (0..KNOT_VALUES * knots.len()).map(|_| knot_value(rng)).collect();
    let mut sequences = rng.pick(&[1, 2, 3, 7, 64]);
    match rng.below(12) {
        0 => sequences = rng.pick(&[0, 65, u32::MAX]),
        1 => values.push(0.0),
        2 => values.truncate(values.len().saturating_sub(1)),
        3 => knots.reverse(),
        4 if !knots.is_empty() => *knots.last_mut().expect("there is a knot") = u32::MAX,
        _ => {}
    }
    let last = knots.last().copied().unwrap_or(3);
    let lengths = vec![0, 1, last / 2, last.saturating_sub(1), last, last.saturating_add(3), u32::MAX];
    StatsAsked { sequences, knots, values, lengths }
}

/// Mostly plain values, now and then what an empty record leaves, or what minus zero comes of.
fn knot_value(rng: &mut Rng) -> f64 {
    match rng.below(16) {
        0 => f64::INFINITY,
        1 => f64::MIN,
        2 => f64::MAX,
        3 => rng.pick(&[-0.0, LEAST, -LEAST]),
        _ => rng.figure(),
    }
}
