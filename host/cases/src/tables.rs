//! Tables: squares, values close to ln gamma and digamma, random ones, zeros of either sign, and broken ones. Only
//! once-rounded arithmetic makes them, so that every machine makes the same.

use crate::calls::Tables;
use crate::rng::Rng;
use recount::limits::{MAX_TABLE_ENTRY, THRESHOLD};

/// G(k) = k × k and D(k) = 4k up to index `last`, as in the check rows.
pub fn squares(last: usize) -> Tables {
    let table = |value: fn(f64) -> f64| (0..=last).map(|k| value(k as f64)).collect();
    Tables { g: table(|k| k * k), d: table(|k| 4.0 * k) }
}

/// Sums that come close to ln gamma and digamma; index 0 is NaN, since it is never read.
pub fn gamma(last: usize) -> Tables {
    let (mut g, mut d) = (vec![f64::NAN], vec![f64::NAN]);
    let (mut ln, mut ln_gamma, mut digamma) = (0.0, 0.0, -0.577_215_664_901_532_9);
    for k in 1..=last {
        g.push(ln_gamma);
        d.push(digamma);
        ln_gamma += ln;
        digamma += 1.0 / k as f64;
        ln += ln_step(k as f64);
    }
    Tables { g, d }
}

/// ln((k + 1) / k) as a series in 1 / (2k + 1).
fn ln_step(k: f64) -> f64 {
    let z = 1.0 / (2.0 * k + 1.0);
    let (mut power, mut sum) = (z, 0.0);
    for odd in (1..60).step_by(2) {
        sum += power / f64::from(odd);
        power *= z * z;
    }
    2.0 * sum
}

/// G is 0 and D(k) is k times the threshold, so that divergences lie at it and next to it.
pub fn threshold(last: usize) -> Tables {
    Tables { g: vec![0.0; last + 1], d: (0..=last).map(|k| k as f64 * THRESHOLD).collect() }
}

/// Any of the good tables, up to index `last`.
pub fn good(rng: &mut Rng, last: usize) -> Tables {
    match rng.below(8) {
        0 => squares(last),
        3 => threshold(last),
        4 => zeros(rng, last),
        1 => random(rng, last, MAX_TABLE_ENTRY),
        2 => random(rng, last, 1.0),
        _ => gamma(last),
    }
}

/// Zeros of either sign, and figures whose sums come back to them.
fn zeros(rng: &mut Rng, last: usize) -> Tables {
    let mut entry = |_| rng.pick(&[0.0, -0.0, 0.0, -0.0, 1.0, -1.0, f64::from_bits(1), -f64::from_bits(1)]);
    let g = (0..=last).map(&mut entry).collect();
    Tables { g, d: (0..=last).map(&mut entry).collect() }
}

fn random(rng: &mut Rng, last: usize, bound: f64) -> Tables {
    let mut entry = |_| rng.figure() / 8.0 * bound;
    let g = (0..=last).map(&mut entry).collect();
    Tables { g, d: (0..=last).map(&mut entry).collect() }
}

/// Good tables with one thing changed, often to something that 1 or 2 refuses.
pub fn damaged(rng: &mut Rng, last: usize) -> Tables {
    let mut tables = good(rng, last);
    let index = rng.between(0, last);
    let table = if rng.chance(50) { &mut tables.g } else { &mut tables.d };
    match rng.below(4) {
        0 => table.truncate(table.len() - 1),
        1 => table.push(0.0),
        2 => table.truncate(index),
        _ => table[index] = rng.pick(&ODD_ENTRIES),
    }
    tables
}

const ODD_ENTRIES: [f64; 8] = [
    f64::NAN,
    f64::INFINITY,
    f64::NEG_INFINITY,
    MAX_TABLE_ENTRY,
    -MAX_TABLE_ENTRY,
    MAX_TABLE_ENTRY + 0.000_244_140_625,
    -MAX_TABLE_ENTRY - 0.000_244_140_625,
    -0.0,
];
