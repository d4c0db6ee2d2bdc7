//! Tables of ln gamma and digamma at whole numbers.
//!
//! Going from k to k + 1, ln gamma grows by ln k, digamma by 1 / k, and ln k by
//! 2 (z + z³ / 3 + z⁵ / 5 + ..) with z = 1 / (2k + 1). The sums are kept in two numbers each, so that
//! a million additions lose nothing that shows. Nothing but the four operations is used, in the order
//! of `include/teakpool_tables.h`, so that both give the same bits on every machine.

/// Minus Euler's constant: digamma at 1.
const DIGAMMA_1: Pair = Pair { high: -0.577_215_664_901_532_9, low: 4.942_915_152_430_645e-18 };

/// Entries of the longest tables that a call takes.
#[cfg(feature = "std")]
const MAX_TABLE: usize = 1_048_576;

/// A number in two parts, the second below the last bit of the first.
#[derive(Clone, Copy)]
struct Pair {
    high: f64,
    low: f64,
}

impl Pair {
    const ZERO: Pair = Pair { high: 0.0, low: 0.0 };

    /// What is lost of the first parts' sum is worked out exactly, and added to the second.
    fn plus(self, other: Pair) -> Pair {
        let added = self.high + other.high;
        let part = added - self.high;
        let lost = ((self.high - (added - part)) + (other.high - part)) + (self.low + other.low);
        let high = added + lost;
        Pair { high, low: lost - (high - added) }
    }

    /// 1 / n of a whole number n below 2^24. The quotient's first 24 bits times n, the others times
    /// n, and what is left of 1 are exact.
    fn inverse(n: f64) -> Pair {
        let high = 1.0 / n;
        let first = f64::from(high as f32);
        let others = high - first;
        Pair { high, low: ((1.0 - first * n) - others * n) / n }
    }

    /// ln (k + 1), from ln k.
    fn next_ln(self, k: f64) -> Pair {
        let z = Pair::inverse(2.0 * k + 1.0);
        let square = z.high * z.high;
        let (mut power, mut odd, mut tail) = (z.high * square, 3.0, 0.0);
        while power > 1.0e-26 {
            tail += power / odd;
            power *= square;
            odd += 2.0;
        }
        self.plus(Pair { high: 2.0 * z.high, low: 2.0 * z.low }).plus(Pair { high: 2.0 * tail, low: 0.0 })
    }
}

/// Fills `g` with ln gamma and `d` with digamma, as far as both reach: index k gets the value at k,
/// and index 0, which no call reads, 0. No value up to index 1,048,575 is further than 2 units in the
/// last place from the true one (at most 0.51 measured).
///
/// ```
/// use teakpool::{fill_gamma_tables, Tables};
///
/// let (mut g, mut d) = ([0.0; 8], [0.0; 8]);
/// fill_gamma_tables(&mut g, &mut d);
/// assert_eq!(Tables::new(&g, &d).check(), Ok(()));
/// assert_eq!(g[3], std::f64::consts::LN_2);
/// ```
pub fn fill_gamma_tables(g: &mut [f64], d: &mut [f64]) {
    let (mut ln, mut ln_gamma, mut digamma) = (Pair::ZERO, Pair::ZERO, DIGAMMA_1);
    for (k, (g, d)) in g.iter_mut().zip(d).enumerate() {
        if k == 0 {
            (*g, *d) = (0.0, 0.0);
            continue;
        }
        let k = k as f64;
        (*g, *d) = (ln_gamma.high, digamma.high);
        ln_gamma = ln_gamma.plus(ln);
        digamma = digamma.plus(Pair::inverse(k));
        ln = ln.next_ln(k);
    }
}

/// Tables of ln gamma and digamma.
#[cfg(feature = "std")]
#[derive(Debug, Clone, PartialEq)]
pub struct GammaTables {
    /// ln gamma.
    pub g: std::vec::Vec<f64>,
    /// digamma.
    pub d: std::vec::Vec<f64>,
}

#[cfg(feature = "std")]
impl GammaTables {
    /// The tables as lent.
    pub fn lent(&self) -> crate::Tables<'_> {
        crate::Tables::new(&self.g, &self.d)
    }
}

/// Tables of ln gamma and digamma at 1 to `n`, so of n + 1 entries, as [`fill_gamma_tables`] fills
/// them. A call takes tables with an `n` of 1 to 1,048,575; [`Refusal::PastTable`] says which it needs.
/// A greater `n` gives tables of one entry too many, and a call refuses them by
/// [`Refusal::TableLengths`].
///
/// ```
/// use teakpool::{gamma_tables, Refusal};
///
/// let tables = gamma_tables(40);
/// assert_eq!((tables.g.len(), tables.d.len()), (41, 41));
/// assert_eq!(tables.lent().check(), Ok(()));
/// assert!((tables.d[1] + 0.577_215_664_901_532_9).abs() < 1.0e-15);
/// assert_eq!(gamma_tables(1_048_576).lent().check(), Err(Refusal::TableLengths));
/// ```
///
/// [`Refusal::PastTable`]: crate::Refusal::PastTable
/// [`Refusal::TableLengths`]: crate::Refusal::TableLengths
#[cfg(feature = "std")]
pub fn gamma_tables(n: usize) -> GammaTables {
    let length = n.min(MAX_TABLE) + 1;
    let mut tables = GammaTables { g: std::vec![0.0; length], d: std::vec![0.0; length] };
    fill_gamma_tables(&mut tables.g, &mut tables.d);
    tables
}

#[cfg(all(test, feature = "std"))]
mod tests {
    use super::{fill_gamma_tables, gamma_tables, MAX_TABLE};
    use crate::Refusal;

    /// Values worked out to 36 digits, and a hash of all bits; the C header is held against it too.
    const RECORDED: &str = include_str!("../tests/gamma.txt");
    const LAST: usize = 1_048_575;

    /// A recorded value is read correctly rounded, so that a neighbour of it is less than 2 units in
    /// the last place from the true one.
    fn is_close(value: f64, recorded: &str) -> bool {
        let recorded: f64 = recorded.parse().expect("a number");
        value.to_bits().abs_diff(recorded.to_bits()) <= 1
    }

    #[test]
    fn recorded_values() {
        let tables = gamma_tables(LAST);
        let mut values = 0;
        for line in RECORDED.lines().filter(|line| !line.starts_with('#') && !line.starts_with("hash")) {
            let mut words = line.split(' ');
            let k: usize = words.next().and_then(|k| k.parse().ok()).expect("an index");
            for table in [&tables.g, &tables.d] {
                assert!(is_close(table[k], words.next().expect("a value")), "{} at {}", table[k], k);
                values += 1;
            }
        }
        assert!(values > 40);
    }

    #[test]
    fn recorded_bits() {
        let tables = gamma_tables(LAST);
        let hash = tables.g.iter().chain(&tables.d).fold(14_695_981_039_346_656_037_u64, |hash, value| {
            (hash ^ value.to_bits()).wrapping_mul(1_099_511_628_211)
        });
        let recorded = RECORDED.lines().find_map(|line| line.strip_prefix("hash ")).expect("a hash");
        assert_eq!(hash, u64::from_str_radix(recorded, 16).expect("sixteen digits"));
    }

    #[test]
    fn short_and_unequal_tables() {
        let (mut g, mut d) = ([7.0; 3], [7.0; 2]);
        fill_gamma_tables(&mut g, &mut d);
        assert_eq!((g, d[0]), ([0.0, 0.0, 7.0], 0.0));
        fill_gamma_tables(&mut [], &mut []);
        assert_eq!(gamma_tables(0).g, [0.0]);
    }

    #[test]
    fn tables_that_are_too_long() {
        assert_eq!(gamma_tables(MAX_TABLE - 1).lent().check(), Ok(()));
        for n in [MAX_TABLE, usize::MAX - 1, usize::MAX] {
            let tables = gamma_tables(n);
            assert_eq!((tables.g.len(), tables.d.len()), (MAX_TABLE + 1, MAX_TABLE + 1));
            assert_eq!(tables.lent().check(), Err(Refusal::TableLengths));
        }
    }
}
