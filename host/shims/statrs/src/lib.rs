//! Stands for `statrs`: ln gamma and digamma are looked up in the lent tables G and D, at the
//! index that the argument is. A look-up past the last index panics with `PastTableEnd`, one
//! at index 0 or between whole numbers with a message, since docs/RULES.md has neither.

/// The functions by the path that goko names.
pub mod function {
    /// ln gamma and digamma over the lent tables.
    pub mod gamma {
        use std::cell::RefCell;

        /// What a look-up past the last index panics with.
        #[derive(Debug, Clone, Copy, PartialEq, Eq)]
        pub struct PastTableEnd;

        thread_local! {
            static TABLES: RefCell<(Vec<f64>, Vec<f64>)> = const { RefCell::new((Vec::new(), Vec::new())) };
        }

        /// Lends the tables G and D to this thread's look-ups.
        pub fn lend(ln_gamma: &[f64], digamma: &[f64]) {
            TABLES.with(|tables| *tables.borrow_mut() = (ln_gamma.to_vec(), digamma.to_vec()));
        }

        /// G at `x`.
        pub fn ln_gamma(x: f64) -> f64 {
            TABLES.with(|tables| at(&tables.borrow().0, x))
        }

        /// D at `x`.
        pub fn digamma(x: f64) -> f64 {
            TABLES.with(|tables| at(&tables.borrow().1, x))
        }

        fn at(table: &[f64], x: f64) -> f64 {
            let index = x as usize;
            assert!(index as f64 == x && index > 0, "a table was read at {}", x);
            match table.get(index) {
                Some(value) => *value,
                None => std::panic::panic_any(PastTableEnd),
            }
        }
    }
}
