//! Stands for `rand`: the random choice hands out what it is given, in order. The first
//! choice of `n` takes the first `n` items, the next choice the `n` after them, and so on,
//! so that goko's `train` runs over given sequences. `restart` begins at the front again.

use std::cell::Cell;

thread_local! {
    static HANDED_OUT: Cell<usize> = const { Cell::new(0) };
}

/// Lets the next choice begin at the front.
pub fn restart() {
    HANDED_OUT.with(|at| at.set(0));
}

/// The source of choices: how many items were handed out before.
pub trait Rng {
    /// Where the next `amount` items begin.
    fn take(&mut self, amount: usize) -> usize;
}

/// The thread's source of choices.
pub struct ThreadRng;

impl Rng for ThreadRng {
    fn take(&mut self, amount: usize) -> usize {
        HANDED_OUT.with(|at| {
            let start = at.get();
            at.set(start + amount);
            start
        })
    }
}

/// The thread's source of choices.
pub fn thread_rng() -> ThreadRng {
    ThreadRng
}

/// Choices from a slice.
pub trait SliceRandom {
    /// What the slice holds.
    type Item;
    /// The next `amount` items, in order; fewer where the slice ends.
    fn choose_multiple<R: Rng>(&self, rng: &mut R, amount: usize) -> std::slice::Iter<'_, Self::Item>;
}

impl<T> SliceRandom for [T] {
    type Item = T;
    fn choose_multiple<R: Rng>(&self, rng: &mut R, amount: usize) -> std::slice::Iter<'_, T> {
        let start = rng.take(amount).min(self.len());
        let end = start.saturating_add(amount).min(self.len());
        self[start..end].iter()
    }
}

/// What goko's sampling names; sampling itself is no part of docs/RULES.md.
pub mod distributions {
    use super::Rng;
    use std::ops::Range;

    /// Something a value can be drawn from.
    pub trait Distribution<T> {
        /// The next value.
        fn sample<R: Rng>(&self, rng: &mut R) -> T;
    }

    /// The whole numbers of a range.
    pub struct Uniform(Range<usize>);

    impl From<Range<usize>> for Uniform {
        fn from(range: Range<usize>) -> Uniform {
            Uniform(range)
        }
    }

    impl Distribution<usize> for Uniform {
        fn sample<R: Rng>(&self, rng: &mut R) -> usize {
            self.0.start + rng.take(1) % self.0.len()
        }
    }
}

/// The names that goko takes all at once.
pub mod prelude {
    pub use super::distributions::Distribution;
    pub use super::{thread_rng, Rng, SliceRandom, ThreadRng};
}
