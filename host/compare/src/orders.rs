//! Holds what a list of paths came to, in some order and some book, to the least capacity of its paths.

use crate::{must, Compared};
use cases::exhaustive::Ordered;

/// What the calls of a list came to.
#[derive(Debug)]
pub struct Played {
    /// The number that each was answered, 0 where it was not refused.
    pub numbers: Vec<u32>,
    /// Entries used at the end.
    pub used: u32,
}

impl Played {
    /// From the least capacity on every add is taken, and as many entries are used in the end; in a smaller
    /// book some add gets 12, and each that does not is taken.
    pub fn hold_order(&self, case: &Ordered) -> Compared {
        let (opening, adds) = self.numbers.split_first().ok_or("there is no opening")?;
        let (enough, short) = (case.capacity >= case.least, adds.contains(&12));
        let answered = *opening == 0 && adds.iter().all(|number| [0, 12].contains(number));
        let used = self.used as usize;
        let fits = if enough { used == case.least } else { used <= case.capacity };
        must(answered && enough != short && fits, || format!("{:?} came to {:?}", case, self))
    }
}
