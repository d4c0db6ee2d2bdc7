//! How often each of the things was met that a run is to meet: what `floors`, `lookups`, `visited`, `room`,
//! `listed` and `batches` name.

use crate::{batches, floors, listed, lookups, room, visited};
use cases::shown;
use std::collections::BTreeMap;

type Kinds = Vec<&'static str>;

/// What is to be met, as far as goko's sources are there, by what it is of.
fn to_be_met() -> [(&'static str, Kinds); 6] {
    let kinds = |met: Kinds, with_goko: &[&'static str]| -> Kinds {
        met.into_iter().chain(with_goko.iter().copied().filter(|_| oracle::PRESENT)).collect()
    };
    [
        ("with floors", kinds(floors::MET.to_vec(), &floors::MET_WITH_GOKO)),
        ("of child look-ups", kinds(shown::all().collect(), &lookups::MET_WITH_GOKO)),
        ("of visits", kinds(visited::MET.to_vec(), &visited::MET_WITH_GOKO)),
        ("of room in the book", kinds(room::MET.to_vec(), &room::MET_WITH_GOKO)),
        ("of tidies", kinds([in_tidied_lists(), listed::ALTERED.to_vec()].concat(), &listed::MET_WITH_GOKO)),
        (
            "of batches",
            kinds([in_batched_lists(), batches::ALTERED.to_vec()].concat(), &batches::MET_WITH_GOKO),
        ),
    ]
}

/// What lists with tidies are to meet.
pub fn in_tidied_lists() -> Kinds {
    [&listed::IN_LISTS[..], &room::WITH_TIDIES].concat()
}

/// What lists with adds of several paths are to meet.
pub fn in_batched_lists() -> Kinds {
    batches::IN_LISTS.to_vec()
}

/// The numbers.
#[derive(Debug, Default)]
pub struct Met(BTreeMap<&'static str, u64>);

impl Met {
    /// Counts it where it was met.
    pub(crate) fn count(&mut self, what: &'static str, met: bool) {
        if met {
            *self.0.entry(what).or_default() += 1;
        }
    }

    /// Adds what another counted.
    pub fn join(&mut self, other: &Met) {
        for (what, count) in &other.0 {
            *self.0.entry(what).or_default() += count;
        }
    }

    /// Prints how often each was met.
    pub fn print(&self) {
        for (of, kinds) in to_be_met() {
            println!("{}:", of);
            kinds.iter().for_each(|what| println!("  {} {}", self.met(what), what));
        }
    }

    /// What was not met at all.
    pub fn missing(&self) -> Vec<&'static str> {
        let kinds = to_be_met().into_iter().flat_map(|(_, kinds)| kinds);
        kinds.filter(|what| self.met(what) == 0).collect()
    }

    fn met(&self, what: &str) -> u64 {
        self.0.get(what).copied().unwrap_or(0)
    }
}
