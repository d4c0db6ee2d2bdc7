//! What holds goko, the recount and the recount's part for lent bytes together, entries to the window at the
//! last tidy and the paths since, counts to visits and used entries to the least capacity; the program
//! `compare` runs it on many cases, and `through` holds the archive's answers against goko's.
//! Without goko's sources the module `goko` compares nothing.

mod batches;
mod entries;
mod floors;
#[cfg(not(no_goko))]
pub mod goko;
#[cfg(no_goko)]
#[path = "no_goko.rs"]
pub mod goko;
mod kept;
mod laws;
mod listed;
mod lookups;
mod met;
mod orders;
pub mod own;
mod room;
mod visited;

pub use kept::Kept;
pub use laws::Laws;
pub use listed::Listed;
pub use met::{in_batched_lists, in_tidied_lists, Met};
pub use orders::Played;
pub use room::{hold_sequences, Room};
pub use visited::{Total, Visited};

use cases::exhaustive::Tried;
use cases::play::Answer;
use recount::Refusal;
use std::collections::BTreeMap;

/// What was compared, by kind.
#[derive(Debug, Default)]
pub struct Tally {
    /// Call lists, each played on the recount's history and on lent bytes.
    pub lists: u64,
    /// Openings and adds accepted, after which the counts were compared.
    pub changes: u64,
    /// Readings that both answer, or for which both have none.
    pub readings: u64,
    /// Trainings that both finish.
    pub trainings: u64,
    /// `stats` readings that both answer.
    pub stats: u64,
    /// Figures held against one another bit for bit.
    pub figures: u64,
    /// Calls that the recount refuses with 14, 15 or 18 and where goko breaks off as well.
    pub broken_off: u64,
    /// 14 for one node, where goko gives none.
    pub none_for_14: u64,
    /// Calls that the recount refuses by limits that goko does not have.
    pub not_comparable: u64,
    /// Adds on altered memory, each with a tidy of the same memory beside it.
    pub altered: u64,
    /// What the recount gave, by refusal number, 0 for an answer.
    pub numbers: BTreeMap<u32, u64>,
    /// What was tried of lists in every order.
    pub tried: Tried,
    /// Lists with tidies at every choice of places.
    pub tidied: u64,
    /// Lists whose paths are added at once.
    pub batched: u64,
    /// What was met of floors, child look-ups, visits, room, tidies and batches.
    pub met: Met,
}

impl Tally {
    /// Counts a result by its number.
    pub fn result<T>(&mut self, result: &Result<T, Refusal>) {
        self.refusal(result.as_ref().err());
    }

    fn refusal(&mut self, refusal: Option<&Refusal>) {
        *self.numbers.entry(refusal.map_or(0, |refusal| refusal.number)).or_default() += 1;
    }

    /// Counts an answer by its number; a lending has none.
    pub fn answer(&mut self, answer: &Answer) {
        if !matches!(answer, Answer::Lent) {
            self.refusal(answer.refusal().as_ref());
        }
    }

    /// Adds what another tally counted.
    pub fn join(&mut self, other: &Tally) {
        self.lists += other.lists;
        self.changes += other.changes;
        self.readings += other.readings;
        self.trainings += other.trainings;
        self.stats += other.stats;
        self.figures += other.figures;
        self.broken_off += other.broken_off;
        self.none_for_14 += other.none_for_14;
        self.not_comparable += other.not_comparable;
        self.altered += other.altered;
        for (number, count) in &other.numbers {
            *self.numbers.entry(*number).or_default() += count;
        }
        self.tried.join(other.tried);
        self.tidied += other.tidied;
        self.batched += other.batched;
        self.met.join(&other.met);
    }

    /// Fails where something that is to be met was not met at all.
    pub fn met_all(&self) -> Compared {
        must(self.tried.books > 0, || "no list was tried in every order".to_string())?;
        must(self.tidied > 0, || "no list was tried with tidies at every choice of places".to_string())?;
        must(self.batched > 0, || "no list was tried with its paths added at once".to_string())?;
        match &self.met.missing()[..] {
            [] => Ok(()),
            missing => Err(format!("nothing was compared of: {}", missing.join("; "))),
        }
    }

    /// Prints all of it.
    pub fn print(&self) {
        println!(
            "{} call lists, {} adds and as many tidies on altered memory: the recount's two parts agree",
            self.lists, self.altered
        );
        println!("the recount's results by refusal number, 0 for an answer: {:?}", self.numbers);
        self.print_rest();
    }

    /// Prints what was met and, if goko's sources were there, what was held against it.
    pub fn print_rest(&self) {
        let Tried { lists, orders, books } = self.tried;
        println!(
            "{} short lists in all their {} orders, in {} books: no 12 from the least capacity on, one or more below",
            lists, orders, books
        );
        println!("{} short lists with tidies at every choice of places, in every book", self.tidied);
        println!("{} short lists with their paths added at once, in every book", self.batched);
        self.met.print();
        if oracle::PRESENT {
            println!("with goko, {} figures bit for bit:", self.figures);
            println!("  {} openings and adds, all counts after each", self.changes);
            println!("  {} readings, {} trainings, {} stats", self.readings, self.trainings, self.stats);
            println!("  {} refusals by 14, 15 or 18 where goko breaks off", self.broken_off);
            println!("  {} refusals by 14 of one node where goko gives none", self.none_for_14);
            println!("  {} refusals by limits that goko does not have, not compared", self.not_comparable);
        }
    }
}

/// Nothing, or what differs.
pub type Compared = Result<(), String>;

/// Nothing where it holds, else what differs.
pub fn must(holds: bool, what: impl FnOnce() -> String) -> Compared {
    if holds {
        Ok(())
    } else {
        Err(what())
    }
}
