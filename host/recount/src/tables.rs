//! The lent tables G and D of ln gamma and digamma (refusals 1 and 2). Index k holds the
//! value at k; index 0 is never read, and never tested.

use crate::limits::{MAX_TABLE_ENTRY, TABLE_LENGTHS};
use crate::refusal::{refuse, Refusal};

/// Both tables.
#[derive(Debug, Clone, Copy)]
pub struct LentTables<'a> {
    /// ln gamma.
    pub g: &'a [f64],
    /// digamma.
    pub d: &'a [f64],
}

impl LentTables<'_> {
    /// The last index of either table.
    pub fn last_index(&self) -> u64 {
        self.g.len() as u64 - 1
    }
}

/// Refusals 1 and 2.
pub fn check_tables(tables: LentTables) -> Result<(), Refusal> {
    let LentTables { g, d } = tables;
    refuse(1, g.len() != d.len() || !TABLE_LENGTHS.contains(&g.len()))?;
    let within = |entry: &f64| (-MAX_TABLE_ENTRY..=MAX_TABLE_ENTRY).contains(entry);
    refuse(2, !(g[1..].iter().all(within) && d[1..].iter().all(within)))
}
