//! Stands for `hashbrown`: the map is ordered, so that goko's loops over its nodes go
//! ascending by address, as docs/RULES.md says. goko's own hash order is arbitrary; for timing alone
//! it can have its own map (bench/run.sh).

pub use std::collections::BTreeMap as HashMap;

/// Whether the map is ordered.
pub const ORDERED: bool = true;
