//! Stands in `hashbrown`'s place and hands on the map of the real one, so that goko's files are timed
//! over their own. Its order is arbitrary.

pub use own::HashMap;

/// Whether the map is ordered.
pub const ORDERED: bool = false;
