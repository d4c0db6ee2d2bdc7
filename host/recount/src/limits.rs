//! The limits of docs/RULES.md.

/// Largest window.
pub const MAX_WINDOW: u32 = 1_024;
/// Steps of the longest path.
pub const MAX_STEPS: usize = 64;
/// Bytes of a step: scale and point.
pub const STEP_BYTES: usize = 8;
/// Bytes of a book entry.
pub const ENTRY_BYTES: usize = 24;
/// Entries of the largest book.
pub const MAX_ENTRIES: usize = 16_384;
/// Bytes of a queue place: length and 64 steps.
pub const PLACE_BYTES: usize = 516;
/// Paths that a tracker accepts at most.
pub const MAX_ACCEPTED: u32 = 16_777_216;
/// Largest count that the form allows.
pub const MAX_COUNT: u32 = 1 << 30;
/// Shortest and longest table, index 0 included.
pub const TABLE_LENGTHS: std::ops::RangeInclusive<usize> = 2..=1_048_576;
/// Bound on a table's entries, both ways.
pub const MAX_TABLE_ENTRY: f64 = 1_099_511_627_776.0;
/// Bytes of a node record and of a child record.
pub const RECORD_BYTES: usize = 16;
/// Most node records.
pub const MAX_NODES: usize = 4_096;
/// Most child records.
pub const MAX_CHILDREN: usize = 16_384;
/// Most children in one chain.
pub const MAX_CHAIN: usize = 64;
/// A divergence counts in the statistics when strictly above this.
pub const THRESHOLD: f64 = 1.0e-10;
/// Numbers of sequences in a training or a baseline.
pub const SEQUENCES: std::ops::RangeInclusive<u32> = 1..=64;
/// Most paths of a sequence.
pub const MAX_PATHS: u32 = 65_536;
/// Most knots.
pub const MAX_KNOTS: usize = 1_024;
/// Values of a knot.
pub const KNOT_VALUES: usize = 10;
