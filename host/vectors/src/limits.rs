//! The largest sizes in the recorded files, so that a reader can have fixed buffers. Replaying
//! a case that is larger fails.

/// Sizes of what a call list is lent.
pub struct Sizes {
    pub book_bytes: usize,
    pub queue_bytes: usize,
}

/// In calls.bin, readings.bin, tidies.bin and batches.bin.
pub const SMALL: Sizes = Sizes { book_bytes: 64 * 24, queue_bytes: 9 * 516 };
/// In large.bin.
pub const LARGE: Sizes = Sizes { book_bytes: 16_385 * 24, queue_bytes: 1_024 * 516 };

/// Bytes of a path.
pub const PATH_BYTES: usize = 520;
/// Entries of either table.
pub const TABLE_ENTRIES: usize = 128;
/// Node records' bytes.
pub const NODE_BYTES: usize = 8 * 16;
/// Child records' bytes.
pub const CHILD_BYTES: usize = 65 * 16;
/// Output places, in bytes of addresses and in figures.
pub const OUTPUT_BYTES: usize = 8 * 8;
/// Output figures.
pub const OUTPUT_FIGURES: usize = 8;
/// Places' bytes of an add of several paths.
pub const BATCH_BYTES: usize = 10 * 516;
/// Places' bytes of a training.
pub const TRAINING_BYTES: usize = 16 * 516;
/// Words of a case.
pub const CASE_WORDS: usize = 4_096;
/// Lent knots.
pub const KNOTS: usize = 8;

/// Fails where `size` is over `most`.
pub fn within(what: &str, size: usize, most: usize) -> Result<(), String> {
    if size <= most {
        Ok(())
    } else {
        Err(format!("{}: {} is over the {} of the README", what, size, most))
    }
}
