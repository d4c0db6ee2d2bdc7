//! goko prints a line for each node it skips for want of a prior. Here the line is counted
//! instead: that count is the number skipped in docs/RULES.md.

use std::cell::Cell;

thread_local! {
    static LINES: Cell<u64> = const { Cell::new(0) };
}

/// Counts one line.
pub fn count_line(_line: std::fmt::Arguments) {
    LINES.with(|lines| lines.set(lines.get() + 1));
}

/// The lines counted on this thread since the last asking.
pub fn take_lines() -> u64 {
    LINES.with(|lines| lines.replace(0))
}

/// Takes the place of the standard macro in goko's files.
macro_rules! println {
    ($($line:tt)*) => {
        $crate::printed::count_line(format_args!($($line)*))
    };
}
