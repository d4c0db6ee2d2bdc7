//! What the archive refuses in a day, as the line to look at and what is wrong there. The reader
//! has tested all that shows in a line; left over is what grows with the paths.

use crate::checks::no_room;
use crate::day::{Day, MAX_DAY_PATHS, MAX_ENTRIES};
use crate::mistakes::Problem;
use teakpool::{Address, Refusal};

/// Tells what is refused when the path of a line is added or read; the tables end at `last_index`.
pub fn told(day: &Day, last_index: u64, line: usize) -> impl Fn(Refusal) -> Problem + '_ {
    move |refusal| {
        let text = match refusal {
            Refusal::PathsFull => format!("a day has at most {} paths", MAX_DAY_PATHS),
            Refusal::BookFull => format!(
                "up to this path there are over {} nodes and transitions, more than a book holds",
                MAX_ENTRIES
            ),
            Refusal::PastTable(node) => return past_table(day, last_index, line, node),
            other => other.to_string(),
        };
        Problem { line, text }
    }
}

/// The prior is to blame where its counts alone leave no room for a path.
fn past_table(day: &Day, last_index: u64, line: usize, node: Address) -> Problem {
    match day.priors.of(node).filter(|prior| prior.total() >= last_index) {
        Some(prior) => Problem { line: prior.line, text: no_room(prior, last_index) },
        None => {
            let text = format!(
                "the counts of {}, in its prior and in the paths up to this one, pass {}, \
                 the last index of the tables",
                node, last_index
            );
            Problem { line, text }
        }
    }
}
