//! The rules of docs/RULES.md as plain Rust, with no code of the library. `Recount` keeps W, H,
//! the list of accepted paths, and where in H listing begins since the last tidy, and works
//! everything out afresh at each call. `memory` carries out one call on lent bytes, whoever wrote
//! them. Both give the same `Evidence` to the readings, so the formulas stand once. `visits` and
//! `least`, the capacity that paths need, are counted from plain paths. Refusals carry the rules'
//! numbers.

mod address;
mod batch;
mod evidence;
mod figures;
mod least;
pub mod limits;
pub mod memory;
mod priors;
mod readings;
mod recount;
mod refusal;
mod stats;
mod tables;
mod training;
mod visits;

pub use address::{path_bytes, steps, word, Address};
pub use batch::Batch;
pub use evidence::{window_part, Evidence, NodeEvidence};
pub use figures::{is_minus_zero, same_figure, same_figures};
pub use least::least;
pub use memory::{add_path, add_paths, open, tidy, Memory};
pub use priors::{check_priors, child, record_bytes, ChildLookup, LentPriors, Prior, Priors};
pub use readings::{
    all_node_kl, evidence_prob_vector, kl_div_stats, posterior_kl_divergence, prob_vector, KLDivergenceStats,
    NodeKlList, Output, ProbVector, Tracker,
};
pub use recount::{entry_bytes, Recount};
pub use refusal::{refuse, Refusal};
pub use stats::{stats, KLDivergenceBaselineStats, MeanVariance};
pub use tables::{check_tables, LentTables};
pub use training::{train, Baseline, Sequences};
pub use visits::{step_count, visits};

/// The state beside book and queue.
#[derive(Debug, Clone, Copy, PartialEq, Eq, Default)]
pub struct State {
    /// The window, 0 for unlimited.
    pub window: u32,
    /// Entries used in the book.
    pub used: u32,
    /// Paths accepted.
    pub accepted: u32,
}
