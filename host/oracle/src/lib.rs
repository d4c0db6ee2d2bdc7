//! goko's tracker.rs, categorical.rs, dirichlet.rs and baseline.rs, and `internal_index` of its
//! tree.rs, compiled unchanged from where they lie, and calls on them for the comparison with docs/RULES.md. What the files
//! import is stood for by the shim crates and by the modules here. Without the files
//! (`no_goko`) the crate is empty but for `PRESENT`.

#[cfg(not(no_goko))]
#[macro_use]
mod printed;
#[cfg(not(no_goko))]
mod calls;
#[cfg(not(no_goko))]
mod caught;
#[cfg(not(no_goko))]
pub mod covertree;
#[cfg(not(no_goko))]
pub mod plugins;

/// Whether goko's files were there when this was built.
pub const PRESENT: bool = cfg!(not(no_goko));

#[cfg(not(no_goko))]
pub use self::present::*;

/// The names that goko's files take from their crate's root, and the calls.
#[cfg(not(no_goko))]
mod present {
    pub use crate::calls::{
        layer, lend_tables, stats, trace, train, train_with_length, Goko, NodeEvidence, Prior, ProbVector,
        Trace,
    };
    pub use crate::caught::Panic;
    pub use crate::covertree::{CoverTreeReader, PointCloud};

    /// A scale and a point, ordered by signed scale, then point, as in goko.
    pub type NodeAddress = (i32, usize);

    /// The one error of goko's that can come up: a point without a path.
    #[derive(Debug)]
    pub enum GokoError {
        /// The point is not among those given.
        IndexNotInTree(usize),
    }

    /// goko's result type.
    pub type GokoResult<T> = Result<T, GokoError>;
}
