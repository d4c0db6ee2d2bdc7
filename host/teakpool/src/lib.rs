//! The drift watch of a steering kit as a safe Rust crate over the proved archive, for x86-64 Linux.
//! A [`Tracker`] counts the paths that a machine takes through a tree of nodes, in a book and a queue
//! that it is lent, one by one or [a list at a time](Tracker::add_paths), and [tidies](Tracker::tidy) the
//! book when it is told to; [`Tables`] and [`Priors`] are lent to readings and trainings, and a child's
//! count can be asked for in priors alone; a [`Baseline`] tells what figures are usual at a sequence length.
//! The rules are in the repository's docs/RULES.md.
//!
//! A call that is turned back gives a [`Refusal`] and changes nothing that it was lent, but for a
//! training that has begun, and for a list of paths, which gives [`Stopped`] and keeps those before the
//! refused one. A reading that has no answer gives `Ok(None)`, a look-up of a child that is not there `Ok`
//! with no count. Nothing is allocated by a call, and nothing is kept between calls.
//!
//! Figures are promised by their 64 bits (`f64::to_bits`), any NaN as any NaN; `==` on the answers holds
//! plus zero and minus zero equal, as Rust does. No reading tells minus zero; [`Baseline::stats`] can.
//!
#![cfg_attr(feature = "std", doc = "```")]
#![cfg_attr(not(feature = "std"), doc = "```ignore")]
//! use teakpool::*;
//!
//! // By the prior, paths ended at 1/7 once, went on to 0/7 twice and to 0/9 three times.
//! let (node, seven, nine) = (Address::new(1, 7), Address::new(0, 7), Address::new(0, 9));
//! let mut records = PriorRecords::default();
//! records.node(node, 1, &[(seven, 2), (nine, 3)]);
//!
//! // The prior's total is 6, and each of the window's 4 paths meets the node once at most.
//! let tables = gamma_tables(6 + 4);
//! let (tables, priors) = (tables.lent(), records.lent());
//!
//! let (mut book, mut queue) = ([0; 64 * ENTRY_BYTES], [0; 4 * PLACE_BYTES]);
//! let mut tracker = Tracker::open(4, &mut book, &mut queue)?;
//! for path in [[node, nine], [node, seven], [node, node]] {
//!     match try_path(tables, priors, &path) {
//!         Ok(()) => tracker.add_path(&path)?,
//!         // A transition that the prior has never seen is a finding, and the path stays out.
//!         Err(Refusal::MissingChild(at)) => assert_eq!((at, path[1]), (node, node)),
//!         Err(refusal) => return Err(refusal),
//!     }
//! }
//!
//! let stats = tracker.kl_div_stats(tables, priors)?;
//! assert_eq!((stats.number, stats.sequence_length, stats.skipped), (1, 2, 2));
//! // G(6) - G(2) - G(3) - G(8) + G(3) + G(4) + (D(6) - D(2)) + (D(6) - D(3))
//! let divergence = 124.0 / 60.0 - 7.0_f64.ln();
//! assert!((stats.sum - divergence).abs() < 1.0e-14);
//! # Ok::<(), Refusal>(())
//! ```
//!
//! Without its default feature `std` the crate is `no_std` and allocates nothing at all; then
//! [`fill_gamma_tables`] and [`record_bytes`] write what `gamma_tables` and `PriorRecords` would hold.

#![no_std]
#![forbid(unsafe_code)]
#![warn(missing_docs)]

#[cfg(any(feature = "std", test))]
extern crate std;

mod address;
mod baseline;
mod gamma;
mod lent;
mod refusal;
mod tracker;

#[cfg(feature = "std")]
pub use address::path_bytes;
pub use address::{Address, ParseAddressError, MAX_STEPS};
pub use baseline::{place_bytes, Baseline, BaselineStats, MeanVariance, Sequences, KNOT_VALUES};
pub use gamma::fill_gamma_tables;
#[cfg(feature = "std")]
pub use gamma::{gamma_tables, GammaTables};
#[cfg(feature = "std")]
pub use lent::PriorRecords;
pub use lent::{record_bytes, ChildLookup, Priors, Tables, RECORD_BYTES};
pub use refusal::{Refusal, Stopped};
pub use tracker::{
    try_path, KLDivergenceStats, NodeKlList, Output, ProbVector, State, Tracker, ENTRY_BYTES, PLACE_BYTES,
};

/// The crate's version, as `"0.5.0"`.
pub const VERSION: &str = env!("CARGO_PKG_VERSION");

/// The linked archive's version: major, minor, patch.
///
/// ```
/// let (major, minor, patch) = teakpool::archive_version();
/// assert_eq!(format!("{}.{}.{}", major, minor, patch), teakpool::VERSION);
/// ```
pub fn archive_version() -> (u32, u32, u32) {
    let version = archive::version();
    (version / 1_000_000, version / 1_000 % 1_000, version % 1_000)
}
