//! Stands for `serde`: the two derive macros that goko's records name.

pub use serde_derive::{Deserialize, Serialize};
