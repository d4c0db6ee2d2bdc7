//! Cases for the drift watch, made from a seed: call lists, adds on altered memory, priors with
//! look-ups in them, tables, trainings and `stats` readings; and two players of call lists, one over the
//! recount's history, one over lent bytes. Equal seeds make equal cases on every machine.

pub mod altered;
pub mod baselines;
pub mod calls;
pub mod exhaustive;
pub mod lists;
pub mod lookups;
pub mod paths;
pub mod play;
pub mod priors;
pub mod rng;
pub mod sample;
pub mod shown;
pub mod tables;
