//! The proved archive's calls over plain slices, arrays and numbers. Here alone they become the
//! pointers and lengths that `raw` declares. A call returns the archive's number, and what it
//! writes stands in what it was lent.
//!
//! The calls are safe, because a reference promises what `raw` asks: it is aligned and not null,
//! also where the slice is empty; a slice's length is true; what is lent to be written overlaps
//! nothing else, and nobody else reads or writes it until the call returns.

#![no_std]

// Laid out by hand: a line for each thing lent.
#[rustfmt::skip]
mod calls;
#[rustfmt::skip]
pub mod raw;

pub use calls::*;

/// A tracker that is only read: state, book and queue. The state is the window, entries used and
/// paths accepted.
pub type Tracker<'a> = (&'a [u32; 3], &'a [u8], &'a [u8]);
/// Node records, child records and the floor scale; a floor of `i32::MIN` has no scale below it.
pub type Priors<'a> = (&'a [u8], &'a [u8], i32);
/// The tables of ln gamma and digamma.
pub type Tables<'a> = (&'a [f64], &'a [f64]);
/// The scale and the point of a node or a child asked for.
pub type Node = (i32, u32);
/// A child's count, and how many child records were read; where there is no such child, the second
/// alone is written.
pub type ChildFound<'a> = (&'a mut u32, &'a mut u32);
/// Where 14 and 15 name a node: its scale and its point.
pub type Named<'a> = (&'a mut i32, &'a mut u32);
/// Output places: addresses, eight bytes each, and figures.
pub type Output<'a> = (&'a mut [u8], &'a mut [f64]);
/// What a probability vector has beside its output: places filled and the ending's figure.
pub type Vector<'a> = (&'a mut u32, &'a mut f64);
/// A training's sequences: their places, s, n and the rate.
pub type Sequences<'a> = (&'a [u8], u32, u32, u32);
/// What a training writes: book, knots and values.
pub type Trained<'a> = (&'a mut [u8], &'a mut [u32], &'a mut [f64]);
