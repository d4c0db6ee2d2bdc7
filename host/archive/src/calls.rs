//! The calls, each with the arguments of its function in `raw`, a line for each thing lent.

use crate::{raw, ChildFound, Named, Node, Output, Priors, Sequences, Tables, Tracker, Trained, Vector};

/// The archive's version: major times 1,000,000, minor times 1,000 and patch.
pub fn version() -> u32 {
    // SAFETY: it is lent nothing.
    unsafe { raw::teakpool_version() }
}

/// Refusals 1 and 2 of two tables.
pub fn check_tables((g, d): Tables) -> u32 {
    // SAFETY: references promise what `raw` asks, as the crate says.
    unsafe { raw::teakpool_check_tables(g.as_ptr(), g.len(), d.as_ptr(), d.len()) }
}

/// Refusals 3 to 7 and 22 of node records, child records and a floor.
pub fn check_priors((nodes, children, floor): Priors) -> u32 {
    // SAFETY: as above.
    unsafe { raw::teakpool_check_priors(nodes.as_ptr(), nodes.len(), children.as_ptr(), children.len(), floor) }
}

/// A child in a node's prior.
pub fn child(
    (nodes, children, floor): Priors,
    (scale, point): Node,
    (child_scale, child_point): Node,
    (count, read): ChildFound,
) -> u32 {
    // SAFETY: as above.
    unsafe {
        raw::teakpool_child(
            nodes.as_ptr(), nodes.len(), children.as_ptr(), children.len(), floor,
            scale, point, child_scale, child_point,
            count, read,
        )
    }
}

/// Opens a tracker.
pub fn open(window: u32, book: &mut [u8], queue: &mut [u8], state: &mut [u32; 3]) -> u32 {
    // SAFETY: as above; the array has as many numbers as are asked for.
    unsafe {
        raw::teakpool_open(
            window,
            book.as_mut_ptr(), book.len(), queue.as_mut_ptr(), queue.len(), state.as_mut_ptr(),
        )
    }
}

/// Adds a path.
pub fn add_path(state: &mut [u32; 3], book: &mut [u8], queue: &mut [u8], path: &[u8]) -> u32 {
    // SAFETY: as above.
    unsafe {
        raw::teakpool_add_path(
            state.as_mut_ptr(), book.as_mut_ptr(), book.len(), queue.as_mut_ptr(), queue.len(),
            path.as_ptr(), path.len(),
        )
    }
}

/// Adds the paths in the lent places up to the first that is refused, and tells how many it took.
pub fn add_paths(
    state: &mut [u32; 3],
    book: &mut [u8],
    queue: &mut [u8],
    places: &[u8],
    taken: &mut u32,
) -> u32 {
    // SAFETY: as above; `taken` is one number.
    unsafe {
        raw::teakpool_add_paths(
            state.as_mut_ptr(), book.as_mut_ptr(), book.len(), queue.as_mut_ptr(), queue.len(),
            places.as_ptr(), places.len(), taken,
        )
    }
}

/// Drops what counts 0: such children's entries, and nodes whose counts are all 0.
pub fn tidy(state: &mut [u32; 3], book: &mut [u8], queue: &[u8]) -> u32 {
    // SAFETY: as above.
    unsafe {
        raw::teakpool_tidy(
            state.as_mut_ptr(), book.as_mut_ptr(), book.len(), queue.as_ptr(), queue.len(),
        )
    }
}

/// A node's probabilities, prior and evidence together.
pub fn prob_vector(
    (state, book, queue): Tracker,
    (nodes, children, floor): Priors,
    (scale, point): Node,
    (addresses, figures): Output,
    (places, ending): Vector,
) -> u32 {
    // SAFETY: as above.
    unsafe {
        raw::teakpool_prob_vector(
            state.as_ptr(), book.as_ptr(), book.len(), queue.as_ptr(), queue.len(),
            nodes.as_ptr(), nodes.len(), children.as_ptr(), children.len(), floor,
            scale, point,
            addresses.as_mut_ptr(), addresses.len(), figures.as_mut_ptr(), figures.len(),
            places, ending,
        )
    }
}

/// A node's probabilities by its evidence alone.
pub fn evidence_prob_vector(
    (state, book, queue): Tracker,
    (scale, point): Node,
    (addresses, figures): Output,
    (places, ending): Vector,
) -> u32 {
    // SAFETY: as above.
    unsafe {
        raw::teakpool_evidence_prob_vector(
            state.as_ptr(), book.as_ptr(), book.len(), queue.as_ptr(), queue.len(),
            scale, point,
            addresses.as_mut_ptr(), addresses.len(), figures.as_mut_ptr(), figures.len(),
            places, ending,
        )
    }
}

/// One node's divergence.
pub fn posterior_kl_divergence(
    (state, book, queue): Tracker,
    (nodes, children, floor): Priors,
    (g, d): Tables,
    (scale, point): Node,
    value: &mut f64,
) -> u32 {
    // SAFETY: as above.
    unsafe {
        raw::teakpool_posterior_kl_divergence(
            state.as_ptr(), book.as_ptr(), book.len(), queue.as_ptr(), queue.len(),
            nodes.as_ptr(), nodes.len(), children.as_ptr(), children.len(), floor,
            g.as_ptr(), g.len(), d.as_ptr(), d.len(),
            scale, point, value,
        )
    }
}

/// The divergences of all listed nodes with a prior; `counts` is places filled and nodes skipped.
pub fn all_node_kl(
    (state, book, queue): Tracker,
    (nodes, children, floor): Priors,
    (g, d): Tables,
    (addresses, figures): Output,
    counts: &mut [u32; 2],
    (node_scale, node_point): Named,
) -> u32 {
    // SAFETY: as above.
    unsafe {
        raw::teakpool_all_node_kl(
            state.as_ptr(), book.as_ptr(), book.len(), queue.as_ptr(), queue.len(),
            nodes.as_ptr(), nodes.len(), children.as_ptr(), children.len(), floor,
            g.as_ptr(), g.len(), d.as_ptr(), d.len(),
            addresses.as_mut_ptr(), addresses.len(), figures.as_mut_ptr(), figures.len(),
            counts.as_mut_ptr(), node_scale, node_point,
        )
    }
}

/// The statistics: `figures` is maximum, minimum, sum, sum of squares; `counts` is the number
/// above 1.0e-10, the sequence length, nodes skipped.
pub fn kl_div_stats(
    (state, book, queue): Tracker,
    (nodes, children, floor): Priors,
    (g, d): Tables,
    figures: &mut [f64; 4],
    counts: &mut [u64; 3],
    (node_scale, node_point): Named,
) -> u32 {
    // SAFETY: as above.
    unsafe {
        raw::teakpool_kl_div_stats(
            state.as_ptr(), book.as_ptr(), book.len(), queue.as_ptr(), queue.len(),
            nodes.as_ptr(), nodes.len(), children.as_ptr(), children.len(), floor,
            g.as_ptr(), g.len(), d.as_ptr(), d.len(),
            figures.as_mut_ptr(), counts.as_mut_ptr(), node_scale, node_point,
        )
    }
}

/// Trains a baseline; `count` is the number of knots.
pub fn train(
    (g, d): Tables,
    (nodes, children, floor): Priors,
    (sequences, s, n, rate): Sequences,
    (book, knots, values): Trained,
    count: &mut u32,
    (node_scale, node_point): Named,
) -> u32 {
    // SAFETY: as above.
    unsafe {
        raw::teakpool_train(
            g.as_ptr(), g.len(), d.as_ptr(), d.len(),
            nodes.as_ptr(), nodes.len(), children.as_ptr(), children.len(), floor,
            sequences.as_ptr(), sequences.len(), s, n, rate,
            book.as_mut_ptr(), book.len(),
            knots.as_mut_ptr(), knots.len(), values.as_mut_ptr(), values.len(),
            count, node_scale, node_point,
        )
    }
}

/// A baseline's ten figures at a length: mean and variance of maximum, minimum, number, sum, sum
/// of squares.
pub fn stats(knots: &[u32], values: &[f64], s: u32, length: u32, figures: &mut [f64; 10]) -> u32 {
    // SAFETY: as above.
    unsafe {
        raw::teakpool_stats(
            knots.as_ptr(), knots.len(), values.as_ptr(), values.len(),
            s, length, figures.as_mut_ptr(),
        )
    }
}
