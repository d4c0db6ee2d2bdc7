//! The archive's functions as C declares them; `include/teakpool.h` has the same list. A lent
//! slice is a pointer and a number of elements, a lent array or number is one pointer. Each
//! returns 0 where the call is carried out, `NONE` where there is no answer, else the refusal's
//! number.
//!
//! No proof reaches across this boundary. What every caller promises: a pointer is aligned for
//! its type and not null, also where the slice is empty; the number of elements is true; the
//! memory is readable, and writable behind `*mut`, until the call returns; nothing behind a
//! `*mut` overlaps anything else lent to the same call, while what lies behind `*const` may
//! overlap; until the call returns no other thread writes what it is lent or reads what it
//! writes. The functions keep nothing.

/// What a call returns where there is no answer, as with a node that has no prior.
pub const NONE: u32 = 100;

extern "C" {
    /// The archive's version: major times 1,000,000, minor times 1,000 and patch.
    ///
    /// # Safety
    /// Nothing is asked.
    pub fn teakpool_version() -> u32;

    /// Refusals 1 and 2 of two tables.
    ///
    /// # Safety
    /// `g` and `d` are slices as the module says.
    pub fn teakpool_check_tables(g: *const f64, g_len: usize, d: *const f64, d_len: usize) -> u32;

    /// Refusals 3 to 7 and 22 of node records, child records and a floor.
    ///
    /// # Safety
    /// `nodes` and `children` are slices as the module says.
    pub fn teakpool_check_priors(
        nodes: *const u8, nodes_len: usize, children: *const u8, children_len: usize, floor: i32,
    ) -> u32;

    /// A child, by exact address, in a node's prior: its count, and how many child records of the
    /// chain were read. Where there is no such child, `read` is written all the same.
    ///
    /// # Safety
    /// `nodes` and `children` are slices as the module says, `count` and `read` point at one number
    /// each and overlap nothing.
    pub fn teakpool_child(
        nodes: *const u8, nodes_len: usize, children: *const u8, children_len: usize, floor: i32,
        scale: i32, point: u32, child_scale: i32, child_point: u32,
        count: *mut u32, read: *mut u32,
    ) -> u32;

    /// Opens a tracker: book and queue become zero, `state` the window and two zeros.
    ///
    /// # Safety
    /// `book` and `queue` are slices as the module says, `state` points at three numbers, and no
    /// two of them overlap.
    pub fn teakpool_open(
        window: u32,
        book: *mut u8, book_len: usize, queue: *mut u8, queue_len: usize, state: *mut u32,
    ) -> u32;

    /// Adds a path and takes the one away that leaves the window.
    ///
    /// # Safety
    /// `state` points at three numbers, the others are slices as the module says, and `state`,
    /// `book` and `queue` overlap nothing.
    pub fn teakpool_add_path(
        state: *mut u32, book: *mut u8, book_len: usize, queue: *mut u8, queue_len: usize,
        path: *const u8, path_len: usize,
    ) -> u32;

    /// Adds the paths in the lent places, 516 bytes each, up to the first that is refused, and writes
    /// how many were taken.
    ///
    /// # Safety
    /// `state` points at three numbers, `taken` at one, the others are slices as the module says, and
    /// `state`, `book`, `queue` and `taken` overlap nothing.
    pub fn teakpool_add_paths(
        state: *mut u32, book: *mut u8, book_len: usize, queue: *mut u8, queue_len: usize,
        places: *const u8, places_len: usize, taken: *mut u32,
    ) -> u32;

    /// Drops the children's entries with a count of 0 and the nodes whose counts are all 0, closes the
    /// gaps and zeroes the book from there to its end. The queue is only read.
    ///
    /// # Safety
    /// `state` points at three numbers, the others are slices as the module says, and `state` and
    /// `book` overlap nothing.
    pub fn teakpool_tidy(
        state: *mut u32, book: *mut u8, book_len: usize, queue: *const u8, queue_len: usize,
    ) -> u32;

    /// A node's probabilities, prior and evidence together.
    ///
    /// # Safety
    /// `state` points at three numbers, `places` and `ending` at one each, the others are slices
    /// as the module says, and `addresses`, `figures`, `places` and `ending` overlap nothing.
    pub fn teakpool_prob_vector(
        state: *const u32, book: *const u8, book_len: usize, queue: *const u8, queue_len: usize,
        nodes: *const u8, nodes_len: usize, children: *const u8, children_len: usize, floor: i32,
        scale: i32, point: u32,
        addresses: *mut u8, addresses_len: usize, figures: *mut f64, figures_len: usize,
        places: *mut u32, ending: *mut f64,
    ) -> u32;

    /// A node's probabilities by its evidence alone.
    ///
    /// # Safety
    /// As for `teakpool_prob_vector`.
    pub fn teakpool_evidence_prob_vector(
        state: *const u32, book: *const u8, book_len: usize, queue: *const u8, queue_len: usize,
        scale: i32, point: u32,
        addresses: *mut u8, addresses_len: usize, figures: *mut f64, figures_len: usize,
        places: *mut u32, ending: *mut f64,
    ) -> u32;

    /// One node's divergence; 14 and 15 are about that node.
    ///
    /// # Safety
    /// `state` points at three numbers, `value` at one, the others are slices as the module says,
    /// and `value` overlaps nothing.
    pub fn teakpool_posterior_kl_divergence(
        state: *const u32, book: *const u8, book_len: usize, queue: *const u8, queue_len: usize,
        nodes: *const u8, nodes_len: usize, children: *const u8, children_len: usize, floor: i32,
        g: *const f64, g_len: usize, d: *const f64, d_len: usize,
        scale: i32, point: u32, value: *mut f64,
    ) -> u32;

    /// The divergences of all listed nodes with a prior; `counts` is places filled and nodes
    /// skipped. The node of 14 and 15 goes to `node_scale` and `node_point`.
    ///
    /// # Safety
    /// `state` points at three numbers, `counts` at two, `node_scale` and `node_point` at one
    /// each, the others are slices as the module says, and nothing behind a `*mut` overlaps.
    pub fn teakpool_all_node_kl(
        state: *const u32, book: *const u8, book_len: usize, queue: *const u8, queue_len: usize,
        nodes: *const u8, nodes_len: usize, children: *const u8, children_len: usize, floor: i32,
        g: *const f64, g_len: usize, d: *const f64, d_len: usize,
        addresses: *mut u8, addresses_len: usize, figures: *mut f64, figures_len: usize,
        counts: *mut u32, node_scale: *mut i32, node_point: *mut u32,
    ) -> u32;

    /// The statistics: `figures` is maximum, minimum, sum, sum of squares; `counts` is the number
    /// above 1.0e-10, the sequence length, nodes skipped. 14 and 15 as above.
    ///
    /// # Safety
    /// `state` points at three numbers, `figures` at four, `counts` at three, `node_scale` and
    /// `node_point` at one each, the others are slices as the module says, and nothing behind a
    /// `*mut` overlaps.
    pub fn teakpool_kl_div_stats(
        state: *const u32, book: *const u8, book_len: usize, queue: *const u8, queue_len: usize,
        nodes: *const u8, nodes_len: usize, children: *const u8, children_len: usize, floor: i32,
        g: *const f64, g_len: usize, d: *const f64, d_len: usize,
        figures: *mut f64, counts: *mut u64, node_scale: *mut i32, node_point: *mut u32,
    ) -> u32;

    /// Trains a baseline; `count` is the number of knots. 14 and 15 as above.
    ///
    /// # Safety
    /// `count`, `node_scale` and `node_point` point at one number each, the others are slices as
    /// the module says, and nothing behind a `*mut` overlaps.
    pub fn teakpool_train(
        g: *const f64, g_len: usize, d: *const f64, d_len: usize,
        nodes: *const u8, nodes_len: usize, children: *const u8, children_len: usize, floor: i32,
        sequences: *const u8, sequences_len: usize, s: u32, n: u32, rate: u32,
        book: *mut u8, book_len: usize,
        knots: *mut u32, knots_len: usize, values: *mut f64, values_len: usize,
        count: *mut u32, node_scale: *mut i32, node_point: *mut u32,
    ) -> u32;

    /// A baseline's ten figures at a length: mean and variance of maximum, minimum, number, sum,
    /// sum of squares.
    ///
    /// # Safety
    /// `knots` and `values` are slices as the module says, `figures` points at ten numbers and
    /// overlaps neither.
    pub fn teakpool_stats(
        knots: *const u32, knots_len: usize, values: *const f64, values_len: usize,
        s: u32, length: u32, figures: *mut f64,
    ) -> u32;
}
