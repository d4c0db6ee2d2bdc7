//! Stands for `rayon`: the repeated work runs one after another, so that the sequences of a
//! training come in order.

/// The one parallel iterator that goko's training names.
pub mod iter {
    /// `element`, `times` times.
    pub fn repeatn<T: Clone>(element: T, times: usize) -> impl Iterator<Item = T> {
        std::iter::repeat_n(element, times)
    }
}
