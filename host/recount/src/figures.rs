//! Equality of figures: the same 64 bits, or a NaN each. Plus zero and minus zero are two figures.
//! Wherever answers are held against one another, this decides whether their figures agree; the
//! records here that hold figures have no `PartialEq`.

/// The same figure.
pub fn same_figure(one: f64, other: f64) -> bool {
    one.to_bits() == other.to_bits() || (one.is_nan() && other.is_nan())
}

/// The same figures, and as many.
pub fn same_figures(one: &[f64], other: &[f64]) -> bool {
    one.len() == other.len() && one.iter().zip(other).all(|(one, other)| same_figure(*one, *other))
}

/// Minus zero.
pub fn is_minus_zero(figure: f64) -> bool {
    same_figure(figure, -0.0)
}
