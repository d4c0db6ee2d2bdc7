//! Equality of figures: by bits, any NaN equal to any NaN.

use recount::{is_minus_zero, same_figure, same_figures};

#[test]
fn zeros_differ_and_nans_do_not() {
    assert!(!same_figure(0.0, -0.0) && same_figure(-0.0, -0.0));
    assert!(same_figure(f64::NAN, -f64::from_bits(f64::NAN.to_bits() + 1)));
    assert!(!same_figure(f64::NAN, f64::INFINITY));
    assert!(!same_figures(&[1.0], &[1.0, 1.0]) && !same_figures(&[1.0, 0.0], &[1.0, -0.0]));
    assert!(is_minus_zero(-0.0) && !is_minus_zero(0.0) && !is_minus_zero(-f64::NAN));
}
