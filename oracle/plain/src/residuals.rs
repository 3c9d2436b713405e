//! Module 3 of document 01: the transformed residuals.

use crate::leaves::{axpy, dot};

/// The first n of Q^T b, by the reflections that stand in `a`; "places from m on are 0". `b` is used up.
pub fn transform(m: usize, n: usize, a: &[f64], b: &mut [f64], qt_b: &mut [f64]) {
    qt_b.fill(0.0);
    for j in 0..m.min(n) {
        let axis = &a[j * m + j..(j + 1) * m];
        let lower = &mut b[j..];
        if axis[0] != 0.0 {
            let factor = -dot(lower, axis) / axis[0];
            axpy(factor, axis, lower);
        }
        qt_b[j] = b[j];
    }
}
