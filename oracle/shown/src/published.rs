//! The norm as levenberg-marquardt 0.15.0 published it (`enorm` of its `utils.rs`), beside the leaf rule that decides.
//!
//! Its limits are sqrt(giant)/length and sqrt(dwarf), and it returns at the first NaN.
#![allow(unexpected_cfgs)]

use core::cell::Cell;
use nalgebra::{Dim, Dyn, MatrixView, U1, Vector, convert, storage::Storage};
use num_traits::Float;

use crate::utils::dwarf;

thread_local! {
    static IN_PLACE: Cell<bool> = const { Cell::new(false) };
}

pub(crate) fn is_in_place() -> bool {
    IN_PLACE.get()
}

/// Runs `calls` with the published norm in place of the leaf rule, on this thread.
pub fn in_place<R>(calls: impl FnOnce() -> R) -> R {
    let before = IN_PLACE.replace(true);
    let answer = calls();
    IN_PLACE.set(before);
    answer
}

/// The published norm of plain numbers.
pub fn norm(v: &[f64]) -> f64 {
    enorm(&MatrixView::over(
        v,
        v.len(),
        Dyn(v.len()),
        U1::from_usize(1),
    ))
}

fn likely(b: bool) -> bool {
    b
}

fn unlikely(b: bool) -> bool {
    b
}

fn giant<F: Float>() -> F {
    F::max_value()
}

// utils.rs from here
#[inline]
pub(crate) fn enorm<F, N, VS>(v: &Vector<F, N, VS>) -> F
where
    F: nalgebra::RealField + Float + Copy,
    N: Dim,
    VS: Storage<F, N, U1>,
{
    let mut s1 = F::zero();
    let mut s2 = F::zero();
    let mut s3 = F::zero();
    let mut x1max = F::zero();
    let mut x3max = F::zero();
    let agiant = if cfg!(feature = "minpack-compat") {
        convert(1.304e19f64)
    } else {
        Float::sqrt(giant::<F>())
    } / convert(v.nrows() as f64);
    let rdwarf = if cfg!(feature = "minpack-compat") {
        convert(3.834e-20f64)
    } else {
        Float::sqrt(dwarf())
    };
    for xi in v.iter() {
        let xabs = xi.abs();
        if unlikely(xabs.is_nan()) {
            return xabs;
        }
        if unlikely(xabs >= agiant || xabs <= rdwarf) {
            if xabs > rdwarf {
                // sum for large components
                if xabs > x1max {
                    s1 = F::one() + s1 * Float::powi(x1max / xabs, 2);
                    x1max = xabs;
                } else {
                    s1 += Float::powi(xabs / x1max, 2);
                }
            } else {
                // sum for small components
                if xabs > x3max {
                    s3 = F::one() + s3 * Float::powi(x3max / xabs, 2);
                    x3max = xabs;
                } else if xabs != F::zero() {
                    s3 += Float::powi(xabs / x3max, 2);
                }
            }
        } else {
            s2 += xabs * xabs;
        }
    }

    if unlikely(!s1.is_zero()) {
        x1max * Float::sqrt(s1 + (s2 / x1max) / x1max)
    } else if likely(!s2.is_zero()) {
        Float::sqrt(if likely(s2 >= x3max) {
            s2 * (F::one() + (x3max / s2) * (x3max * s3))
        } else {
            x3max * ((s2 / x3max) + (x3max * s3))
        })
    } else {
        x3max * Float::sqrt(s3)
    }
}
// utils.rs to here
