//! The leaves alone, as the shims and `utils.rs` have them.

use crate::room::ROWS;
use crate::{Shown, recorder, utils};
use api::{Leaves, Ranges};
use nalgebra::{Dim, Dyn, MatrixView, MatrixViewMut, U1};
use num_traits::{Float, Signed};

fn view(v: &[f64]) -> MatrixView<'_, f64, Dyn, U1> {
    MatrixView::over(v, v.len(), Dyn(v.len()), U1::from_usize(1))
}

fn view_mut(v: &mut [f64]) -> MatrixViewMut<'_, f64, Dyn, U1> {
    let len = v.len();
    MatrixViewMut::over(v, len, Dyn(len), U1::from_usize(1))
}

fn axpy(a: f64, x: &[f64], y: &mut [f64], factor: f64) -> Result<(), u8> {
    if x.len() != y.len() {
        return Err(3);
    }
    view_mut(y).axpy(a, &view(x), factor);
    Ok(())
}

impl Leaves for Shown {
    fn abs(&self, x: f64) -> f64 {
        Float::abs(x)
    }

    fn is_negative(&self, x: f64) -> bool {
        Signed::is_negative(&x)
    }

    fn is_finite(&self, x: f64) -> bool {
        Float::is_finite(x)
    }

    fn max(&self, a: f64, b: f64) -> f64 {
        Float::max(a, b)
    }

    fn min(&self, a: f64, b: f64) -> f64 {
        Float::min(a, b)
    }

    fn square(&self, x: f64) -> f64 {
        Float::powi(x, 2)
    }

    fn sqrt(&self, x: f64) -> f64 {
        Float::sqrt(x)
    }

    fn dot(&self, a: &[f64], b: &[f64]) -> Result<f64, u8> {
        if a.len() != b.len() {
            return Err(3);
        }
        Ok(utils::dot(&view(a), &view(b)))
    }

    fn axpy(&self, a: f64, x: &[f64], y: &mut [f64]) -> Result<(), u8> {
        axpy(a, x, y, 1.0)
    }

    fn axpy_zero(&self, a: f64, x: &[f64], y: &mut [f64]) -> Result<(), u8> {
        axpy(a, x, y, 0.0)
    }

    fn imax(&self, v: &[f64]) -> Result<usize, u8> {
        if v.is_empty() {
            return Err(3);
        }
        Ok(view(v).imax())
    }

    fn enorm(&self, v: &[f64]) -> Result<(f64, Ranges), u8> {
        if v.len() > ROWS {
            return Err(2);
        }
        let (norm, norms) = recorder::of(|| utils::enorm(&view(v)));
        Ok((norm, recorder::all(&norms)))
    }

    fn solve_upper(&self, r: &[f64], apart: usize, n: usize, x: &mut [f64]) -> Result<(), u8> {
        let long_enough = n.checked_mul(apart).is_some_and(|cells| r.len() >= cells);
        if n > apart || x.len() < n || !long_enough {
            return Err(3);
        }
        let square = MatrixView::over(r, apart, Dyn(n), Dyn(n));
        square.solve_upper_triangular_mut(&mut view_mut(&mut x[..n]));
        Ok(())
    }
}
