//! The leaf rules that are this shim's, each by an example that a likely mistake would fail.

use crate::{Dim, Dyn, Matrix3, Matrix4x3, MatrixView, OVector, U1, Vector2, Vector3, Vector4};

#[test]
fn imax_takes_the_first_of_the_largest_by_sign() {
    assert_eq!(Vector4::new(1.0, 3.0, 3.0, 2.0).imax(), 1);
    assert_eq!(Vector3::new(-9.0, 2.0, 1.0).imax(), 1);
    assert_eq!(Vector3::new(0.0, -0.0, 0.0).imax(), 0);
}

#[test]
fn imax_never_moves_from_nan_or_to_it() {
    assert_eq!(Vector3::new(f64::NAN, 5.0, 9.0).imax(), 0);
    assert_eq!(Vector3::new(1.0, f64::NAN, 2.0).imax(), 2);
}

#[test]
fn axpy_keeps_the_sign_of_a_zero() {
    let mut y = Vector2::new(-0.0, 0.0);
    y.axpy(1.0, &Vector2::new(-0.0, -0.0), 1.0);
    assert!(y[0].is_sign_negative() && y[1].is_sign_positive());
}

#[test]
fn axpy_is_not_fused_and_reads_y_only_for_one() {
    let x = 1.0 + f64::EPSILON;
    let mut y = Vector2::new(-1.0 - 2.0 * f64::EPSILON, 0.0);
    y.axpy(x, &Vector2::new(x, -0.0), 1.0);
    assert_eq!(y, Vector2::new(0.0, 0.0));
    let mut y = Vector2::new(f64::NAN, 0.0);
    y.axpy(2.0, &Vector2::new(3.0, -0.0), 0.0);
    assert_eq!(y[0], 6.0);
    assert!(y[1] == 0.0 && y[1].is_sign_negative());
}

/// With 1/3 and a column above it, dividing last or multiplying by a reciprocal gives other bits.
#[test]
fn upper_solve_divides_then_subtracts_from_the_column_above() {
    #[rustfmt::skip]
    let cells = [
        3.0, 9.0, 9.0,
        7.0, 10.0, 9.0,
    ];
    let square = MatrixView::over(&cells, 3, Dyn(2), Dyn(2));
    let mut x = OVector::from_iterator_generic(Dyn(2), U1::from_usize(1), [1.0, 0.3]);
    square.solve_upper_triangular_mut(&mut x);
    let last: f64 = 0.3 / 10.0;
    let above: f64 = -last * 7.0 + 1.0;
    assert_eq!(x.as_slice(), [above / 3.0, last]);
}

#[test]
fn new_goes_by_rows_and_storage_by_columns() {
    let a = Matrix4x3::new(1, 2, 3, 4, 5, 6, 7, 8, 9, 10, 11, 12);
    assert_eq!(a.as_slice(), [1, 4, 7, 10, 2, 5, 8, 11, 3, 6, 9, 12]);
    assert_eq!(a[(1, 2)], 6);
    assert_eq!(a[4], 2);
    let below = a.rows_range(1..3);
    assert_eq!(
        below.iter().copied().collect::<Vec<_>>(),
        [4, 7, 5, 8, 6, 9]
    );
    assert_eq!(below[2], 5);
    assert_eq!(a.remove_rows(1, 2).as_slice(), [1, 10, 2, 11, 3, 12]);
}

#[test]
fn columns_in_pairs_and_swapped() {
    let mut a = Matrix3::new(1, 2, 3, 4, 5, 6, 7, 8, 9);
    let mut lower = a.rows_range_mut(1..);
    let (left, mut right) = lower.columns_range_pair_mut(0, 1..);
    assert_eq!(left.entries(), [4, 7]);
    for mut column in right.column_iter_mut() {
        column[0] = left[1];
    }
    let (_, mut none) = lower.columns_range_pair_mut(2, 3..);
    assert_eq!(none.column_iter_mut().count(), 0);
    a.swap_columns(0, 2);
    assert_eq!(a.as_slice(), [3, 7, 9, 2, 7, 8, 1, 4, 7]);
    a.fill_lower_triangle_with_upper_triangle();
    assert_eq!(a.as_slice(), [3, 2, 1, 2, 7, 4, 1, 4, 7]);
}

#[test]
fn resizing_fills_and_cuts() {
    let a = Matrix3::new(1, 2, 3, 4, 5, 6, 7, 8, 9);
    let tall = a.resize_generic(Dyn(4), Dyn(2), 0);
    assert_eq!(tall.as_slice(), [1, 4, 7, 0, 2, 5, 8, 0]);
}
