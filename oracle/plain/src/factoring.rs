//! Module 2 of document 01: `PivotedQR::new`, and the factoring call.

use crate::frozen::Columns;
use crate::leaves::{EPSMCH, all_finite, axpy, dot, enorm, imax, is_negative, max, square};
use crate::measures::{all_seen, measured};
use crate::residuals::transform;
use crate::room::{Room, needed, sizes};
use crate::root::sqrt;
use api::{EMPTY, Held, Measured, Of, Ranges, State};

/// The bench: places for the copy of the Jacobian's free columns, one after the other, and m for the residuals'.
struct Bench<'a> {
    m: usize,
    a: &'a mut [f64],
    b: &'a mut [f64],
}

fn swap_columns(m: usize, a: &mut [f64], j: usize, k: usize) {
    for i in 0..m {
        a.swap(j * m + i, k * m + i);
    }
}

/// The reflection that reduces a column, in place; the new diagonal entry, or none for a zero column. Beside it, what the
/// column's norm saw.
fn reflect(axis: &mut [f64]) -> (Option<f64>, Ranges) {
    let (mut norm, seen) = enorm(axis);
    if norm == 0.0 {
        return (None, seen);
    }
    if is_negative(axis[0]) {
        norm = -norm;
    }
    for x in axis.iter_mut() {
        *x /= norm;
    }
    axis[0] += 1.0;
    (Some(-norm), seen)
}

/// "A column's partial norm is worked out anew when 0.05*(r_diag/work)^2 <= epsmch": what that norm saw, or none where it
/// is not worked out.
fn shrink(col: &[f64], r_diag: &mut f64, work: &mut f64) -> Option<Ranges> {
    if *r_diag == 0.0 {
        return None;
    }
    let lost = square(col[0] / *r_diag);
    *r_diag *= sqrt(max(1.0 - lost, 0.0));
    if 0.05 * square(*r_diag / *work) <= EPSMCH {
        let (rest, seen) = enorm(&col[1..]);
        (*r_diag, *work) = (rest, rest);
        return Some(seen);
    }
    None
}

/// The norms of the columns, each told.
fn column_norms(m: usize, a: &[f64], norms: &mut [f64], told: &mut Vec<Measured>) {
    for j in 0..norms.len() {
        let (norm, seen) = enorm(&a[j * m..(j + 1) * m]);
        norms[j] = norm;
        told.push(measured(Of::Column, seen));
    }
}

/// On exit `a` has the reflections on and below its diagonal and R above, and the answer is R's diagonal. Each norm that
/// is worked out is told; one of a later column only where it is worked out anew.
fn pivoted_qr(
    m: usize,
    a: &mut [f64],
    norms: &[f64],
    order: &mut [usize],
    told: &mut Vec<Measured>,
) -> Vec<f64> {
    let n = norms.len();
    let mut r_diag = norms.to_vec();
    let mut work = norms.to_vec();
    for j in 0..m.min(n) {
        let kmax = imax(&r_diag[j..]) + j;
        if kmax != j {
            swap_columns(m, a, j, kmax);
            order.swap(j, kmax);
            r_diag[kmax] = r_diag[j];
            work[kmax] = work[j];
        }
        let (left, right) = a.split_at_mut((j + 1) * m);
        let axis = &mut left[j * m + j..];
        let (reflected, seen) = reflect(axis);
        told.push(measured(Of::Pivot(j), seen));
        let Some(diagonal) = reflected else {
            r_diag[j] = 0.0;
            continue;
        };
        r_diag[j] = diagonal;
        for k in j + 1..n {
            let start = (k - j - 1) * m;
            let col = &mut right[start + j..start + m];
            let factor = -(dot(col, axis) / axis[0]);
            axpy(factor, axis, col);
            let anew = shrink(col, &mut r_diag[k], &mut work[k]);
            told.extend(anew.map(|seen| measured(Of::Anew, seen)));
        }
    }
    r_diag
}

/// R on and above the diagonal, +0 elsewhere; "R's rows from m on are 0".
fn lay_r(m: usize, a: &[f64], r_diag: &[f64], room: &mut Room) {
    room.square.fill(0.0);
    for j in 0..room.n {
        for i in 0..j.min(m) {
            room.put(i, j, a[j * m + i]);
        }
        if j < m {
            room.put(j, j, r_diag[j]);
        }
    }
}

/// `small` is the store of the free columns alone; `order` is in the order that pivoting starts from.
fn work_out(
    n: usize,
    bench: &mut Bench,
    small: &mut [f64],
    order: &mut [usize],
) -> Result<Ranges, u8> {
    let m = bench.m;
    let mut told = Vec::new();
    let mut room = Room::of(n, small);
    column_norms(m, bench.a, room.norms, &mut told);
    let r_diag = pivoted_qr(m, bench.a, room.norms, order, &mut told);
    transform(m, n, bench.a, bench.b, room.qt_b);
    lay_r(m, bench.a, &r_diag, &mut room);
    room.l_diag.fill(0.0);
    room.work.fill(0.0);
    let finite = all_finite(room.square) && all_finite(room.norms) && all_finite(room.qt_b);
    if finite { Ok(all_seen(&told)) } else { Err(8) }
}

/// The norms of a factoring that is not refused 2, 3 or 6 for its Jacobian, nor 9.
pub fn norms(m: usize, n: usize, marks: u16, jacobian: &[f64]) -> Option<Vec<Measured>> {
    let fits = sizes(m, n).is_ok() && jacobian.len() >= m * n;
    if !fits || !all_finite(&jacobian[..m * n]) {
        return None;
    }
    let columns = Columns::of(n, marks).and_then(Columns::some_free).ok()?;
    let mut a = columns.taken_out(jacobian, m);
    let (mut norms, mut order) = (vec![0.0; columns.free], vec![0; columns.free]);
    let mut told = Vec::new();
    column_norms(m, &a, &mut norms, &mut told);
    pivoted_qr(m, &mut a, &norms, &mut order, &mut told);
    Some(told)
}

/// Tests 2, 3, 6 and 9. A frozen column's numbers are read too (02, #108).
fn check(
    m: usize,
    n: usize,
    marks: u16,
    numbers: [&[f64]; 2],
    lengths: [usize; 3],
) -> Result<Columns, u8> {
    sizes(m, n)?;
    let columns = Columns::of(n, marks)?;
    let [jacobian, residuals] = numbers;
    let [store, order, bench] = lengths;
    let short = jacobian.len() < m * n || residuals.len() < m || bench < m * n + m;
    if short || store < needed(n) || order < n {
        return Err(3);
    }
    if !all_finite(&jacobian[..m * n]) || !all_finite(&residuals[..m]) {
        return Err(6);
    }
    columns.some_free()
}

/// The free columns and the residuals in the bench, worked out there. All of it is +0 afterwards, what is past the free
/// columns too.
fn on_bench(
    columns: &Columns,
    [jacobian, residuals]: [&[f64]; 2],
    bench: &mut [f64],
    small: &mut [f64],
    pivots: &mut [usize],
) -> Result<Ranges, u8> {
    let m = residuals.len();
    let (a, b) = bench.split_at_mut(m * columns.n);
    let a = &mut a[..m * columns.free];
    a.copy_from_slice(&columns.taken_out(jacobian, m));
    b.copy_from_slice(residuals);
    let result = work_out(columns.free, &mut Bench { m, a, b }, small, pivots);
    bench.fill(0.0);
    result
}

/// "Needed store +0, order 0..n−1, state empty" where it is refused 8.
#[allow(clippy::too_many_arguments)]
pub fn factor(
    m: usize,
    n: usize,
    marks: u16,
    jacobian: &[f64],
    residuals: &[f64],
    store: &mut [f64],
    order: &mut [usize],
    bench: &mut [f64],
) -> (Result<Ranges, u8>, State) {
    let lengths = [store.len(), order.len(), bench.len()];
    let columns = match check(m, n, marks, [jacobian, residuals], lengths) {
        Ok(columns) => columns,
        Err(k) => return (Err(k), EMPTY),
    };
    let mut pivots: Vec<usize> = (0..columns.free).collect();
    let mut small = vec![0.0; needed(columns.free)];
    let (bench, read) = (&mut bench[..m * n + m], [jacobian, &residuals[..m]]);
    let result = on_bench(&columns, read, bench, &mut small, &mut pivots);
    if result.is_err() {
        small.fill(0.0);
        pivots = (0..columns.free).collect();
    }
    columns.lay(&small, store);
    order[..columns.free].copy_from_slice(&pivots);
    columns.continue_count(order);
    let held = Held::Nothing;
    let factored = State { m, n, held, marks };
    (result, if result.is_ok() { factored } else { EMPTY })
}
