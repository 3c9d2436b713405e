//! Module 6 of document 01: norm of Jx, scaling (its gradient is in `gradient.rs`); and the two questions about R's
//! diagonal. Also the ranges of several norms (02, #106).

use crate::frozen::Columns;
use crate::leaves::{abs, all_finite, axpy, enorm, is_finite, max};
use crate::room::{Room, admit};
use crate::solves::finite_and_free;
use api::{Measured, Mode, Of, Ranges, Start, State};

pub fn measured(of: Of, ranges: Ranges) -> Measured {
    Measured { of, ranges }
}

/// "Small seen, large seen, in any norm worked out for that call."
pub fn all_seen(norms: &[Measured]) -> Ranges {
    let mut seen = Ranges::NEITHER;
    for norm in norms {
        seen.small |= norm.ranges.small;
        seen.large |= norm.ranges.large;
    }
    seen
}

pub fn finite_or_8(x: f64) -> Result<f64, u8> {
    if is_finite(x) { Ok(x) } else { Err(8) }
}

pub fn a_x_norm(
    state: State,
    store: &mut [f64],
    order: &[usize],
    x: &[f64],
) -> (Result<(f64, Ranges), u8>, State) {
    let admitted = admit(state, store, Some(order), &[x.len()], false);
    let columns = match finite_and_free(admitted, x) {
        Ok(columns) => columns,
        Err(k) => return (Err(k), state),
    };
    let mut small = columns.narrow(store);
    let (room, x) = (Room::of(columns.free, &mut small), columns.taken_out(x, 1));
    let mut sums = vec![0.0; columns.free];
    for i in 0..columns.free {
        axpy(x[order[i]], room.part(i, 0, i + 1), &mut sums[..i + 1]);
    }
    columns.clear_work(store);
    let (norm, seen) = enorm(&sums);
    let answer = finite_or_8(norm).map(|norm| (norm, seen));
    (answer, state)
}

/// The new scaling. "Unscaled mode keeps what was lent."
fn entries(mode: Mode, norms: &[f64], lent: &[f64]) -> Vec<f64> {
    let mut new = lent.to_vec();
    for j in 0..norms.len() {
        new[j] = match mode {
            Mode::FirstScaled if norms[j] == 0.0 => 1.0,
            Mode::FirstScaled => norms[j],
            Mode::LaterScaled => max(norms[j], lent[j]),
            Mode::FirstUnscaled | Mode::LaterUnscaled => lent[j],
        };
    }
    new
}

/// Refusal 8 "when xnorm or radius is not finite, or the radius is rounded to zero".
fn start(
    mode: Mode,
    scaling: &[f64],
    x: &[f64],
    step_bound: f64,
) -> Result<(Option<Start>, Ranges), u8> {
    let mut products = x.to_vec();
    if mode == Mode::FirstScaled {
        for j in 0..x.len() {
            products[j] = scaling[j] * x[j];
        }
    }
    let (xnorm, seen) = enorm(&products);
    let radius = if xnorm == 0.0 {
        step_bound
    } else {
        step_bound * xnorm
    };
    if is_finite(xnorm) && is_finite(radius) && radius != 0.0 {
        Ok((Some(Start { xnorm, radius }), seen))
    } else {
        Err(8)
    }
}

fn is_first(mode: Mode) -> bool {
    mode == Mode::FirstScaled || mode == Mode::FirstUnscaled
}

/// Tests 6 and 7: x and step bound are read by a first call, the lent scaling by a later scaled one.
fn scaling_arguments(mode: Mode, lent: &[f64], x: &[f64], step_bound: f64) -> Result<(), u8> {
    if mode == Mode::LaterScaled && !all_finite(lent) {
        return Err(6);
    }
    if is_first(mode) && !(all_finite(x) && is_finite(step_bound)) {
        return Err(6);
    }
    if is_first(mode) && step_bound <= 0.0 {
        return Err(7);
    }
    Ok(())
}

fn scale(
    mode: Mode,
    norms: &[f64],
    diag: &mut [f64],
    x: &[f64],
    step_bound: f64,
) -> Result<(Option<Start>, Ranges), u8> {
    let new = entries(mode, norms, diag);
    let scaled = mode == Mode::FirstScaled || mode == Mode::LaterScaled;
    if scaled && !all_finite(&new) {
        return Err(8);
    }
    // A later call works out no norm, so that it has seen neither.
    let answer = if is_first(mode) {
        start(mode, &new, x, step_bound)?
    } else {
        (None, Ranges::NEITHER)
    };
    diag.copy_from_slice(&new);
    Ok(answer)
}

pub fn update_diag(
    state: State,
    store: &mut [f64],
    mode: Mode,
    diag: &mut [f64],
    x: &[f64],
    step_bound: f64,
) -> (Result<(Option<Start>, Ranges), u8>, State) {
    let x_length = if is_first(mode) { x.len() } else { usize::MAX };
    let columns = match admit(state, store, None, &[diag.len(), x_length], false) {
        Ok(columns) => columns,
        Err(k) => return (Err(k), state),
    };
    let diag = &mut diag[..columns.n];
    let x = if is_first(mode) { &x[..columns.n] } else { &[] };
    if let Err(k) = scaling_arguments(mode, diag, x, step_bound) {
        return (Err(k), state);
    }
    if columns.free == 0 {
        return (Err(9), state);
    }
    columns.clear_work(store);
    let norms = columns.narrow(store);
    let norms = &norms[columns.free * (columns.free + 1)..][..columns.free];
    (
        scale_free(&columns, mode, norms, diag, x, step_bound),
        state,
    )
}

/// The scaling of the free columns; the first of `norms` is the first free column's. "First scaling gives a frozen column
/// 1, later scaling leaves its entry, and xnorm runs over the free columns only" (02, #108).
fn scale_free(
    columns: &Columns,
    mode: Mode,
    norms: &[f64],
    diag: &mut [f64],
    x: &[f64],
    step_bound: f64,
) -> Result<(Option<Start>, Ranges), u8> {
    let mut free = columns.taken_out(diag, 1);
    let x = if is_first(mode) {
        columns.taken_out(x, 1)
    } else {
        Vec::new()
    };
    let answer = scale(mode, norms, &mut free, &x, step_bound)?;
    let all = columns.put_in(&free, |k| {
        if mode == Mode::FirstScaled {
            1.0
        } else {
            diag[k]
        }
    });
    diag.copy_from_slice(&all);
    Ok(answer)
}

/// The reduced problem of a call that takes a state and a store alone.
fn asked_of_r(state: State, store: &mut [f64]) -> Result<(Columns, Vec<f64>), u8> {
    let columns = admit(state, store, None, &[], false)?.some_free()?;
    columns.clear_work(store);
    let small = columns.narrow(store);
    Ok((columns, small))
}

/// "The number of leading places with |R_jj| greater than ((max(m,n) · 2^−52) · |R_00|), computed in that order and
/// rounded at each step; the first failing place ends the count" (02, #104); there is no diagonal from row m on.
fn leading_places(room: &Room, m: usize) -> usize {
    let largest = if m < room.n { room.n } else { m };
    let unit = largest as f64 * 2f64.powi(-52);
    let limit = unit * abs(room.cell(0, 0));
    let mut count = 0;
    while count < room.n && count < m && abs(room.cell(count, count)) > limit {
        count += 1;
    }
    count
}

pub fn determined(state: State, store: &mut [f64]) -> (Result<usize, u8>, State) {
    let (columns, mut small) = match asked_of_r(state, store) {
        Ok(reduced) => reduced,
        Err(k) => return (Err(k), state),
    };
    let room = Room::of(columns.free, &mut small);
    (Ok(leading_places(&room, state.m)), state)
}

pub fn full_rank(room: &Room, m: usize) -> bool {
    m >= room.n && (0..room.n).all(|j| room.cell(j, j) != 0.0)
}

pub fn is_non_singular(state: State, store: &mut [f64]) -> (Result<bool, u8>, State) {
    let (columns, mut small) = match asked_of_r(state, store) {
        Ok(reduced) => reduced,
        Err(k) => return (Err(k), state),
    };
    let room = Room::of(columns.free, &mut small);
    (Ok(full_rank(&room, state.m)), state)
}
