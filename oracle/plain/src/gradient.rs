//! Module 6 of document 01: the gradient; and whether it is above a limit (02, #105).

use crate::leaves::{abs, dot, is_finite, max};
use crate::measures::finite_or_8;
use crate::room::{Room, admit};
use api::State;

/// Those of the columns in pivot order. "The gradient skips columns of norm zero."
fn measures(room: &Room, order: &[usize], b_norm: f64) -> Vec<f64> {
    let b: Vec<f64> = room.qt_b.iter().map(|x| x / b_norm).collect();
    let mut measures = Vec::new();
    for j in 0..room.n {
        let scale = room.norms[order[j]];
        if scale != 0.0 {
            measures.push(abs(dot(room.part(j, 0, j + 1), &b[..j + 1]) / scale));
        }
    }
    measures
}

/// "A non-finite measure": the Rust gives None for a NaN, and the largest may be infinite.
fn largest(measures: &[f64]) -> Result<f64, u8> {
    let mut most = 0.0;
    for &measure in measures {
        if measure.is_nan() {
            return Err(8);
        }
        most = max(most, measure);
    }
    finite_or_8(most)
}

/// What has ended stays ended: "exactly when a column before the first non-finite one, in pivot order, is above the limit".
fn above(limit: f64, measures: &[f64]) -> Result<bool, u8> {
    let next = |so_far: Result<bool, u8>, measure: &f64| match so_far {
        Ok(false) if !is_finite(*measure) => Err(8),
        Ok(false) => Ok(*measure > limit),
        ended => ended,
    };
    measures.iter().fold(Ok(false), next)
}

/// Tests 6 and 7: a residual norm that is not above zero, a limit that is below it.
fn numbers(b_norm: f64, limit: f64) -> Result<(), u8> {
    if !is_finite(b_norm) || !is_finite(limit) {
        return Err(6);
    }
    if b_norm <= 0.0 || limit < 0.0 {
        return Err(7);
    }
    Ok(())
}

/// The reduced problem's measures, of a call that passes all tests before 8.
fn asked(
    state: State,
    store: &mut [f64],
    order: &[usize],
    b_norm: f64,
    limit: f64,
) -> Result<Vec<f64>, u8> {
    let columns = admit(state, store, Some(order), &[], false)?;
    numbers(b_norm, limit)?;
    let columns = columns.some_free()?;
    let mut small = columns.narrow(store);
    columns.clear_work(store);
    let room = Room::of(columns.free, &mut small);
    Ok(measures(&room, order, b_norm))
}

/// The gradient has no limit, and tests as with one that passes.
pub fn max_a_t_b_scaled(
    state: State,
    store: &mut [f64],
    order: &[usize],
    b_norm: f64,
) -> (Result<f64, u8>, State) {
    let measures = asked(state, store, order, b_norm, 0.0);
    (measures.and_then(|all| largest(&all)), state)
}

pub fn above_limit(
    state: State,
    store: &mut [f64],
    order: &[usize],
    b_norm: f64,
    limit: f64,
) -> (Result<bool, u8>, State) {
    let measures = asked(state, store, order, b_norm, limit);
    (measures.and_then(|all| above(limit, &all)), state)
}
