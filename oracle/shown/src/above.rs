//! Whether the gradient is above a limit (02, #105).

use crate::engine::check_solve;
use crate::qr::doors::Problem;
use crate::room::{finite, unless};
use api::State;

/// The Rust has no such call: it is asked for the measure of one column after the other, and of none after the one that
/// ends the question.
pub fn above_limit(
    state: State,
    store: &mut [f64],
    order: &[usize],
    b_norm: f64,
    limit: f64,
) -> Result<bool, u8> {
    let room = check_solve(state, store, order, &[])?;
    finite(&[b_norm, limit])?;
    unless(b_norm <= 0.0 || limit < 0.0)?;
    let room = room.some_free()?;
    let mut problem = Problem::open(&room, store, order);
    room.clear_work(store);
    for place in 0..room.free() {
        let measure = problem.column_measure(place, b_norm);
        let finite = measure.filter(|measure| measure.is_finite());
        if finite.ok_or(8)? > limit {
            return Ok(true);
        }
    }
    Ok(false)
}
