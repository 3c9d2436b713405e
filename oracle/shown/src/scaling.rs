//! The scaling calls, over the crate's own lines.

use crate::factoring::unordered;
use crate::qr::doors::vector;
use crate::recorder;
use crate::room::{Room, all_finite, finite, unless};
use crate::update_diag::{Config, LM};
use api::{Mode, Ranges, Start, State};

/// The lent numbers of a scaling call.
pub struct Lent<'a> {
    pub diag: &'a mut [f64],
    pub x: &'a [f64],
    pub step_bound: f64,
}

fn is_first(mode: Mode) -> bool {
    matches!(mode, Mode::FirstScaled | Mode::FirstUnscaled)
}

/// The first call alone reads x and the step bound, and the later scaled call alone the lent scaling.
fn check(state: State, store: &[f64], mode: Mode, lent: &Lent) -> Result<Room, u8> {
    let room = Room::of_state(state)?;
    let n = room.n;
    room.lengths(store, &[(lent.diag.len(), n)])?;
    if is_first(mode) {
        room.lengths(store, &[(lent.x.len(), n)])?;
        finite(&lent.x[..n])?;
        finite(&[lent.step_bound])?;
        unless(lent.step_bound <= 0.0)?;
    }
    if mode == Mode::LaterScaled {
        finite(&lent.diag[..n])?;
    }
    room.some_free()
}

fn shown(
    room: &Room,
    store: &[f64],
    mode: Mode,
    lent: &Lent,
) -> Result<(LM<f64, nalgebra::Dyn>, Ranges), u8> {
    let x = if is_first(mode) {
        vector(&room.gather(lent.x))
    } else {
        vector(&vec![0.0; room.free()])
    };
    let mut lm = LM {
        config: Config {
            stepbound: lent.step_bound,
            scale_diag: matches!(mode, Mode::FirstScaled | Mode::LaterScaled),
        },
        tmp: x.clone(),
        x,
        delta: 0.0,
        xnorm: 0.0,
        diag: vector(&room.gather(lent.diag)),
        first_update: is_first(mode),
    };
    let mut problem = unordered(room, store);
    let (done, norms) = recorder::of(|| lm.update_diag(&mut problem));
    match done {
        Ok(()) => Ok((lm, recorder::all(&norms))),
        Err(_) => Err(8),
    }
}

/// Refusal 8 for a radius that is not finite or was rounded to zero, which the crate's lines let through.
fn start(lm: &LM<f64, nalgebra::Dyn>) -> Result<Start, u8> {
    let start = Start {
        xnorm: lm.xnorm,
        radius: lm.delta,
    };
    if all_finite(&[start.xnorm, start.radius]) && start.radius != 0.0 {
        Ok(start)
    } else {
        Err(8)
    }
}

pub fn update_diag(
    state: State,
    store: &mut [f64],
    mode: Mode,
    lent: Lent,
) -> Result<(Option<Start>, Ranges), u8> {
    let room = check(state, store, mode, &lent)?;
    room.clear_work(store);
    let (lm, ranges) = shown(&room, store, mode, &lent)?;
    let answer = if is_first(mode) {
        Some(start(&lm)?)
    } else {
        None
    };
    if matches!(mode, Mode::FirstScaled | Mode::LaterScaled) {
        if !all_finite(lm.diag.as_slice()) {
            return Err(8);
        }
        if is_first(mode) {
            // "First scaling gives a frozen column 1, later scaling leaves its entry" (02, #108).
            lent.diag[..room.n].fill(1.0);
        }
        room.scatter(lm.diag.as_slice(), lent.diag);
    }
    Ok((answer, ranges))
}
