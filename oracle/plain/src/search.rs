//! Module 7 of document 01: the search, written as the run that it makes; the answer is read off the run.

use crate::leaves::{DWARF, all_finite, enorm, is_finite, max, min};
use crate::measures::{all_seen, full_rank, measured};
use crate::room::{Room, admit, holding};
use crate::solves::{held_mul, zero_working};
use crate::trials::{Asked, Stand, newton, products, trials};
use api::{End, Found, Held, Of, Place, Ranges, Run, State, Stop};

fn gradient_norm(room: &mut Room, asked: &Asked) -> (f64, Ranges) {
    let mut g = held_mul(room, Held::Zero);
    for j in 0..g.len() {
        g[j] /= asked.diag[asked.order[j]];
    }
    enorm(&g)
}

fn upper_bound(gnorm: f64, radius: f64) -> f64 {
    let upper = gnorm / radius;
    if upper == 0.0 {
        DWARF / min(radius, 0.1)
    } else {
        upper
    }
}

/// The part before the trials: the undamped solve, the bounds and the first lambda.
fn opening(room: &mut Room, asked: &Asked, run: &mut Run, step: &mut [f64]) -> Result<Stand, End> {
    let regular = full_rank(room, asked.m);
    zero_working(room, asked.m, asked.order, step);
    let scaled = products(step, asked.diag);
    let (norm, seen) = enorm(&scaled);
    run.undamped_norm = norm;
    run.norms.push(measured(Of::Undamped, seen));
    if !is_finite(norm) {
        return Err(End::Refused(Place::UndampedNorm));
    }
    let fp = norm - asked.radius;
    if fp <= asked.radius * 0.1 {
        return Err(End::Stopped(Stop::Undamped));
    }
    let mut lower = 0.0;
    if regular {
        let bound = newton(room, Held::Zero, asked, &scaled, norm, fp);
        (lower, run.infinite_first_solve) = (bound.quotient, bound.infinite);
        run.norms.push(measured(Of::LowerBound, bound.seen));
    }
    if !is_finite(lower) {
        return Err(End::Refused(Place::LowerBound));
    }
    let (gnorm, seen) = gradient_norm(room, asked);
    run.norms.push(measured(Of::Gnorm, seen));
    if !is_finite(gnorm) {
        return Err(End::Refused(Place::Gnorm));
    }
    let upper = upper_bound(gnorm, asked.radius);
    let mut lambda = min(max(asked.lambda, lower), upper);
    if lambda == 0.0 {
        lambda = gnorm / norm;
    }
    Ok(Stand {
        lambda,
        lower,
        upper,
        fp,
    })
}

fn whole_run(room: &mut Room, asked: &Asked, step: &mut [f64]) -> Run {
    let mut run = Run {
        undamped_norm: 0.0,
        infinite_first_solve: false,
        trials: Vec::new(),
        norms: Vec::new(),
        end: End::Stopped(Stop::Undamped),
    };
    run.end = match opening(room, asked, &mut run, step) {
        Ok(stand) => trials(room, asked, stand, &mut run, step),
        Err(end) => end,
    };
    room.clear_lower();
    run
}

fn answer(run: &Run) -> Result<(Found, Ranges), u8> {
    if let End::Refused(_) = run.end {
        return Err(8);
    }
    let (lambda, norm) = match run.trials.last() {
        None => (0.0, run.undamped_norm),
        Some(last) => (last.lambda, last.norm),
    };
    let found = Found {
        lambda,
        norm,
        trials: run.trials.len(),
    };
    Ok((found, all_seen(&run.norms)))
}

/// Tests 6 and 7 of a search.
fn arguments(diag: &[f64], radius: f64, lambda: f64) -> Result<(), u8> {
    if !all_finite(diag) || !is_finite(radius) || !is_finite(lambda) {
        return Err(6);
    }
    if radius <= 0.0 || lambda < 0.0 || diag.contains(&0.0) {
        return Err(7);
    }
    Ok(())
}

/// The run and its step, "+0 at a frozen column" (02, #108), or the refusal before it.
fn checked_run(
    state: State,
    store: &mut [f64],
    order: &[usize],
    diag: &[f64],
    radius: f64,
    lambda: f64,
    room_for_step: usize,
) -> Result<(Run, Vec<f64>), u8> {
    let columns = admit(
        state,
        store,
        Some(order),
        &[diag.len(), room_for_step],
        false,
    )?;
    arguments(&diag[..columns.n], radius, lambda)?;
    let columns = columns.some_free()?;
    let mut step = vec![0.0; columns.free];
    let asked = Asked {
        m: state.m,
        order,
        diag: &columns.taken_out(diag, 1),
        radius,
        lambda,
    };
    let mut small = columns.narrow(store);
    let run = whole_run(&mut Room::of(columns.free, &mut small), &asked, &mut step);
    columns.widen(&small, store);
    Ok((run, columns.put_in(&step, |_| 0.0)))
}

pub fn search(
    state: State,
    store: &mut [f64],
    order: &[usize],
    diag: &[f64],
    radius: f64,
    lambda: f64,
    out: &mut [f64],
) -> (Result<(Found, Ranges), u8>, State) {
    let (run, step) = match checked_run(state, store, order, diag, radius, lambda, out.len()) {
        Ok(done) => done,
        Err(k) => return (Err(k), state),
    };
    let found = answer(&run);
    if found.is_ok() {
        out[..step.len()].copy_from_slice(&step);
    }
    (found, holding(state, Held::Nothing))
}

pub fn run(
    state: State,
    store: &[f64],
    order: &[usize],
    diag: &[f64],
    radius: f64,
    lambda: f64,
) -> Option<Run> {
    let mut store = store.to_vec();
    match checked_run(state, &mut store, order, diag, radius, lambda, usize::MAX) {
        Ok((run, _)) => Some(run),
        Err(_) => None,
    }
}
