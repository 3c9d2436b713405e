//! Module 7 of document 01, the trials of a search and the rules that stop them.

use crate::leaves::{DWARF, abs, all_finite, axpy_zero, enorm, is_finite, is_negative, max, min};
use crate::measures::measured;
use crate::room::Room;
use crate::root::sqrt;
use crate::solves::{damped_working, held_solve};
use api::{End, Held, Of, Place, Ranges, Run, Stop, Trial};

/// What a search is given, past its checks.
pub struct Asked<'a> {
    pub m: usize,
    pub order: &'a [usize],
    pub diag: &'a [f64],
    pub radius: f64,
    pub lambda: f64,
}

/// What the next trial starts from.
pub struct Stand {
    pub lambda: f64,
    pub lower: f64,
    pub upper: f64,
    pub fp: f64,
}

pub fn products(p: &[f64], diag: &[f64]) -> Vec<f64> {
    let mut out = p.to_vec();
    for j in 0..p.len() {
        out[j] *= diag[j];
    }
    out
}

/// Newton's quotient ((fp/delta)/norm)/norm, by a held solve: lower bound and correction.
pub struct Newton {
    pub quotient: f64,
    /// The solve gave a number that is not finite, which by itself refuses nothing.
    pub infinite: bool,
    /// What the norm of the solve saw.
    pub seen: Ranges,
}

pub fn newton(
    room: &mut Room,
    held: Held,
    asked: &Asked,
    scaled: &[f64],
    norm: f64,
    fp: f64,
) -> Newton {
    let mut rhs = scaled.to_vec();
    for j in 0..rhs.len() {
        rhs[j] /= norm;
        rhs[j] *= asked.diag[j];
    }
    let x = held_solve(room, held, asked.order, &rhs);
    let (length, seen) = enorm(&x);
    Newton {
        quotient: ((fp / asked.radius) / length) / length,
        infinite: !all_finite(&x),
        seen,
    }
}

/// One trial: a damped solve and its scaled norm, which the run is told. `Err` where lambda is not finite: then there is
/// no solve.
fn trial(
    room: &mut Room,
    asked: &Asked,
    stand: &mut Stand,
    run: &mut Run,
    step: &mut [f64],
) -> Result<(Trial, Vec<f64>), Place> {
    if stand.lambda == 0.0 {
        stand.lambda = max(DWARF, stand.upper * 0.001);
    }
    if !is_finite(stand.lambda) {
        return Err(Place::Lambda);
    }
    let mut damping = vec![0.0; room.n];
    axpy_zero(sqrt(stand.lambda), &asked.diag[..room.n], &mut damping);
    damped_working(room, asked.order, &damping, step);
    let scaled = products(step, asked.diag);
    let (norm, seen) = enorm(&scaled);
    run.norms.push(measured(Of::Trial, seen));
    let trial = Trial {
        lambda: stand.lambda,
        norm,
        fp: None,
        lower: stand.lower,
        upper: stand.upper,
        infinite_damping: !all_finite(&damping),
        infinite_solve: false,
    };
    Ok((trial, scaled))
}

/// What follows a trial's solve: the run's end, or the stand for the next trial. "t = 10, tested before fp is worked
/// out", so trial ten has no correction that could refuse. No last trial has one: its norm is told only past the stops.
fn judge(
    room: &mut Room,
    asked: &Asked,
    trial: &mut Trial,
    scaled: &[f64],
    stand: &mut Stand,
    run: &mut Run,
) -> Option<End> {
    if !is_finite(trial.norm) {
        return Some(End::Refused(Place::TrialNorm));
    }
    if run.trials.len() == 9 {
        return Some(End::Stopped(Stop::Ten));
    }
    let previous = stand.fp;
    let fp = trial.norm - asked.radius;
    stand.fp = fp;
    trial.fp = Some(fp);
    if abs(fp) <= asked.radius * 0.1 {
        return Some(End::Stopped(Stop::Within));
    }
    if stand.lower == 0.0 && fp <= previous && is_negative(previous) {
        return Some(End::Stopped(Stop::Falling));
    }
    let correction = newton(room, Held::Damped, asked, scaled, trial.norm, fp);
    trial.infinite_solve = correction.infinite;
    run.norms.push(measured(Of::Correction, correction.seen));
    if !is_finite(correction.quotient) {
        return Some(End::Refused(Place::Correction));
    }
    if is_negative(fp) {
        stand.upper = min(stand.upper, stand.lambda);
    } else {
        stand.lower = max(stand.lower, stand.lambda);
    }
    stand.lambda = max(stand.lower, stand.lambda + correction.quotient);
    None
}

pub fn trials(
    room: &mut Room,
    asked: &Asked,
    mut stand: Stand,
    run: &mut Run,
    step: &mut [f64],
) -> End {
    loop {
        let (mut trial, scaled) = match trial(room, asked, &mut stand, run, step) {
            Ok(done) => done,
            Err(place) => return End::Refused(place),
        };
        let end = judge(room, asked, &mut trial, &scaled, &mut stand, run);
        run.trials.push(trial);
        if let Some(end) = end {
            return end;
        }
    }
}
