//! What the traced copy of `trust_region.rs` writes down, and where document 01 would have refused the search.
//!
//! The shown search never refuses. A number of document 01's list under refusal 8 that is not finite ends the record;
//! what the search goes on to work out is not written down.

use crate::recorder;
use api::{End, Measured, Of, Place, Run, Stop, Trial};
use core::cell::RefCell;
use nalgebra::{Dim, OVector, Scalar};
use num_traits::Float;

struct Record {
    undamped_norm: f64,
    infinite_first_solve: bool,
    /// There was a held solve for the lower bound, so that this has a norm.
    first_solve: bool,
    trials: Vec<Trial>,
    norms: Vec<Measured>,
    end: Option<End>,
}

const NOTHING: Record = Record {
    undamped_norm: 0.0,
    infinite_first_solve: false,
    first_solve: false,
    trials: Vec::new(),
    norms: Vec::new(),
    end: None,
};

thread_local! {
    static RECORD: RefCell<Record> = const { RefCell::new(NOTHING) };
}

/// The record of the one search that `search` runs.
pub fn of<A>(search: impl FnOnce() -> A) -> (A, Run) {
    RECORD.replace(NOTHING);
    let answer = search();
    let record = RECORD.replace(NOTHING);
    let run = Run {
        undamped_norm: record.undamped_norm,
        infinite_first_solve: record.infinite_first_solve,
        trials: record.trials,
        norms: record.norms,
        end: record.end.expect("every search stops"),
    };
    (answer, run)
}

fn note(entry: impl FnOnce(&mut Record)) {
    RECORD.with_borrow_mut(|record| {
        if record.end.is_none() {
            entry(record);
        }
    });
}

fn note_trial(entry: impl FnOnce(&mut Trial)) {
    note(|record| entry(record.trials.last_mut().expect("a trial has begun")));
}

/// Writes down the norm that was just worked out.
fn note_norm(of: Of) {
    let ranges = recorder::last().ranges;
    note(|record| record.norms.push(Measured { of, ranges }));
}

fn refuse_unless_finite<F: Float>(number: F, place: Place) {
    if !number.is_finite() {
        note(|record| record.end = Some(End::Refused(place)));
    }
}

fn infinite<F: Float + Scalar, N: Dim>(numbers: &OVector<F, N>) -> bool {
    numbers.iter().any(|number| !number.is_finite())
}

pub fn stop(rule: Stop) {
    note(|record| record.end = Some(End::Stopped(rule)));
}

pub fn undamped_norm<F: Float>(norm: F) {
    note(|record| record.undamped_norm = norm.to_f64());
    note_norm(Of::Undamped);
    refuse_unless_finite(norm, Place::UndampedNorm);
}

pub fn first_solve<F: Float + Scalar, N: Dim>(solution: &OVector<F, N>) {
    note(|record| {
        record.infinite_first_solve = infinite(solution);
        record.first_solve = true;
    });
}

pub fn lower_bound<F: Float>(bound: F) {
    if RECORD.with_borrow(|record| record.first_solve) {
        note_norm(Of::LowerBound);
    }
    refuse_unless_finite(bound, Place::LowerBound);
}

pub fn gnorm<F: Float>(norm: F) {
    note_norm(Of::Gnorm);
    refuse_unless_finite(norm, Place::Gnorm);
}

/// Begins a trial, unless its lambda refuses the search before the damped solve.
pub fn trial<F: Float + Scalar, N: Dim>(lambda: F, lower: F, upper: F, damping: &OVector<F, N>) {
    refuse_unless_finite(lambda, Place::Lambda);
    note(|record| {
        record.trials.push(Trial {
            lambda: lambda.to_f64(),
            norm: f64::NAN,
            fp: None,
            lower: lower.to_f64(),
            upper: upper.to_f64(),
            infinite_damping: infinite(damping),
            infinite_solve: false,
        })
    });
}

pub fn trial_norm<F: Float>(norm: F) {
    note_trial(|trial| trial.norm = norm.to_f64());
    note_norm(Of::Trial);
    refuse_unless_finite(norm, Place::TrialNorm);
}

pub fn fp<F: Float>(fp: F) {
    note_trial(|trial| trial.fp = Some(fp.to_f64()));
}

pub fn held_solve<F: Float + Scalar, N: Dim>(solution: &OVector<F, N>) {
    note_trial(|trial| trial.infinite_solve = infinite(solution));
}

pub fn correction<F: Float>(correction: F) {
    note_norm(Of::Correction);
    refuse_unless_finite(correction, Place::Correction);
}
