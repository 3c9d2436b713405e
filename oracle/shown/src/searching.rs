//! The search: the shown Rust and its traced copy, held to the same bits each time.

use crate::qr::doors::{Problem, vector};
use crate::recorder::{self, Norm};
use crate::room::{Room, finite, unless};
use crate::{Shown, factoring, trace, traced, trust_region};
use api::{End, Found, Held, Measured, Ranges, Run, State, Traced};

/// What a search is asked.
#[derive(Clone, Copy)]
pub struct Question<'a> {
    pub order: &'a [usize],
    pub diag: &'a [f64],
    pub radius: f64,
    pub lambda: f64,
}

struct Answer {
    step: Vec<f64>,
    lambda: f64,
    norm: f64,
    ranges: Ranges,
    run: Run,
    problem: Problem,
}

/// `room_for` is the length of the output.
fn check(state: State, store: &[f64], asked: &Question, room_for: usize) -> Result<Room, u8> {
    let room = Room::of_state(state)?;
    let n = room.n;
    let others = [(asked.order.len(), n), (asked.diag.len(), n), (room_for, n)];
    room.lengths(store, &others)?;
    room.order(asked.order)?;
    finite(&asked.diag[..n])?;
    finite(&[asked.radius, asked.lambda])?;
    unless(asked.radius <= 0.0 || asked.lambda < 0.0)?;
    unless(asked.diag[..n].contains(&0.0))?;
    room.some_free()
}

fn same(a: f64, b: f64) -> bool {
    a.to_bits() == b.to_bits() || a.is_nan() && b.is_nan()
}

/// Both work out the same norms, a refused search too, since neither stops where document 01 refuses. The trace has
/// them all where the search is answered; where it is refused 8 it has those up to the number that refuses.
fn assert_norms(original: &[Norm], copy: &[Norm], run: &Run) {
    assert_eq!(original, copy);
    let told: Vec<Ranges> = run.norms.iter().map(|norm| norm.ranges).collect();
    let worked: Vec<Ranges> = original.iter().map(|norm| norm.ranges).collect();
    assert!(worked.starts_with(&told));
    assert!(matches!(run.end, End::Refused(_)) || told.len() == worked.len());
}

fn both(room: &Room, store: &[f64], asked: &Question) -> Answer {
    let open = || Problem::open(room, store, asked.order);
    let diag = vector(&room.gather(asked.diag));
    let (radius, lambda) = (asked.radius, asked.lambda);
    let mut problem = open();
    let (plain, norms) = recorder::of(|| {
        trust_region::determine_lambda_and_parameter_update(&mut problem, &diag, radius, lambda)
    });
    let ((copy, run), of_copy) = recorder::of(|| {
        trace::of(|| {
            traced::determine_lambda_and_parameter_update(&mut open(), &diag, radius, lambda)
        })
    });
    assert_norms(&norms, &of_copy, &run);
    assert!(same(plain.lambda, copy.lambda) && same(plain.dp_norm, copy.dp_norm));
    assert!(
        plain
            .step
            .iter()
            .zip(copy.step.iter())
            .all(|(a, b)| same(*a, *b))
    );
    Answer {
        step: plain.step.as_slice().to_vec(),
        lambda: plain.lambda,
        norm: plain.dp_norm,
        ranges: recorder::all(&norms),
        run,
        problem,
    }
}

/// A search that passes its checks leaves +0 below R and in l_diag, refused 8 or not.
pub fn search(
    state: State,
    store: &mut [f64],
    asked: Question,
    out: &mut [f64],
) -> (Result<(Found, Ranges), u8>, State) {
    let room = match check(state, store, &asked, out.len()) {
        Ok(room) => room,
        Err(number) => return (Err(number), state),
    };
    let answer = both(&room, store, &asked);
    answer.problem.keep_r(&room, store);
    room.clear_l(store);
    room.clear_work(store);
    let held = Held::Nothing;
    let state = State { held, ..state };
    if let End::Refused(_) = answer.run.end {
        return (Err(8), state);
    }
    out[..room.n].copy_from_slice(&room.spread(&answer.step));
    let found = Found {
        lambda: answer.lambda,
        norm: answer.norm,
        trials: answer.run.trials.len(),
    };
    (Ok((found, answer.ranges)), state)
}

impl Traced for Shown {
    fn run(
        &self,
        state: State,
        store: &[f64],
        order: &[usize],
        diag: &[f64],
        radius: f64,
        lambda: f64,
    ) -> Option<Run> {
        let asked = Question {
            order,
            diag,
            radius,
            lambda,
        };
        let room = check(state, store, &asked, usize::MAX).ok()?;
        Some(both(&room, store, &asked).run)
    }

    fn norms(&self, m: usize, n: usize, marks: u16, jacobian: &[f64]) -> Option<Vec<Measured>> {
        factoring::norms(m, n, marks, jacobian)
    }
}

#[cfg(test)]
mod tests {
    use super::*;
    use crate::qr::doors;

    /// Case K without test 7. The crate's only guard is a debug assertion by `is_positive`, which reads the sign bit: a
    /// radius of +0 passes it, and the search answers with an infinite lambda and a step of zero.
    #[test]
    fn the_crate_lets_a_radius_of_zero_through() {
        let mut problem = doors::factor(1, 1, &[3.0], &[6.0]);
        let diag = vector(&[1.0]);
        let answer =
            trust_region::determine_lambda_and_parameter_update(&mut problem, &diag, 0.0, 0.0);
        assert_eq!(answer.lambda, f64::INFINITY);
        assert_eq!((answer.dp_norm, answer.step[0]), (0.0, 0.0));
    }
}
