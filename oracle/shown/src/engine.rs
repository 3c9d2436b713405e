//! The calls of document 01: its refusals in order, then the shown Rust, then what stays in the lent room.

use crate::factoring::{self, unordered};
use crate::qr::doors::{Problem, vector};
use crate::room::{Room, all_finite, finite, unless};
use crate::searching::{self, Question};
use crate::{Shown, above, packing, recorder, scaling, sheet};
use api::{Engine, Found, Held, Mode, Ranges, Start, State};

/// The tests of a solve, without those of its numbers.
pub fn check_solve(
    state: State,
    store: &[f64],
    order: &[usize],
    others: &[usize],
) -> Result<Room, u8> {
    let room = Room::of_state(state)?;
    room.lengths(store, &[(order.len(), room.n)])?;
    for length in others {
        room.lengths(store, &[(*length, room.n)])?;
    }
    room.order(order)?;
    Ok(room)
}

/// Test 5 of a held call: whether what is held is a damped triangle.
fn is_damped(state: State) -> Result<bool, u8> {
    match state.held {
        Held::Empty | Held::Nothing => Err(5),
        Held::Zero => Ok(false),
        Held::Damped => Ok(true),
    }
}

/// Writes an answer that is finite; else refusal 8 with the output unwritten.
fn answer(numbers: &[f64], out: &mut [f64]) -> Result<(), u8> {
    if !all_finite(numbers) {
        return Err(8);
    }
    out[..numbers.len()].copy_from_slice(numbers);
    Ok(())
}

/// The end of a solve: a refused one leaves nothing held.
fn settle(
    room: &Room,
    state: State,
    store: &mut [f64],
    answered: Result<(), u8>,
    held: Held,
) -> (Result<(), u8>, State) {
    room.clear_work(store);
    if held == Held::Zero || answered.is_err() {
        room.clear_l(store);
    }
    let held = if answered.is_ok() {
        held
    } else {
        Held::Nothing
    };
    (answered, State { held, ..state })
}

fn solve(
    state: State,
    store: &mut [f64],
    order: &[usize],
    rhs: &[f64],
    out: &mut [f64],
) -> Result<(), u8> {
    let room = check_solve(state, store, order, &[rhs.len(), out.len()])?;
    let damped = is_damped(state)?;
    finite(&rhs[..room.n])?;
    let room = room.some_free()?;
    let mut problem = Problem::open(&room, store, order);
    let numbers = problem.held(damped).solve(vector(&room.gather(rhs)));
    room.clear_work(store);
    answer(&room.padded(numbers.as_slice()), out)
}

fn mul_qt_b(state: State, store: &mut [f64], out: &mut [f64]) -> Result<(), u8> {
    let room = Room::of_state(state)?;
    room.lengths(store, &[(out.len(), room.n)])?;
    let damped = is_damped(state)?;
    let room = room.some_free()?;
    let mut problem = unordered(&room, store);
    let filled = vector(&vec![0.0; room.free()]);
    let numbers = problem.held(damped).mul_qt_b(filled);
    room.clear_work(store);
    answer(&room.padded(numbers.as_slice()), out)
}

fn max_a_t_b_scaled(
    state: State,
    store: &mut [f64],
    order: &[usize],
    b_norm: f64,
) -> Result<f64, u8> {
    let room = check_solve(state, store, order, &[])?;
    finite(&[b_norm])?;
    unless(b_norm <= 0.0)?;
    let room = room.some_free()?;
    let mut problem = Problem::open(&room, store, order);
    let measure = problem.max_a_t_b_scaled(b_norm);
    room.clear_work(store);
    measure.filter(|measure| measure.is_finite()).ok_or(8)
}

fn a_x_norm(
    state: State,
    store: &mut [f64],
    order: &[usize],
    x: &[f64],
) -> Result<(f64, Ranges), u8> {
    let room = check_solve(state, store, order, &[x.len()])?;
    finite(&x[..room.n])?;
    let room = room.some_free()?;
    let mut problem = Problem::open(&room, store, order);
    let (norm, norms) = recorder::of(|| problem.a_x_norm(&vector(&room.gather(x))));
    room.clear_work(store);
    let ranges = recorder::all(&norms);
    if norm.is_finite() {
        Ok((norm, ranges))
    } else {
        Err(8)
    }
}

impl Engine for Shown {
    fn factor(
        &self,
        m: usize,
        n: usize,
        marks: u16,
        jacobian: &[f64],
        residuals: &[f64],
        store: &mut [f64],
        order: &mut [usize],
        bench: &mut [f64],
    ) -> (Result<Ranges, u8>, State) {
        let lent = factoring::Lent {
            store,
            order,
            bench,
        };
        factoring::factor(m, n, marks, jacobian, residuals, lent)
    }

    fn solve_with_zero_diagonal(
        &self,
        state: State,
        store: &mut [f64],
        order: &[usize],
        out: &mut [f64],
    ) -> (Result<(), u8>, State) {
        let checked = check_solve(state, store, order, &[out.len()]);
        let room = match checked.and_then(Room::some_free) {
            Ok(room) => room,
            Err(number) => return (Err(number), state),
        };
        let mut problem = Problem::open(&room, store, order);
        let (numbers, _) = problem.solve_with_zero_diagonal();
        problem.keep_r(&room, store);
        let answered = answer(&room.spread(numbers.as_slice()), out);
        settle(&room, state, store, answered, Held::Zero)
    }

    fn solve_with_diagonal(
        &self,
        state: State,
        store: &mut [f64],
        order: &[usize],
        diag: &[f64],
        out: &mut [f64],
    ) -> (Result<(), u8>, State) {
        let checked = check_solve(state, store, order, &[diag.len(), out.len()]);
        let checked = checked.and_then(|room| finite(&diag[..room.n]).map(|()| room));
        let room = match checked.and_then(Room::some_free) {
            Ok(room) => room,
            Err(number) => return (Err(number), state),
        };
        let mut problem = Problem::open(&room, store, order);
        let filled = vector(&vec![0.0; room.free()]);
        let (numbers, _) = problem.solve_with_diagonal(&vector(&room.gather(diag)), filled);
        problem.keep_damped(&room, store);
        let answered = answer(&room.spread(numbers.as_slice()), out);
        settle(&room, state, store, answered, Held::Damped)
    }

    fn solve(
        &self,
        state: State,
        store: &mut [f64],
        order: &[usize],
        rhs: &[f64],
        out: &mut [f64],
    ) -> (Result<(), u8>, State) {
        (solve(state, store, order, rhs, out), state)
    }

    fn mul_qt_b(
        &self,
        state: State,
        store: &mut [f64],
        out: &mut [f64],
    ) -> (Result<(), u8>, State) {
        (mul_qt_b(state, store, out), state)
    }

    fn max_a_t_b_scaled(
        &self,
        state: State,
        store: &mut [f64],
        order: &[usize],
        b_norm: f64,
    ) -> (Result<f64, u8>, State) {
        (max_a_t_b_scaled(state, store, order, b_norm), state)
    }

    fn above_limit(
        &self,
        state: State,
        store: &mut [f64],
        order: &[usize],
        b_norm: f64,
        limit: f64,
    ) -> (Result<bool, u8>, State) {
        let answer = above::above_limit(state, store, order, b_norm, limit);
        (answer, state)
    }

    fn a_x_norm(
        &self,
        state: State,
        store: &mut [f64],
        order: &[usize],
        x: &[f64],
    ) -> (Result<(f64, Ranges), u8>, State) {
        (a_x_norm(state, store, order, x), state)
    }

    fn update_diag(
        &self,
        state: State,
        store: &mut [f64],
        mode: Mode,
        diag: &mut [f64],
        x: &[f64],
        step_bound: f64,
    ) -> (Result<(Option<Start>, Ranges), u8>, State) {
        let lent = scaling::Lent {
            diag,
            x,
            step_bound,
        };
        (scaling::update_diag(state, store, mode, lent), state)
    }

    fn search(
        &self,
        state: State,
        store: &mut [f64],
        order: &[usize],
        diag: &[f64],
        radius: f64,
        lambda: f64,
        out: &mut [f64],
    ) -> (Result<(Found, Ranges), u8>, State) {
        let asked = Question {
            order,
            diag,
            radius,
            lambda,
        };
        searching::search(state, store, asked, out)
    }

    fn determined(&self, state: State, store: &mut [f64]) -> (Result<usize, u8>, State) {
        (factoring::determined(state, store), state)
    }

    fn is_non_singular(&self, state: State, store: &mut [f64]) -> (Result<bool, u8>, State) {
        (factoring::is_non_singular(state, store), state)
    }

    fn pack(
        &self,
        state: State,
        store: &[f64],
        order: &[usize],
        room: &mut [f64],
        places: &mut [usize],
    ) -> (Result<(), u8>, State) {
        (packing::pack(state, store, order, room, places), state)
    }

    fn unpack(
        &self,
        state: State,
        room: &[f64],
        places: &[usize],
        store: &mut [f64],
        order: &mut [usize],
    ) -> (Result<(), u8>, State) {
        match packing::unpack(state, room, places, store, order) {
            Ok(()) => (
                Ok(()),
                State {
                    held: Held::Nothing,
                    ..state
                },
            ),
            refused => (refused, state),
        }
    }

    fn sheet(&self, bytes: &[u8]) -> String {
        sheet::print(sheet::work(bytes))
    }
}
