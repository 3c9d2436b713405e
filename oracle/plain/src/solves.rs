//! Module 4 of document 01: the solves and the two held calls. The workings make no test 6 or 8, so that the search
//! can stand on them: its list under refusal 8 has no inner solve.

use crate::elimination::eliminate;
use crate::frozen::Columns;
use crate::leaves::{all_finite, axpy, dot, solve_upper};
use crate::room::{Room, admit, holding};
use api::{Held, State};

/// "The place of the first exact zero diagonal, at most min(m, n) for R".
fn rank_of_r(room: &Room, m: usize) -> usize {
    let most = m.min(room.n);
    (0..most).find(|&j| room.cell(j, j) == 0.0).unwrap_or(most)
}

/// "An answer entry goes to the column that the order list names."
fn scatter(from: &[f64], order: &[usize], out: &mut [f64]) {
    for j in 0..from.len() {
        out[order[j]] = from[j];
    }
}

pub fn zero_working(room: &mut Room, m: usize, order: &[usize], out: &mut [f64]) {
    room.clear_lower();
    let rank = rank_of_r(room, m);
    room.work.copy_from_slice(room.qt_b);
    room.work[rank..].fill(0.0);
    solve_upper(room.square, room.n, rank, room.work);
    scatter(room.work, order, out);
    room.work.fill(0.0);
}

pub fn damped_working(room: &mut Room, order: &[usize], diag: &[f64], out: &mut [f64]) {
    let n = room.n;
    let mut rhs = room.qt_b.to_vec();
    eliminate(room, order, diag, &mut rhs);
    let rank = room.l_diag.iter().position(|&d| d == 0.0).unwrap_or(n);
    rhs[rank..].fill(0.0);
    for j in (0..rank).rev() {
        let sum = dot(room.part(j, j + 1, rank), &rhs[j + 1..rank]);
        rhs[j] = (rhs[j] - sum) / room.l_diag[j];
    }
    scatter(&rhs, order, out);
    room.work.fill(0.0);
}

/// The held call `solve`. The lower triangle where damped, R's transpose where zero.
pub fn held_solve(room: &mut Room, held: Held, order: &[usize], rhs: &[f64]) -> Vec<f64> {
    let n = room.n;
    let mut x: Vec<f64> = (0..n).map(|i| rhs[order[i]]).collect();
    for j in 0..n {
        if held == Held::Damped {
            x[j] /= room.l_diag[j];
            let a = -x[j];
            axpy(a, room.part(j, j + 1, n), &mut x[j + 1..]);
        } else {
            let sum = dot(&x[..j], room.part(j, 0, j));
            x[j] = (x[j] - sum) / room.cell(j, j);
        }
    }
    room.work.fill(0.0);
    x
}

/// The held call `mul_qt_b`. The answer stands in pivot order, as in the Rust.
pub fn held_mul(room: &mut Room, held: Held) -> Vec<f64> {
    let n = room.n;
    let mut out = vec![0.0; n];
    for i in 0..n {
        if held == Held::Damped {
            axpy(room.qt_b[i], room.part(i, i + 1, n), &mut out[i + 1..]);
            out[i] += room.qt_b[i] * room.l_diag[i];
        } else {
            out[i] = dot(&room.qt_b[..i + 1], room.part(i, 0, i + 1));
        }
    }
    room.work.fill(0.0);
    out
}

/// The end of a zero or damped solve. "A frozen column's step is +0" (02, #108). Refusal 8: "lower part and l_diag +0,
/// held nothing".
fn settle(
    columns: &Columns,
    small: &mut [f64],
    answer: &[f64],
    store: &mut [f64],
    out: &mut [f64],
    held: Held,
) -> (Result<(), u8>, Held) {
    let mut end = (Ok(()), held);
    if all_finite(answer) {
        out[..columns.n].copy_from_slice(&columns.put_in(answer, |_| 0.0));
    } else {
        Room::of(columns.free, small).clear_lower();
        end = (Err(8), Held::Nothing);
    }
    columns.widen(small, store);
    end
}

pub fn solve_with_zero_diagonal(
    state: State,
    store: &mut [f64],
    order: &[usize],
    out: &mut [f64],
) -> (Result<(), u8>, State) {
    let admitted = admit(state, store, Some(order), &[out.len()], false);
    let columns = match admitted.and_then(Columns::some_free) {
        Ok(columns) => columns,
        Err(k) => return (Err(k), state),
    };
    let mut small = columns.narrow(store);
    let mut answer = vec![0.0; columns.free];
    let mut room = Room::of(columns.free, &mut small);
    zero_working(&mut room, state.m, order, &mut answer);
    let (result, held) = settle(&columns, &mut small, &answer, store, out, Held::Zero);
    (result, holding(state, held))
}

pub fn solve_with_diagonal(
    state: State,
    store: &mut [f64],
    order: &[usize],
    diag: &[f64],
    out: &mut [f64],
) -> (Result<(), u8>, State) {
    let admitted = admit(state, store, Some(order), &[diag.len(), out.len()], false);
    let columns = match finite_and_free(admitted, diag) {
        Ok(columns) => columns,
        Err(k) => return (Err(k), state),
    };
    let mut small = columns.narrow(store);
    let mut answer = vec![0.0; columns.free];
    let (mut room, diag) = (
        Room::of(columns.free, &mut small),
        columns.taken_out(diag, 1),
    );
    damped_working(&mut room, order, &diag, &mut answer);
    let (result, held) = settle(&columns, &mut small, &answer, store, out, Held::Damped);
    (result, holding(state, held))
}

/// Tests 6 and 9 of a call that takes n numbers; the frozen columns' are read too (02, #108).
pub fn finite_and_free(admitted: Result<Columns, u8>, v: &[f64]) -> Result<Columns, u8> {
    let columns = admitted?;
    if all_finite(&v[..columns.n]) {
        columns.some_free()
    } else {
        Err(6)
    }
}

/// The end of a held call: "+0 in the places past the free count" (02, #108).
fn hand_out(
    columns: &Columns,
    answer: &[f64],
    store: &mut [f64],
    out: &mut [f64],
) -> Result<(), u8> {
    columns.clear_work(store);
    if !all_finite(answer) {
        return Err(8);
    }
    out[..columns.n].copy_from_slice(&columns.filled_up(answer));
    Ok(())
}

pub fn solve(
    state: State,
    store: &mut [f64],
    order: &[usize],
    rhs: &[f64],
    out: &mut [f64],
) -> (Result<(), u8>, State) {
    let admitted = admit(state, store, Some(order), &[rhs.len(), out.len()], true);
    let columns = match finite_and_free(admitted, rhs) {
        Ok(columns) => columns,
        Err(k) => return (Err(k), state),
    };
    let mut small = columns.narrow(store);
    let (mut room, rhs) = (
        Room::of(columns.free, &mut small),
        columns.taken_out(rhs, 1),
    );
    let answer = held_solve(&mut room, state.held, order, &rhs);
    (hand_out(&columns, &answer, store, out), state)
}

pub fn mul_qt_b(state: State, store: &mut [f64], out: &mut [f64]) -> (Result<(), u8>, State) {
    let admitted = admit(state, store, None, &[out.len()], true);
    let columns = match admitted.and_then(Columns::some_free) {
        Ok(columns) => columns,
        Err(k) => return (Err(k), state),
    };
    let mut small = columns.narrow(store);
    let answer = held_mul(&mut Room::of(columns.free, &mut small), state.held);
    (hand_out(&columns, &answer, store, out), state)
}
