//! Factoring, and the questions about R that need no more than the store.

use crate::qr::doors::{self, Problem};
use crate::recorder::{self, Norm};
use crate::room::{Room, all_finite, finite};
use api::{EMPTY, Held, Measured, Of, Ranges, State};

/// What factoring is lent.
pub struct Lent<'a> {
    pub store: &'a mut [f64],
    pub order: &'a mut [usize],
    pub bench: &'a mut [f64],
}

/// Every column is read, frozen ones too (02, #108).
fn check(room: Room, jacobian: &[f64], residuals: &[f64], lent: &Lent) -> Result<Room, u8> {
    let (m, n) = (room.m, room.n);
    let others = [
        (jacobian.len(), m * n),
        (residuals.len(), m),
        (lent.order.len(), n),
        (lent.bench.len(), room.bench()),
    ];
    room.lengths(lent.store, &others)?;
    finite(&jacobian[..m * n])?;
    finite(&residuals[..m])?;
    room.some_free()
}

/// The empty state comes back with every refusal.
pub fn factor(
    m: usize,
    n: usize,
    marks: u16,
    jacobian: &[f64],
    residuals: &[f64],
    lent: Lent,
) -> (Result<Ranges, u8>, State) {
    let room = Room::of_sizes(m, n, marks);
    let room = match room.and_then(|room| check(room, jacobian, residuals, &lent)) {
        Ok(room) => room,
        Err(number) => return (Err(number), EMPTY),
    };
    let reduced = room.reduced(jacobian);
    let (problem, norms) =
        recorder::of(|| doors::factor(m, room.free(), &reduced, &residuals[..m]));
    lent.bench[..room.bench()].fill(0.0);
    problem.keep_factored(&room, lent.store);
    if all_finite(&lent.store[..room.needed()]) {
        lent.order[..n].copy_from_slice(&room.continued(problem.order()));
        let held = Held::Nothing;
        let state = State { m, n, held, marks };
        return (Ok(recorder::all(&norms)), state);
    }
    lent.store[..room.needed()].fill(0.0);
    for (place, entry) in lent.order[..n].iter_mut().enumerate() {
        *entry = place;
    }
    (Err(8), EMPTY)
}

/// What each norm of a factoring is of, told by its place and its length alone: first the n columns; then in each step j
/// one of the pivot from row j on, which is of m - j entries, and after it those worked out anew, of one entry less. Of
/// the norms of one length, step j's pivot thus comes last.
fn measured(m: usize, n: usize, norms: &[Norm]) -> Vec<Measured> {
    let (columns, later) = norms.split_at(n);
    let mut measured: Vec<Measured> = columns.iter().map(|norm| of(Of::Column, norm)).collect();
    for (place, norm) in later.iter().enumerate() {
        let row = m - norm.length;
        let last = later[place + 1..]
            .iter()
            .all(|next| next.length != norm.length);
        let pivot = row < m.min(n) && last;
        measured.push(of(if pivot { Of::Pivot(row) } else { Of::Anew }, norm));
    }
    measured
}

fn of(of: Of, norm: &Norm) -> Measured {
    Measured {
        of,
        ranges: norm.ranges,
    }
}

pub fn norms(m: usize, n: usize, marks: u16, jacobian: &[f64]) -> Option<Vec<Measured>> {
    let room = Room::of_sizes(m, n, marks).ok()?;
    let jacobian = jacobian.get(..m * n)?;
    finite(jacobian).ok()?;
    let (free, reduced) = (room.some_free().ok()?.free(), room.reduced(jacobian));
    let (_, norms) = recorder::of(|| doors::factor(m, free, &reduced, &vec![0.0; m]));
    Some(measured(m, free, &norms))
}

/// The tests of a call that takes a state and a store and nothing else to be tested.
pub fn check_store(state: State, store: &[f64]) -> Result<Room, u8> {
    let room = Room::of_state(state)?;
    room.lengths(store, &[])?;
    room.some_free()
}

/// The leading places whose diagonal of R is above ((max(m, n) · 2^−52) · |R_00|) (02, #104). Where m < n, R's row m is
/// zero, whatever the store has there. The Rust's rank, which goes by exact zeros, has no part in it. n is the number of
/// R's columns, so the free count (02, #108).
pub fn determined(state: State, store: &mut [f64]) -> Result<usize, u8> {
    let room = check_store(state, store)?;
    room.clear_work(store);
    let (m, free) = (room.m, room.free());
    let places = m.min(free);
    let diagonal = |j: usize| store[j * room.n + j].abs();
    let limit = m.max(free) as f64 * f64::EPSILON * diagonal(0);
    let failing = (0..places).find(|j| !(diagonal(*j) > limit));
    Ok(failing.unwrap_or(places))
}

pub fn is_non_singular(state: State, store: &mut [f64]) -> Result<bool, u8> {
    let room = check_store(state, store)?;
    room.clear_work(store);
    Ok(unordered(&room, store).is_non_singular())
}

/// The problem for a call that takes no order list, nor reads one.
pub fn unordered(room: &Room, store: &[f64]) -> Problem {
    let order: Vec<usize> = (0..room.n).collect();
    Problem::open(room, store, &order)
}
