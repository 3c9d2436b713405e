//! 01, Lent room and what stays in it; Refusal numbers, tests 2 to 5.

use crate::frozen::Columns;
use api::{Held, State};

pub const MOST_ROWS: usize = 128;
pub const MOST_COLUMNS: usize = 16;

/// The needed part of a store of n columns: of the reduced problem's own store, where columns are frozen.
pub struct Room<'a> {
    pub n: usize,
    /// Column j from place j*n on.
    pub square: &'a mut [f64],
    pub qt_b: &'a mut [f64],
    pub norms: &'a mut [f64],
    pub l_diag: &'a mut [f64],
    pub work: &'a mut [f64],
}

pub fn needed(n: usize) -> usize {
    n * n + 4 * n
}

impl<'a> Room<'a> {
    pub fn of(n: usize, store: &'a mut [f64]) -> Room<'a> {
        let (square, rest) = store.split_at_mut(n * n);
        let (qt_b, rest) = rest.split_at_mut(n);
        let (norms, rest) = rest.split_at_mut(n);
        let (l_diag, rest) = rest.split_at_mut(n);
        let work = &mut rest[..n];
        Room {
            n,
            square,
            qt_b,
            norms,
            l_diag,
            work,
        }
    }

    pub fn cell(&self, i: usize, j: usize) -> f64 {
        self.square[j * self.n + i]
    }

    pub fn put(&mut self, i: usize, j: usize, x: f64) {
        self.square[j * self.n + i] = x;
    }

    /// Rows `from` to before `to` of column j.
    pub fn part(&self, j: usize, from: usize, to: usize) -> &[f64] {
        &self.square[j * self.n + from..j * self.n + to]
    }

    /// "The strict lower part and l_diag to +0".
    pub fn clear_lower(&mut self) {
        for j in 0..self.n {
            for i in j + 1..self.n {
                self.put(i, j, 0.0);
            }
        }
        self.l_diag.fill(0.0);
    }
}

pub fn sizes(m: usize, n: usize) -> Result<(), u8> {
    if (1..=MOST_ROWS).contains(&m) && (1..=MOST_COLUMNS).contains(&n) {
        Ok(())
    } else {
        Err(2)
    }
}

/// Tests 5 (state empty), 2, 3, 4 and 5 (nothing held) of a call that takes a state. `lengths` are those of the
/// vectors that need n numbers each; `reads_held` marks the two held calls. Refusal 9 comes later.
pub fn admit(
    state: State,
    store: &[f64],
    order: Option<&[usize]>,
    lengths: &[usize],
    reads_held: bool,
) -> Result<Columns, u8> {
    if state.held == Held::Empty {
        return Err(5);
    }
    sizes(state.m, state.n)?;
    let n = state.n;
    let columns = Columns::of(n, state.marks)?;
    if store.len() < needed(n)
        || order.is_some_and(|o| o.len() < n)
        || lengths.iter().any(|&l| l < n)
    {
        return Err(3);
    }
    if order.is_some_and(|o| !columns.ordered_by(o)) {
        return Err(4);
    }
    if reads_held && state.held == Held::Nothing {
        return Err(5);
    }
    Ok(columns)
}

pub fn holding(state: State, held: Held) -> State {
    State { held, ..state }
}
