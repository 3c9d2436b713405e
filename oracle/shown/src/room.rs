//! Document 01's lent store: the square column by column, then qt_b, column norms, l_diag and work.

use api::{Held, State};
use core::ops::Range;

pub const ROWS: usize = 128;
pub const COLUMNS: usize = 16;

/// Sizes that are in range, and where a store of these sizes has its parts.
#[derive(Clone, Copy)]
pub struct Room {
    pub m: usize,
    pub n: usize,
    pub marks: u16,
}

impl Room {
    /// Test 2, "also for a mark past n" (02, #108).
    pub fn of_sizes(m: usize, n: usize, marks: u16) -> Result<Room, u8> {
        let in_range = (1..=ROWS).contains(&m) && (1..=COLUMNS).contains(&n);
        if !in_range || api::mark_past(marks, n) {
            return Err(2);
        }
        Ok(Room { m, n, marks })
    }

    /// Test 5 for the empty state, whose sizes and marks are not read, then test 2.
    pub fn of_state(state: State) -> Result<Room, u8> {
        if state.held == Held::Empty {
            return Err(5);
        }
        Room::of_sizes(state.m, state.n, state.marks)
    }

    pub fn square(&self) -> Range<usize> {
        0..self.n * self.n
    }

    fn part(&self, which: usize) -> Range<usize> {
        let start = self.n * (self.n + which);
        start..start + self.n
    }

    pub fn qt_b(&self) -> Range<usize> {
        self.part(0)
    }

    pub fn norms(&self) -> Range<usize> {
        self.part(1)
    }

    pub fn l_diag(&self) -> Range<usize> {
        self.part(2)
    }

    pub fn work(&self) -> Range<usize> {
        self.part(3)
    }

    pub fn needed(&self) -> usize {
        self.work().end
    }

    /// "n(n+1)/2 + 2n doubles" (02, #107).
    pub fn packed(&self) -> usize {
        self.n * (self.n + 1) / 2 + 2 * self.n
    }

    pub fn bench(&self) -> usize {
        self.m * self.n + self.m
    }

    /// "Work ... all +0 after every call that passes all checks before 8."
    pub fn clear_work(&self, store: &mut [f64]) {
        store[self.work()].fill(0.0);
    }

    /// What a zero solve, a search and a refused solve leave: +0 below the diagonal and in l_diag.
    pub fn clear_l(&self, store: &mut [f64]) {
        for j in 0..self.n {
            store[j * self.n + j + 1..(j + 1) * self.n].fill(0.0);
        }
        store[self.l_diag()].fill(0.0);
    }

    /// Test 3 of a store and of the other slices, each with its length and what it needs.
    pub fn lengths(&self, store: &[f64], others: &[(usize, usize)]) -> Result<(), u8> {
        let fits = store.len() >= self.needed() && others.iter().all(|(has, needs)| has >= needs);
        if fits { Ok(()) } else { Err(3) }
    }

    /// Test 4: the free columns' numbers, counted among themselves, in any order; then the count goes on (02, #108).
    pub fn order(&self, order: &[usize]) -> Result<(), u8> {
        let free = self.free();
        let mut seen = [false; COLUMNS];
        for &place in &order[..free] {
            if place >= free || seen[place] {
                return Err(4);
            }
            seen[place] = true;
        }
        let goes_on = order[free..self.n].iter().copied().eq(free..self.n);
        if goes_on { Ok(()) } else { Err(4) }
    }
}

/// Test 6 of the numbers read.
pub fn finite(numbers: &[f64]) -> Result<(), u8> {
    if all_finite(numbers) { Ok(()) } else { Err(6) }
}

pub fn all_finite(numbers: &[f64]) -> bool {
    numbers.iter().all(|number| number.is_finite())
}

/// Test 7.
pub fn unless(refused: bool) -> Result<(), u8> {
    if refused { Err(7) } else { Ok(()) }
}
