//! Document 01 written out a second time, straight on slices, one file per module of it. It shares no code with the
//! shims under the shown Rust: where both agree, a slip in one of them has shown itself.
// Document 01 speaks of places, and so do the loops.
#![allow(clippy::needless_range_loop)]

mod elimination;
mod factoring;
mod frozen;
mod gradient;
mod leaves;
mod measures;
mod packing;
mod residuals;
mod room;
mod root;
mod search;
mod sheet;
mod solves;
mod trials;

use api::{Engine, Found, Leaves, Measured, Mode, Ranges, Run, Start, State, Traced};

pub struct Plain;

fn same_length(a: &[f64], b: &[f64]) -> Result<(), u8> {
    if a.len() == b.len() { Ok(()) } else { Err(3) }
}

impl Leaves for Plain {
    fn abs(&self, x: f64) -> f64 {
        leaves::abs(x)
    }
    fn is_negative(&self, x: f64) -> bool {
        leaves::is_negative(x)
    }
    fn is_finite(&self, x: f64) -> bool {
        leaves::is_finite(x)
    }
    fn max(&self, a: f64, b: f64) -> f64 {
        leaves::max(a, b)
    }
    fn min(&self, a: f64, b: f64) -> f64 {
        leaves::min(a, b)
    }
    fn square(&self, x: f64) -> f64 {
        leaves::square(x)
    }
    fn sqrt(&self, x: f64) -> f64 {
        root::sqrt(x)
    }
    fn dot(&self, a: &[f64], b: &[f64]) -> Result<f64, u8> {
        same_length(a, b)?;
        Ok(leaves::dot(a, b))
    }
    fn axpy(&self, a: f64, x: &[f64], y: &mut [f64]) -> Result<(), u8> {
        same_length(x, y)?;
        leaves::axpy(a, x, y);
        Ok(())
    }
    fn axpy_zero(&self, a: f64, x: &[f64], y: &mut [f64]) -> Result<(), u8> {
        same_length(x, y)?;
        leaves::axpy_zero(a, x, y);
        Ok(())
    }
    fn imax(&self, v: &[f64]) -> Result<usize, u8> {
        if v.is_empty() {
            Err(3)
        } else {
            Ok(leaves::imax(v))
        }
    }
    fn enorm(&self, v: &[f64]) -> Result<(f64, Ranges), u8> {
        if v.len() > room::MOST_ROWS {
            Err(2)
        } else {
            Ok(leaves::enorm(v))
        }
    }
    fn solve_upper(&self, r: &[f64], apart: usize, n: usize, x: &mut [f64]) -> Result<(), u8> {
        let fits = apart.checked_mul(n).is_some_and(|needed| r.len() >= needed);
        if n > apart || x.len() < n || !fits {
            return Err(3);
        }
        leaves::solve_upper(r, apart, n, x);
        Ok(())
    }
}

impl Engine for Plain {
    fn factor(
        &self,
        m: usize,
        n: usize,
        marks: u16,
        jacobian: &[f64],
        residuals: &[f64],
        store: &mut [f64],
        order: &mut [usize],
        bench: &mut [f64],
    ) -> (Result<Ranges, u8>, State) {
        factoring::factor(m, n, marks, jacobian, residuals, store, order, bench)
    }
    fn solve_with_zero_diagonal(
        &self,
        state: State,
        store: &mut [f64],
        order: &[usize],
        out: &mut [f64],
    ) -> (Result<(), u8>, State) {
        solves::solve_with_zero_diagonal(state, store, order, out)
    }
    fn solve_with_diagonal(
        &self,
        state: State,
        store: &mut [f64],
        order: &[usize],
        diag: &[f64],
        out: &mut [f64],
    ) -> (Result<(), u8>, State) {
        solves::solve_with_diagonal(state, store, order, diag, out)
    }
    fn solve(
        &self,
        state: State,
        store: &mut [f64],
        order: &[usize],
        rhs: &[f64],
        out: &mut [f64],
    ) -> (Result<(), u8>, State) {
        solves::solve(state, store, order, rhs, out)
    }
    fn mul_qt_b(
        &self,
        state: State,
        store: &mut [f64],
        out: &mut [f64],
    ) -> (Result<(), u8>, State) {
        solves::mul_qt_b(state, store, out)
    }
    fn max_a_t_b_scaled(
        &self,
        state: State,
        store: &mut [f64],
        order: &[usize],
        b_norm: f64,
    ) -> (Result<f64, u8>, State) {
        gradient::max_a_t_b_scaled(state, store, order, b_norm)
    }
    fn above_limit(
        &self,
        state: State,
        store: &mut [f64],
        order: &[usize],
        b_norm: f64,
        limit: f64,
    ) -> (Result<bool, u8>, State) {
        gradient::above_limit(state, store, order, b_norm, limit)
    }
    fn a_x_norm(
        &self,
        state: State,
        store: &mut [f64],
        order: &[usize],
        x: &[f64],
    ) -> (Result<(f64, Ranges), u8>, State) {
        measures::a_x_norm(state, store, order, x)
    }
    fn update_diag(
        &self,
        state: State,
        store: &mut [f64],
        mode: Mode,
        diag: &mut [f64],
        x: &[f64],
        step_bound: f64,
    ) -> (Result<(Option<Start>, Ranges), u8>, State) {
        measures::update_diag(state, store, mode, diag, x, step_bound)
    }
    fn search(
        &self,
        state: State,
        store: &mut [f64],
        order: &[usize],
        diag: &[f64],
        radius: f64,
        lambda: f64,
        out: &mut [f64],
    ) -> (Result<(Found, Ranges), u8>, State) {
        search::search(state, store, order, diag, radius, lambda, out)
    }
    fn determined(&self, state: State, store: &mut [f64]) -> (Result<usize, u8>, State) {
        measures::determined(state, store)
    }
    fn is_non_singular(&self, state: State, store: &mut [f64]) -> (Result<bool, u8>, State) {
        measures::is_non_singular(state, store)
    }
    fn pack(
        &self,
        state: State,
        store: &[f64],
        order: &[usize],
        room: &mut [f64],
        places: &mut [usize],
    ) -> (Result<(), u8>, State) {
        packing::pack(state, store, order, room, places)
    }
    fn unpack(
        &self,
        state: State,
        room: &[f64],
        places: &[usize],
        store: &mut [f64],
        order: &mut [usize],
    ) -> (Result<(), u8>, State) {
        packing::unpack(state, room, places, store, order)
    }
    fn sheet(&self, bytes: &[u8]) -> String {
        sheet::sheet(bytes)
    }
}

impl Traced for Plain {
    fn run(
        &self,
        state: State,
        store: &[f64],
        order: &[usize],
        diag: &[f64],
        radius: f64,
        lambda: f64,
    ) -> Option<Run> {
        search::run(state, store, order, diag, radius, lambda)
    }
    fn norms(&self, m: usize, n: usize, marks: u16, jacobian: &[f64]) -> Option<Vec<Measured>> {
        factoring::norms(m, n, marks, jacobian)
    }
}
