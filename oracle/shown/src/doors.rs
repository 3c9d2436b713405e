//! A way into the private fields of the shown `qr.rs`: its problem from a lent store, and what the store keeps of it.

use super::{CholeskyFactor, LinearLeastSquaresDiagonalProblem, PivotedQR};
use crate::room::Room;
use nalgebra::{Dim, Dyn, OMatrix, OVector, U1};

pub type Problem = LinearLeastSquaresDiagonalProblem<f64, Dyn, Dyn>;

pub fn vector<T: nalgebra::Scalar>(entries: &[T]) -> OVector<T, Dyn> {
    let size = Dyn(entries.len());
    OVector::from_iterator_generic(size, U1::from_usize(1), entries.iter().copied())
}

/// Factors exactly `m` by `n` numbers.
pub fn factor(m: usize, n: usize, jacobian: &[f64], residuals: &[f64]) -> Problem {
    let jacobian = OMatrix::from_iterator_generic(Dyn(m), Dyn(n), jacobian.iter().copied());
    PivotedQR::new(jacobian).into_least_squares_diagonal_problem(vector(residuals))
}

impl Problem {
    /// The problem that a store holds: "the reduced problem fills the first places of each part of the store, its
    /// columns still n apart" (02, #108). The shown Rust reads no row of `upper_r` past its columns.
    pub fn open(room: &Room, store: &[f64], order: &[usize]) -> Problem {
        let (m, free) = (room.m, room.free());
        let mut upper_r = OMatrix::zeros_generic(Dyn(m.max(free)), Dyn(free));
        let square = store[room.square()].chunks(room.n);
        for (mut column, kept) in upper_r.column_iter_mut().zip(square) {
            column.rows_range_mut(..free).copy_from(&vector(&kept[..free]));
        }
        LinearLeastSquaresDiagonalProblem {
            qt_b: vector(&store[room.qt_b()][..free]),
            upper_r,
            l_diag: vector(&store[room.l_diag()][..free]),
            permutation: vector(&order[..free]),
            column_norms: vector(&store[room.norms()][..free]),
            work: OVector::zeros_generic(Dyn(free), U1::from_usize(1)),
            m: Dyn(m),
        }
    }

    /// The factor that a solve left: of L where the solve was damped, else of R.
    pub fn held(&mut self, lower: bool) -> CholeskyFactor<'_, f64, Dyn, Dyn> {
        CholeskyFactor {
            permutation: &self.permutation,
            l: &self.upper_r,
            work: &mut self.work,
            qt_b: &self.qt_b,
            lower,
            l_diag: &self.l_diag,
        }
    }

    /// The measure of the column at one place of the pivot order, worked out by the Rust: its gradient of the problem in
    /// which every other column's norm is zero, since it skips such columns. None for a NaN, as the Rust has it; zero, which
    /// is above no limit, for a column that is skipped for its own norm (02, #105).
    pub fn column_measure(&mut self, place: usize, b_norm: f64) -> Option<f64> {
        let norms = self.column_norms.clone();
        let own = self.permutation[place];
        self.column_norms.fill(0.0);
        self.column_norms[own] = norms[own];
        let measure = self.max_a_t_b_scaled(b_norm);
        self.column_norms = norms;
        measure
    }

    /// R's columns down to the diagonal, qt_b, the column norms (02, #107).
    pub fn packed(&self) -> Vec<f64> {
        let columns = 0..self.qt_b.as_slice().len();
        let triangle = columns.flat_map(|j| (0..=j).map(move |i| self.upper_r[(i, j)]));
        let vectors = self.qt_b.iter().chain(self.column_norms.iter());
        triangle.chain(vectors.copied()).collect()
    }

    /// The problem of which these numbers are `packed`: nothing below R, no L.
    pub fn unpacked(room: &Room, packed: &[f64], order: &[usize]) -> Problem {
        let (m, n) = (room.m, room.n);
        let (triangle, vectors) = packed.split_at(n * (n + 1) / 2);
        let (qt_b, norms) = vectors.split_at(n);
        let mut upper_r = OMatrix::zeros_generic(Dyn(m.max(n)), Dyn(n));
        for j in 0..n {
            for i in 0..=j {
                upper_r[(i, j)] = triangle[j * (j + 1) / 2 + i];
            }
        }
        LinearLeastSquaresDiagonalProblem {
            qt_b: vector(qt_b),
            upper_r,
            l_diag: OVector::zeros_generic(Dyn(n), U1::from_usize(1)),
            permutation: vector(order),
            column_norms: vector(norms),
            work: OVector::zeros_generic(Dyn(n), U1::from_usize(1)),
            m: Dyn(m),
        }
    }

    pub fn order(&self) -> &[usize] {
        self.permutation.as_slice()
    }

    /// Writes R with +0 below it, qt_b and the column norms; the rest of what is needed becomes +0.
    pub fn keep_factored(&self, room: &Room, store: &mut [f64]) {
        store[..room.needed()].fill(0.0);
        self.keep_square(room, store, |i, j| i <= j);
        let free = room.free();
        store[room.qt_b()][..free].copy_from_slice(self.qt_b.as_slice());
        store[room.norms()][..free].copy_from_slice(self.column_norms.as_slice());
    }

    /// Writes what a damped solve leaves: L's strict lower part and its diagonal. R is written too, as the shown Rust
    /// left it, so that a diagonal not put back would show. Past the free count there is +0 in both parts of L.
    pub fn keep_damped(&self, room: &Room, store: &mut [f64]) {
        room.clear_l(store);
        self.keep_square(room, store, |_, _| true);
        store[room.l_diag()][..room.free()].copy_from_slice(self.l_diag.as_slice());
    }

    /// Writes R alone, as the shown Rust left it.
    pub fn keep_r(&self, room: &Room, store: &mut [f64]) {
        self.keep_square(room, store, |i, j| i <= j);
    }

    fn keep_square(
        &self,
        room: &Room,
        store: &mut [f64],
        kept: impl Fn(usize, usize) -> bool,
    ) {
        let free = room.free();
        for j in 0..free {
            for i in (0..free).filter(|i| kept(*i, j)) {
                store[room.square()][j * room.n + i] = self.upper_r[(i, j)];
            }
        }
    }
}
