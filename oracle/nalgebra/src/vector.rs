//! The arithmetic of nalgebra that has a leaf rule in document 01.

use crate::storage::{RawStorage, RawStorageMut};
use crate::{Dim, DimRange, Matrix, OMatrix, RealField, Scalar, U1, Vector};
use core::ops::RangeTo;

impl<T: Scalar, D: Dim, S: RawStorage<T, D>> Vector<T, D, S> {
    /// A single column has no gaps, whatever it is a view of.
    #[inline]
    pub fn entries(&self) -> &[T] {
        self.data.cells()
    }

    /// # Safety
    /// None is needed: the place is checked.
    #[inline]
    pub unsafe fn vget_unchecked(&self, i: usize) -> &T {
        &self.data.cells()[i]
    }

    /// Starts at place 0 and moves only to a later entry that compares greater, which is never true with NaN.
    pub fn imax(&self) -> usize
    where
        T: PartialOrd,
    {
        let entries = self.entries();
        let mut at = 0;
        for i in 1..entries.len() {
            if entries[i] > entries[at] {
                at = i;
            }
        }
        at
    }
}

impl<T: Scalar, D: Dim, S: RawStorageMut<T, D>> Vector<T, D, S> {
    /// # Safety
    /// None is needed: the place is checked.
    #[inline]
    pub unsafe fn vget_unchecked_mut(&mut self, i: usize) -> &mut T {
        &mut self.data.cells_mut()[i]
    }
}

impl<T: RealField, D: Dim, S: RawStorageMut<T, D>> Vector<T, D, S> {
    /// a·x + b·y, where b is one; a·x where b is zero, y unread.
    #[inline]
    pub fn axpy<D2: Dim, S2: RawStorage<T, D2>>(&mut self, a: T, x: &Vector<T, D2, S2>, b: T) {
        assert_eq!(self.nrows(), x.nrows());
        let unread = b.is_zero();
        assert!(unread || b == T::one(), "only zero and one have a rule");
        for (y, x) in self.data.cells_mut().iter_mut().zip(x.entries()) {
            *y = if unread { a * *x } else { a * *x + *y };
        }
    }

    /// The products of two vectors' entries: `one` and `zero` are the only factors with a rule.
    pub fn cmpy<D2: Dim, D3: Dim, S2: RawStorage<T, D2>, S3: RawStorage<T, D3>>(
        &mut self,
        one: T,
        a: &Vector<T, D2, S2>,
        b: &Vector<T, D3, S3>,
        zero: T,
    ) {
        assert!(self.nrows() == a.nrows() && self.nrows() == b.nrows());
        assert!(
            one == T::one() && zero.is_zero(),
            "only one and zero have a rule"
        );
        let products = a.entries().iter().zip(b.entries());
        for (y, (a, b)) in self.data.cells_mut().iter_mut().zip(products) {
            *y = *a * *b;
        }
    }
}

impl<T: RealField, R: Dim, C: Dim, S: RawStorage<T, R, C>> Matrix<T, R, C, S> {
    pub fn component_mul<R2: Dim, C2: Dim, S2: RawStorage<T, R2, C2>>(
        &self,
        other: &Matrix<T, R2, C2, S2>,
    ) -> OMatrix<T, R, C> {
        assert!(self.nrows() == other.nrows() && self.ncols() == other.ncols());
        let (rows, cols) = self.data.shape();
        let products = self.iter().zip(other.iter()).map(|(a, b)| *a * *b);
        OMatrix::from_iterator_generic(rows, cols, products)
    }

    /// From the last place down: divide by the diagonal, then axpy the negated result times the column above.
    pub fn solve_upper_triangular_mut<D2: Dim, S2: RawStorageMut<T, D2>>(
        &self,
        x: &mut Vector<T, D2, S2>,
    ) where
        RangeTo<usize>: DimRange<R> + DimRange<D2>,
        usize: DimRange<C, Size = U1>,
    {
        assert!(self.nrows() == self.ncols() && x.nrows() == self.nrows());
        for i in (0..self.nrows()).rev() {
            x[i] /= self[(i, i)];
            let negated = -x[i];
            let mut above = x.rows_range_mut(..i);
            above.axpy(negated, &self.view_range(..i, i), T::one());
        }
    }
}
