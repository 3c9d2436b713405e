//! Indexing, comparing, copying and printing.

use crate::storage::{RawStorage, RawStorageMut};
use crate::{Dim, Matrix, RealField, Scalar};
use approx::RelativeEq;
use core::fmt::{Debug, Formatter, Result};
use core::ops::{DivAssign, Index, IndexMut};

impl<T: Scalar, R: Dim, C: Dim, S: RawStorage<T, R, C>> Matrix<T, R, C, S> {
    /// The place of the k-th entry, counted column by column.
    #[inline]
    fn place_of(&self, k: usize) -> usize {
        if self.ncols() == 1 {
            k
        } else {
            self.place((k % self.nrows(), k / self.nrows()))
        }
    }
}

impl<T: Scalar, R: Dim, C: Dim, S: RawStorage<T, R, C>> Index<usize> for Matrix<T, R, C, S> {
    type Output = T;

    #[inline]
    fn index(&self, k: usize) -> &T {
        &self.data.cells()[self.place_of(k)]
    }
}

impl<T: Scalar, R: Dim, C: Dim, S: RawStorageMut<T, R, C>> IndexMut<usize> for Matrix<T, R, C, S> {
    #[inline]
    fn index_mut(&mut self, k: usize) -> &mut T {
        let place = self.place_of(k);
        &mut self.data.cells_mut()[place]
    }
}

impl<T: Scalar, R: Dim, C: Dim, S: RawStorage<T, R, C>> Index<(usize, usize)>
    for Matrix<T, R, C, S>
{
    type Output = T;

    #[inline]
    fn index(&self, at: (usize, usize)) -> &T {
        &self.data.cells()[self.place(at)]
    }
}

impl<T: Scalar, R: Dim, C: Dim, S: RawStorageMut<T, R, C>> IndexMut<(usize, usize)>
    for Matrix<T, R, C, S>
{
    #[inline]
    fn index_mut(&mut self, at: (usize, usize)) -> &mut T {
        let place = self.place(at);
        &mut self.data.cells_mut()[place]
    }
}

impl<T: RealField, R: Dim, C: Dim, S: RawStorageMut<T, R, C>> DivAssign<T> for Matrix<T, R, C, S> {
    fn div_assign(&mut self, by: T) {
        self.iter_mut().for_each(|entry| *entry /= by);
    }
}

impl<T, R, C, S: Clone> Clone for Matrix<T, R, C, S> {
    fn clone(&self) -> Self {
        Matrix {
            data: self.data.clone(),
            shape: self.shape,
        }
    }
}

impl<T, R, C, S: Copy> Copy for Matrix<T, R, C, S> {}

impl<T, R, C, S, R2, C2, S2> PartialEq<Matrix<T, R2, C2, S2>> for Matrix<T, R, C, S>
where
    T: Scalar,
    R: Dim,
    C: Dim,
    S: RawStorage<T, R, C>,
    R2: Dim,
    C2: Dim,
    S2: RawStorage<T, R2, C2>,
{
    fn eq(&self, other: &Matrix<T, R2, C2, S2>) -> bool {
        self.nrows() == other.nrows()
            && self.ncols() == other.ncols()
            && self.iter().eq(other.iter())
    }
}

impl<T, R, C, S, R2, C2, S2> RelativeEq<Matrix<T, R2, C2, S2>> for Matrix<T, R, C, S>
where
    T: Scalar + RelativeEq,
    R: Dim,
    C: Dim,
    S: RawStorage<T, R, C>,
    R2: Dim,
    C2: Dim,
    S2: RawStorage<T, R2, C2>,
{
    fn relative_eq(&self, other: &Matrix<T, R2, C2, S2>, epsilon: f64, max_relative: f64) -> bool {
        let same_shape = self.nrows() == other.nrows() && self.ncols() == other.ncols();
        let mut pairs = self.iter().zip(other.iter());
        same_shape && pairs.all(|(a, b)| a.relative_eq(b, epsilon, max_relative))
    }
}

impl<T: Scalar, R: Dim, C: Dim, S: RawStorage<T, R, C>> Debug for Matrix<T, R, C, S> {
    fn fmt(&self, to: &mut Formatter<'_>) -> Result {
        write!(to, "{} by {}: ", self.nrows(), self.ncols())?;
        to.debug_list().entries(self.iter()).finish()
    }
}
