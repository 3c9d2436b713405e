//! What writes into a matrix.

use crate::matrix::span;
use crate::storage::{RawStorage, RawStorageMut};
use crate::{Dim, DimRange, Matrix, MatrixViewMut, Scalar, U1, Vector};

type Pair<'a, T, R, A, B> = (MatrixViewMut<'a, T, R, A>, MatrixViewMut<'a, T, R, B>);

impl<T: Scalar, R: Dim, C: Dim, S: RawStorageMut<T, R, C>> Matrix<T, R, C, S> {
    /// # Safety
    /// None is needed: the place is checked.
    #[inline]
    pub unsafe fn get_unchecked_mut(&mut self, at: (usize, usize)) -> &mut T {
        let place = self.place(at);
        &mut self.data.cells_mut()[place]
    }

    pub fn iter_mut(&mut self) -> impl Iterator<Item = &mut T> {
        let (rows, apart) = (self.nrows(), self.data.apart().max(1));
        let columns = self.data.cells_mut().chunks_mut(apart);
        columns.flat_map(move |column| &mut column[..rows])
    }

    /// Columns without rows are not visited.
    pub fn column_iter_mut(&mut self) -> impl Iterator<Item = MatrixViewMut<'_, T, R, U1>> {
        let (rows, apart) = (self.data.shape().0, self.data.apart());
        let columns = self.data.cells_mut().chunks_mut(apart.max(1));
        columns.map(move |column| MatrixViewMut::over(column, apart, rows, U1::from_usize(1)))
    }

    #[inline]
    pub fn generic_view_mut<R2: Dim, C2: Dim>(
        &mut self,
        start: (usize, usize),
        (rows, cols): (R2, C2),
    ) -> MatrixViewMut<'_, T, R2, C2> {
        assert!(start.0 + rows.value() <= self.nrows() && start.1 + cols.value() <= self.ncols());
        let apart = self.data.apart();
        let span = span(apart, start, rows.value(), cols.value());
        MatrixViewMut::over(&mut self.data.cells_mut()[span], apart, rows, cols)
    }

    #[inline]
    pub fn rows_generic_mut<R2: Dim>(
        &mut self,
        start: usize,
        rows: R2,
    ) -> MatrixViewMut<'_, T, R2, C> {
        let cols = self.data.shape().1;
        self.generic_view_mut((start, 0), (rows, cols))
    }

    #[inline]
    pub fn rows_range_mut<Rows: DimRange<R>>(
        &mut self,
        rows: Rows,
    ) -> MatrixViewMut<'_, T, Rows::Size, C> {
        self.view_range_mut(rows, ..)
    }

    #[inline]
    pub fn view_range_mut<Rows: DimRange<R>, Cols: DimRange<C>>(
        &mut self,
        rows: Rows,
        cols: Cols,
    ) -> MatrixViewMut<'_, T, Rows::Size, Cols::Size> {
        let (r, c) = self.data.shape();
        self.generic_view_mut((rows.begin(), cols.begin()), (rows.size(r), cols.size(c)))
    }

    /// Two ranges of columns at once, the second behind the first.
    pub fn columns_range_pair_mut<A: DimRange<C>, B: DimRange<C>>(
        &mut self,
        a: A,
        b: B,
    ) -> Pair<'_, T, R, A::Size, B::Size> {
        let ((rows, cols), apart) = (self.data.shape(), self.data.apart());
        let (a_size, b_size) = (a.size(cols), b.size(cols));
        assert!(a.begin() + a_size.value() <= b.begin());
        let cells = self.data.cells_mut();
        let (front, back) = cells.split_at_mut((b.begin() * apart).min(cells.len()));
        let span = span(apart, (0, a.begin()), rows.value(), a_size.value());
        (
            MatrixViewMut::over(&mut front[span], apart, rows, a_size),
            MatrixViewMut::over(back, apart, rows, b_size),
        )
    }

    pub fn fill(&mut self, value: T) {
        self.iter_mut().for_each(|entry| *entry = value);
    }

    pub fn copy_from<R2: Dim, C2: Dim, S2: RawStorage<T, R2, C2>>(
        &mut self,
        other: &Matrix<T, R2, C2, S2>,
    ) {
        assert!(self.nrows() == other.nrows() && self.ncols() == other.ncols());
        for (to, from) in self.iter_mut().zip(other.iter()) {
            *to = *from;
        }
    }

    pub fn swap_columns(&mut self, a: usize, b: usize) {
        for i in 0..self.nrows() {
            let (a, b) = (self.place((i, a)), self.place((i, b)));
            self.data.cells_mut().swap(a, b);
        }
    }

    pub fn swap_rows(&mut self, a: usize, b: usize) {
        for j in 0..self.ncols() {
            let (a, b) = (self.place((a, j)), self.place((b, j)));
            self.data.cells_mut().swap(a, b);
        }
    }

    pub fn set_diagonal<R2: Dim, S2: RawStorage<T, R2>>(&mut self, diagonal: &Vector<T, R2, S2>) {
        for (i, entry) in diagonal.iter().enumerate() {
            let place = self.place((i, i));
            self.data.cells_mut()[place] = *entry;
        }
    }

    /// The entries below the diagonal become those above it, mirrored.
    pub fn fill_lower_triangle_with_upper_triangle(&mut self) {
        for j in 0..self.ncols() {
            for i in j + 1..self.nrows() {
                let (below, above) = (self.place((i, j)), self.place((j, i)));
                let cells = self.data.cells_mut();
                cells[below] = cells[above];
            }
        }
    }
}
