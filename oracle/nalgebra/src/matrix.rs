//! Matrices, their views, and what only reads them.

use crate::storage::{Cells, IsContiguous, Owned, RawStorage, ViewStorage, ViewStorageMut};
use crate::{DefaultAllocator, Dim, DimRange, Dyn, Scalar, U1, allocator::Reallocator};
use core::marker::PhantomData;
use core::ops::Range;

pub struct Matrix<T, R, C, S> {
    pub data: S,
    pub(crate) shape: PhantomData<(T, R, C)>,
}

pub type Vector<T, D, S> = Matrix<T, D, U1, S>;
pub type OMatrix<T, R, C> = Matrix<T, R, C, Owned<T, R, C>>;
pub type OVector<T, D> = OMatrix<T, D, U1>;
pub type MatrixView<'a, T, R, C> = Matrix<T, R, C, ViewStorage<'a, T, R, C>>;
pub type MatrixViewMut<'a, T, R, C> = Matrix<T, R, C, ViewStorageMut<'a, T, R, C>>;

/// The cells from entry `start` to the last entry of a part with so many rows and columns.
pub(crate) fn span(apart: usize, start: (usize, usize), rows: usize, cols: usize) -> Range<usize> {
    if rows == 0 || cols == 0 {
        return 0..0;
    }
    let first = start.1 * apart + start.0;
    first..first + (cols - 1) * apart + rows
}

impl<'a, T, R: Dim, C: Dim> MatrixView<'a, T, R, C> {
    /// The part with so many rows and columns that begins with `cells`, its columns `apart` places apart.
    #[inline]
    pub fn over(cells: &'a [T], apart: usize, rows: R, cols: C) -> Self {
        let span = span(apart, (0, 0), rows.value(), cols.value());
        let cells = &cells[span];
        Matrix::of(ViewStorage {
            cells,
            apart,
            rows,
            cols,
        })
    }
}

impl<'a, T, R: Dim, C: Dim> MatrixViewMut<'a, T, R, C> {
    /// The part with so many rows and columns that begins with `cells`, its columns `apart` places apart.
    #[inline]
    pub fn over(cells: &'a mut [T], apart: usize, rows: R, cols: C) -> Self {
        let span = span(apart, (0, 0), rows.value(), cols.value());
        let cells = &mut cells[span];
        Matrix::of(ViewStorageMut {
            cells,
            apart,
            rows,
            cols,
        })
    }
}

impl<T: Scalar, R: Dim, C: Dim> OMatrix<T, R, C> {
    /// From the entries column by column; what `entries` has beyond them is not taken.
    pub fn from_iterator_generic(rows: R, cols: C, entries: impl IntoIterator<Item = T>) -> Self {
        let wanted = rows.value() * cols.value();
        let cells = R::Cells::<T>::gather(entries.into_iter().take(wanted));
        assert_eq!(cells.as_ref().len(), wanted, "too few entries");
        Matrix::of(Owned { rows, cols, cells })
    }

    pub fn zeros_generic(rows: R, cols: C) -> Self {
        Self::from_iterator_generic(rows, cols, core::iter::repeat(T::default()))
    }
}

impl<T, R: Dim, C: Dim, S> Matrix<T, R, C, S> {
    #[inline]
    pub(crate) fn of(data: S) -> Self {
        Matrix {
            data,
            shape: PhantomData,
        }
    }
}

impl<T: Scalar, R: Dim, C: Dim, S: RawStorage<T, R, C>> Matrix<T, R, C, S> {
    #[inline]
    pub fn nrows(&self) -> usize {
        self.data.shape().0.value()
    }

    #[inline]
    pub fn ncols(&self) -> usize {
        self.data.shape().1.value()
    }

    #[inline]
    pub(crate) fn place(&self, (i, j): (usize, usize)) -> usize {
        debug_assert!(i < self.nrows() && j < self.ncols());
        j * self.data.apart() + i
    }

    /// # Safety
    /// None is needed: the place is checked.
    #[inline]
    pub unsafe fn get_unchecked(&self, at: (usize, usize)) -> &T {
        &self.data.cells()[self.place(at)]
    }

    pub fn as_slice(&self) -> &[T]
    where
        S: IsContiguous,
    {
        self.data.cells()
    }

    #[inline]
    pub fn column_iter(&self) -> impl Iterator<Item = MatrixView<'_, T, R, U1>> {
        let rows = self.data.shape().0;
        (0..self.ncols()).map(move |j| self.generic_view((0, j), (rows, U1::from_usize(1))))
    }

    pub fn iter(&self) -> impl Iterator<Item = &T> {
        let (rows, apart) = (self.nrows(), self.data.apart().max(1));
        let columns = self.data.cells().chunks(apart);
        columns.flat_map(move |column| &column[..rows])
    }

    #[inline]
    pub fn generic_view<R2: Dim, C2: Dim>(
        &self,
        start: (usize, usize),
        (rows, cols): (R2, C2),
    ) -> MatrixView<'_, T, R2, C2> {
        assert!(start.0 + rows.value() <= self.nrows() && start.1 + cols.value() <= self.ncols());
        let apart = self.data.apart();
        let span = span(apart, start, rows.value(), cols.value());
        MatrixView::over(&self.data.cells()[span], apart, rows, cols)
    }

    #[inline]
    pub fn rows_generic<R2: Dim>(&self, start: usize, rows: R2) -> MatrixView<'_, T, R2, C> {
        self.generic_view((start, 0), (rows, self.data.shape().1))
    }

    #[inline]
    pub fn rows_range<Rows: DimRange<R>>(&self, rows: Rows) -> MatrixView<'_, T, Rows::Size, C> {
        self.view_range(rows, ..)
    }

    #[inline]
    pub fn view_range<Rows: DimRange<R>, Cols: DimRange<C>>(
        &self,
        rows: Rows,
        cols: Cols,
    ) -> MatrixView<'_, T, Rows::Size, Cols::Size> {
        let (r, c) = self.data.shape();
        self.generic_view((rows.begin(), cols.begin()), (rows.size(r), cols.size(c)))
    }

    pub fn diagonal(&self) -> OVector<T, Dyn> {
        let size = self.nrows().min(self.ncols());
        let entries = (0..size).map(|i| self.data.cells()[self.place((i, i))]);
        OVector::from_iterator_generic(Dyn(size), U1::from_usize(1), entries)
    }

    pub fn remove_rows(self, first: usize, count: usize) -> OMatrix<T, Dyn, C> {
        let cols = self.data.shape().1;
        let kept = self.nrows() - count;
        let place = |k: usize| (k % kept, k / kept);
        let entries = (0..kept * cols.value()).map(place).map(|(i, j)| {
            let i = if i < first { i } else { i + count };
            self.data.cells()[self.place((i, j))]
        });
        OMatrix::from_iterator_generic(Dyn(kept), cols, entries)
    }

    /// Entries beyond the old shape are `value`.
    pub fn resize_generic<R2: Dim, C2: Dim>(
        self,
        rows: R2,
        cols: C2,
        value: T,
    ) -> OMatrix<T, R2, C2>
    where
        DefaultAllocator: Reallocator<T, R, C, R2, C2>,
    {
        let (old_rows, old_cols) = (self.nrows(), self.ncols());
        let places = (0..cols.value()).flat_map(|j| (0..rows.value()).map(move |i| (i, j)));
        let entries = places.map(|(i, j)| {
            if i < old_rows && j < old_cols {
                self.data.cells()[self.place((i, j))]
            } else {
                value
            }
        });
        OMatrix::from_iterator_generic(rows, cols, entries)
    }
}
