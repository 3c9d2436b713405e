//! Dimensions: fixed ones for the tests of the shown Rust, `Dyn` for everything that is run.

use crate::Scalar;
use crate::storage::{Cells, Inline};
use core::fmt::Debug;

pub trait Dim: Copy + PartialEq + Debug + 'static {
    /// What an owned matrix with so many rows keeps its entries in.
    type Cells<T: Scalar>: Cells<T>;

    fn from_usize(dim: usize) -> Self;
    fn value(&self) -> usize;
}

#[derive(Clone, Copy, PartialEq, Eq, Debug)]
pub struct Const<const N: usize>;

#[derive(Clone, Copy, PartialEq, Eq, Debug)]
pub struct Dyn(pub usize);

pub type U1 = Const<1>;
pub type U2 = Const<2>;
pub type U3 = Const<3>;
pub type U4 = Const<4>;
pub type U5 = Const<5>;
pub type U10 = Const<10>;

/// The tests of the shown Rust use matrices of fixed size after they were passed on, so these are copied.
impl<const N: usize> Dim for Const<N> {
    type Cells<T: Scalar> = Inline<T>;

    fn from_usize(dim: usize) -> Self {
        assert_eq!(dim, N);
        Const
    }

    #[inline]
    fn value(&self) -> usize {
        N
    }
}

impl Dim for Dyn {
    type Cells<T: Scalar> = Vec<T>;

    fn from_usize(dim: usize) -> Self {
        Dyn(dim)
    }

    #[inline]
    fn value(&self) -> usize {
        self.0
    }
}

pub trait DimMax<D: Dim>: Dim {
    type Output: Dim;

    fn max(self, other: D) -> Self::Output;
}

pub trait DimMin<D: Dim>: Dim {
    type Output: Dim;

    fn min(self, other: D) -> Self::Output;
}

pub type DimMaximum<A, B> = <A as DimMax<B>>::Output;

impl DimMax<Dyn> for Dyn {
    type Output = Dyn;

    fn max(self, other: Dyn) -> Dyn {
        Dyn(self.0.max(other.0))
    }
}

impl DimMin<Dyn> for Dyn {
    type Output = Dyn;

    fn min(self, other: Dyn) -> Dyn {
        Dyn(self.0.min(other.0))
    }
}

/// Rows, columns, the larger and the smaller, for the shapes that the tests of the shown Rust have.
macro_rules! shapes {
    ($($rows:ident $cols:ident $larger:ident $smaller:ident;)*) => {$(
        impl DimMax<$cols> for $rows {
            type Output = $larger;

            fn max(self, _: $cols) -> $larger {
                Const
            }
        }

        impl DimMin<$cols> for $rows {
            type Output = $smaller;

            fn min(self, _: $cols) -> $smaller {
                Const
            }
        }
    )*};
}

shapes! {
    U2 U4 U4 U2;
    U3 U3 U3 U3;
    U4 U3 U4 U3;
    U4 U4 U4 U4;
    U10 U5 U10 U5;
}
