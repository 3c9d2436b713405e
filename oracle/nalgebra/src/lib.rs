//! The part of nalgebra that the shown Rust names, as document 01's leaf rules say it.
//!
//! All storage is column by column. The bounds that nalgebra needs to pick a buffer hold here for every dimension, so
//! that the shown Rust compiles unchanged.

mod dims;
mod fixed;
mod matrix;
mod matrix_mut;
mod operators;
mod ranges;
mod scalar;
pub mod storage;
mod vector;

pub use dims::{Const, Dim, DimMax, DimMaximum, DimMin, Dyn, U1, U2, U3, U4, U5, U10};
pub use fixed::{Matrix2x4, Matrix3, Matrix4, Matrix4x3, Vector2, Vector3, Vector4, Vector5};
pub use matrix::{Matrix, MatrixView, MatrixViewMut, OMatrix, OVector, Vector};
pub use ranges::DimRange;
pub use scalar::{RealField, Scalar, SupersetOf, convert};

pub struct DefaultAllocator;

pub mod allocator {
    use crate::{DefaultAllocator, Dim, U1};

    pub trait Allocator<R: Dim, C: Dim = U1> {}

    impl<R: Dim, C: Dim> Allocator<R, C> for DefaultAllocator {}

    pub trait Reallocator<T, RFrom: Dim, CFrom: Dim, RTo: Dim, CTo: Dim>:
        Allocator<RFrom, CFrom> + Allocator<RTo, CTo>
    {
    }

    impl<T, RFrom: Dim, CFrom: Dim, RTo: Dim, CTo: Dim> Reallocator<T, RFrom, CFrom, RTo, CTo>
        for DefaultAllocator
    {
    }
}

#[cfg(test)]
mod tests;
