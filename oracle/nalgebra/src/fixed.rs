//! The matrices of fixed size that the tests of the shown Rust are written with.

use crate::{Const, Dim, OMatrix, OVector, Scalar, U2, U3, U4, U5};

pub type Matrix3<T> = OMatrix<T, U3, U3>;
pub type Matrix4<T> = OMatrix<T, U4, U4>;
pub type Matrix2x4<T> = OMatrix<T, U2, U4>;
pub type Matrix4x3<T> = OMatrix<T, U4, U3>;
pub type Vector2<T> = OVector<T, U2>;
pub type Vector3<T> = OVector<T, U3>;
pub type Vector4<T> = OVector<T, U4>;
pub type Vector5<T> = OVector<T, U5>;

impl<T: Scalar, const R: usize, const C: usize> OMatrix<T, Const<R>, Const<C>> {
    pub fn from_iterator(entries: impl IntoIterator<Item = T>) -> Self {
        Self::from_iterator_generic(Dim::from_usize(R), Dim::from_usize(C), entries)
    }

    pub fn from_column_slice(entries: &[T]) -> Self {
        Self::from_iterator(entries.iter().copied())
    }

    pub fn from_fn(entry: impl Fn(usize, usize) -> T) -> Self {
        let entry = &entry;
        Self::from_iterator((0..C).flat_map(|j| (0..R).map(move |i| entry(i, j))))
    }

    pub fn zeros() -> Self {
        Self::from_iterator(core::iter::repeat(T::default()))
    }
}

/// `new` takes the entries row by row.
macro_rules! new {
    ($($name:ident($($entry:ident)*);)*) => {$(
        impl<T: Scalar> $name<T> {
            #[allow(clippy::too_many_arguments)]
            pub fn new($($entry: T),*) -> Self {
                let by_rows = [$($entry),*];
                Self::from_fn(|i, j| by_rows[i * by_rows.len() / Self::ROWS + j])
            }
        }
    )*};
}

impl<T: Scalar, const R: usize, const C: usize> OMatrix<T, Const<R>, Const<C>> {
    const ROWS: usize = R;
}

new! {
    Vector2(a b);
    Vector3(a b c);
    Vector4(a b c d);
    Vector5(a b c d e);
    Matrix3(a b c d e f g h i);
    Matrix2x4(a b c d e f g h);
    Matrix4x3(a b c d e f g h i j k l);
    Matrix4(a b c d e f g h i j k l m n o p);
}
