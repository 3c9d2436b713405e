//! The part of approx that the tests of the shown Rust name: relative closeness, with approx's own defaults.

/// Close if equal, if apart by at most `epsilon`, or by at most `max_relative` of the larger one.
pub trait RelativeEq<Rhs: ?Sized = Self> {
    fn relative_eq(&self, other: &Rhs, epsilon: f64, max_relative: f64) -> bool;
}

impl RelativeEq for f64 {
    fn relative_eq(&self, other: &f64, epsilon: f64, max_relative: f64) -> bool {
        if self == other {
            return true;
        }
        if self.is_infinite() || other.is_infinite() {
            return false;
        }
        let apart = (self - other).abs();
        apart <= epsilon || apart <= self.abs().max(other.abs()) * max_relative
    }
}

impl<T: RelativeEq> RelativeEq for [T] {
    fn relative_eq(&self, other: &[T], epsilon: f64, max_relative: f64) -> bool {
        self.len() == other.len()
            && self
                .iter()
                .zip(other)
                .all(|(a, b)| a.relative_eq(b, epsilon, max_relative))
    }
}

impl<T: RelativeEq<U> + ?Sized, U: ?Sized> RelativeEq<&U> for &T {
    fn relative_eq(&self, other: &&U, epsilon: f64, max_relative: f64) -> bool {
        (**self).relative_eq(*other, epsilon, max_relative)
    }
}

#[macro_export]
macro_rules! assert_relative_eq {
    ($left:expr, $right:expr $(,)?) => {
        $crate::assert_relative_eq!($left, $right, epsilon = f64::EPSILON)
    };
    ($left:expr, $right:expr, epsilon = $epsilon:expr) => {{
        let (left, right) = (&$left, &$right);
        assert!(
            $crate::RelativeEq::relative_eq(left, right, $epsilon, f64::EPSILON),
            "not close:\n left: {left:?}\nright: {right:?}"
        );
    }};
}

#[cfg(test)]
mod tests {
    #[test]
    fn close_and_not_close() {
        assert_relative_eq!(1.0, 1.0 + f64::EPSILON);
        assert_relative_eq!(1e-3, 2e-3, epsilon = 1e-2);
        assert!(!crate::RelativeEq::relative_eq(&1.0, &1.1, 1e-9, 1e-9));
        assert!(!crate::RelativeEq::relative_eq(
            &f64::NAN,
            &f64::NAN,
            1e-9,
            1e-9
        ));
    }
}
