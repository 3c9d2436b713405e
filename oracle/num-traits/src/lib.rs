//! The part of num-traits that the shown Rust names, for f64, as document 01's leaf rules say it.
//!
//! Every operation is the machine's, rounded once; nothing here is fused.

use core::ops::{Add, Div, Mul, Neg, Sub};

pub mod float {
    pub use crate::Float;
}

pub trait Zero: Sized {
    fn zero() -> Self;
    fn is_zero(&self) -> bool;
}

pub trait One: Sized {
    fn one() -> Self;
}

/// Arithmetic with an operand of the same type, and the comparisons.
pub trait Num:
    Zero
    + One
    + PartialOrd
    + Add<Output = Self>
    + Sub<Output = Self>
    + Mul<Output = Self>
    + Div<Output = Self>
{
}

/// `is_negative` and `is_positive` read the sign bit, so that +0 counts as positive.
pub trait Signed: Num + Neg<Output = Self> {
    fn abs(&self) -> Self;
    fn is_positive(&self) -> bool;
    fn is_negative(&self) -> bool;
}

pub trait Float: Num + Copy + Neg<Output = Self> {
    fn max_value() -> Self;
    fn min_positive_value() -> Self;
    fn nan() -> Self;
    fn is_nan(self) -> bool;
    fn is_finite(self) -> bool;
    fn abs(self) -> Self;
    fn sqrt(self) -> Self;
    fn powi(self, power: i32) -> Self;
    fn max(self, other: Self) -> Self;
    fn min(self, other: Self) -> Self;
    /// For the trace alone; the shown Rust does not name it.
    fn to_f64(self) -> f64;
}

impl Zero for f64 {
    fn zero() -> f64 {
        0.0
    }

    /// A comparison with zero ignores its sign.
    #[inline]
    fn is_zero(&self) -> bool {
        *self == 0.0
    }
}

impl Zero for usize {
    fn zero() -> usize {
        0
    }

    fn is_zero(&self) -> bool {
        *self == 0
    }
}

impl One for f64 {
    fn one() -> f64 {
        1.0
    }
}

impl Num for f64 {}

impl Signed for f64 {
    #[inline]
    fn abs(&self) -> f64 {
        f64::abs(*self)
    }

    fn is_positive(&self) -> bool {
        self.is_sign_positive()
    }

    #[inline]
    fn is_negative(&self) -> bool {
        self.is_sign_negative()
    }
}

impl Float for f64 {
    fn max_value() -> f64 {
        f64::MAX
    }

    fn min_positive_value() -> f64 {
        f64::MIN_POSITIVE
    }

    fn nan() -> f64 {
        f64::NAN
    }

    fn is_nan(self) -> bool {
        f64::is_nan(self)
    }

    fn is_finite(self) -> bool {
        f64::is_finite(self)
    }

    #[inline]
    fn abs(self) -> f64 {
        f64::abs(self)
    }

    /// The correctly rounded root of IEEE 754.
    #[inline]
    fn sqrt(self) -> f64 {
        f64::sqrt(self)
    }

    /// "A square is x·x": no other power occurs in the shown Rust.
    #[inline]
    fn powi(self, power: i32) -> f64 {
        assert_eq!(power, 2, "only squares have a rule");
        self * self
    }

    /// The other operand if one is NaN, the first if equal; f64's own leaves the sign of a zero open.
    #[inline]
    fn max(self, other: f64) -> f64 {
        if self.is_nan() || other > self {
            other
        } else {
            self
        }
    }

    /// The other operand if one is NaN, the first if equal.
    #[inline]
    fn min(self, other: f64) -> f64 {
        if self.is_nan() || other < self {
            other
        } else {
            self
        }
    }

    fn to_f64(self) -> f64 {
        self
    }
}

#[cfg(test)]
mod tests {
    use super::*;

    #[test]
    fn max_and_min_take_the_first_of_equals_and_the_other_of_nan() {
        assert!(Float::max(-0.0, 0.0).is_sign_negative());
        assert!(Float::max(0.0, -0.0).is_sign_positive());
        assert!(Float::min(0.0, -0.0).is_sign_positive());
        assert_eq!(Float::max(f64::NAN, 1.0), 1.0);
        assert_eq!(Float::max(1.0, f64::NAN), 1.0);
        assert_eq!(Float::min(f64::NAN, 1.0), 1.0);
        assert_eq!(Float::min(1.0, f64::NAN), 1.0);
        assert!(Float::max(f64::NAN, f64::NAN).is_nan());
    }

    /// Why a release build, and even a debug build, lets a radius of +0 through.
    #[test]
    fn positive_zero_counts_as_positive() {
        assert!(Signed::is_positive(&0.0));
        assert!(!Signed::is_positive(&-0.0));
        assert!(Signed::is_negative(&-0.0));
    }
}
