//! Entries, and the field that the shown Rust is generic over.

use core::fmt::Debug;
use core::ops::{AddAssign, DivAssign, MulAssign, SubAssign};
use num_traits::Signed;

pub trait Scalar: Copy + PartialEq + Debug + Default + 'static {}

impl<T: Copy + PartialEq + Debug + Default + 'static> Scalar for T {}

pub trait SupersetOf<From> {
    fn from_subset(value: From) -> Self;
}

impl SupersetOf<f64> for f64 {
    fn from_subset(value: f64) -> f64 {
        value
    }
}

pub fn convert<From, To: SupersetOf<From>>(value: From) -> To {
    To::from_subset(value)
}

pub trait RealField:
    Signed + Scalar + AddAssign + SubAssign + MulAssign + DivAssign + SupersetOf<f64>
{
    fn default_epsilon() -> Self;
}

impl RealField for f64 {
    fn default_epsilon() -> f64 {
        f64::EPSILON
    }
}
