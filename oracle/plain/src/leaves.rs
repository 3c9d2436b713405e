//! Module 1 of document 01: the leaves, each operation rounded once.

use crate::root::sqrt;
use api::Ranges;

pub const EPSMCH: f64 = f64::from_bits((1023 - 52) << 52);
pub const DWARF: f64 = f64::from_bits(1 << 52);
const RDWARF: f64 = 3.834e-20;
const RGIANT: f64 = 1.304e19;

const SIGN: u64 = 1 << 63;

pub fn abs(x: f64) -> f64 {
    f64::from_bits(x.to_bits() & !SIGN)
}

/// Reads the sign bit.
pub fn is_negative(x: f64) -> bool {
    x.to_bits() & SIGN != 0
}

pub fn is_finite(x: f64) -> bool {
    abs(x) < f64::INFINITY
}

pub fn all_finite(v: &[f64]) -> bool {
    for &x in v {
        if !is_finite(x) {
            return false;
        }
    }
    true
}

/// The other operand if one is NaN, the first if equal.
pub fn max(a: f64, b: f64) -> f64 {
    if a.is_nan() || b > a { b } else { a }
}

/// The other operand if one is NaN, the first if equal.
pub fn min(a: f64, b: f64) -> f64 {
    if a.is_nan() || b < a { b } else { a }
}

pub fn square(x: f64) -> f64 {
    x * x
}

pub fn dot(a: &[f64], b: &[f64]) -> f64 {
    let mut sum = 0.0;
    for i in 0..a.len() {
        sum += a[i] * b[i];
    }
    sum
}

/// axpy(a, x, 1).
pub fn axpy(a: f64, x: &[f64], y: &mut [f64]) {
    for i in 0..x.len() {
        y[i] += a * x[i];
    }
}

/// axpy(a, x, 0): the old y is not read.
pub fn axpy_zero(a: f64, x: &[f64], y: &mut [f64]) {
    for i in 0..x.len() {
        y[i] = a * x[i];
    }
}

/// The first of the largest, for at least one number.
pub fn imax(v: &[f64]) -> usize {
    let mut place = 0;
    for i in 1..v.len() {
        if v[i] > v[place] {
            place = i;
        }
    }
    place
}

/// What the norm of these numbers tells beside its number (02, #106), by the order of the bits of absolute values, in which
/// zero comes first and infinity and NaN come last. Small: after zero, up to rdwarf. Large: from agiant on, which is
/// "rgiant/length" by this norm's own length.
pub fn ranges(v: &[f64]) -> Ranges {
    let size = |x: f64| abs(x).to_bits();
    let (rdwarf, agiant) = (size(RDWARF), size(RGIANT / v.len() as f64));
    Ranges {
        small: v.iter().any(|&x| (1..=rdwarf).contains(&size(x))),
        large: v.iter().any(|&x| size(x) >= agiant),
    }
}

/// The norm and its ranges.
pub fn enorm(v: &[f64]) -> (f64, Ranges) {
    (norm(v), ranges(v))
}

fn norm(v: &[f64]) -> f64 {
    let agiant = RGIANT / v.len() as f64;
    let (mut s1, mut s2, mut s3) = (0.0, 0.0, 0.0);
    let (mut x1max, mut x3max) = (0.0, 0.0);
    for &x in v {
        let x = abs(x);
        if x > RDWARF && x < agiant {
            s2 += x * x;
        } else if x <= RDWARF {
            if x > x3max {
                s3 = 1.0 + s3 * square(x3max / x);
                x3max = x;
            } else if x != 0.0 {
                s3 += square(x / x3max);
            }
        } else if x > x1max {
            s1 = 1.0 + s1 * square(x1max / x);
            x1max = x;
        } else {
            s1 += square(x / x1max);
        }
    }
    if s1 != 0.0 {
        x1max * sqrt(s1 + (s2 / x1max) / x1max)
    } else if s2 != 0.0 && s2 >= x3max {
        sqrt(s2 * (1.0 + (x3max / s2) * (x3max * s3)))
    } else if s2 != 0.0 {
        sqrt(x3max * ((s2 / x3max) + (x3max * s3)))
    } else {
        x3max * sqrt(s3)
    }
}

/// The first n of x become the solution of the upper triangle; columns stand `apart` places apart.
pub fn solve_upper(r: &[f64], apart: usize, n: usize, x: &mut [f64]) {
    for j in (0..n).rev() {
        x[j] /= r[j * apart + j];
        let a = -x[j];
        axpy(a, &r[j * apart..j * apart + j], &mut x[..j]);
    }
}
