//! 01, Leaf rules, square root: on whole numbers alone.

const FRACTION: u64 = (1 << 52) - 1;

/// `x = mantissa * 2^exponent`, the mantissa of exactly 53 bits, for a finite `x` above zero.
fn parts(x: f64) -> (u64, i32) {
    let bits = x.to_bits();
    let field = (bits >> 52) as i32;
    let fraction = bits & FRACTION;
    if field != 0 {
        return (fraction | (1 << 52), field - 1075);
    }
    let shift = fraction.leading_zeros() - 11;
    (fraction << shift, -1074 - shift as i32)
}

/// The q with 4S strictly between (2q-1)^2 and (2q+1)^2. 4S is even and the squares are odd, so one q fits.
fn nearest_root(s: u128) -> u64 {
    let mut floor: u128 = 0;
    for place in (0..53).rev() {
        let tried = floor | (1 << place);
        if tried * tried <= s {
            floor = tried;
        }
    }
    let half_up = 2 * floor + 1;
    let q = if 4 * s > half_up * half_up {
        floor + 1
    } else {
        floor
    };
    q as u64
}

pub fn sqrt(x: f64) -> f64 {
    if x == 0.0 || x == f64::INFINITY {
        return x;
    }
    if x.is_nan() || x < 0.0 {
        return f64::NAN;
    }
    let (mantissa, exponent) = parts(x);
    // 2^104 <= S < 2^106, and what is left of the exponent is even.
    let shift = if exponent.rem_euclid(2) == 0 { 52 } else { 53 };
    let s = u128::from(mantissa) << shift;
    let k = (exponent - shift) / 2;
    // q has at most 54 bits of which the last is 0 if there are 54, and k stays far from the limits: exact.
    nearest_root(s) as f64 * f64::from_bits(((k + 1023) as u64) << 52)
}
