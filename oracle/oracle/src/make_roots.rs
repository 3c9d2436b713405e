//! Square roots that a careless rounding gets wrong.

use crate::leaf::Leaf;
use crate::make_leaves::around;
use crate::random::{Random, power_of_two};

/// Powers of two, whole squares and squares of doubles, each with its neighbours; commissioning examples A and B.
pub fn roots(out: &mut Vec<Leaf>) {
    out.push(Leaf::Sqrt(0.390625));
    for e in -1074..=1023 {
        out.extend(around(power_of_two(e)).map(Leaf::Sqrt));
    }
    for k in 1..=200u32 {
        out.extend(around(f64::from(k * k)).map(Leaf::Sqrt));
    }
    let mut rng = Random::new(1);
    for _ in 0..300 {
        let q = 1.0 + (rng.bits() >> 12) as f64 / (1u64 << 52) as f64;
        out.extend(around(q * q).map(Leaf::Sqrt));
        let short = f64::from_bits(q.to_bits() & !0x3FF_FFFF);
        out.extend(around(short * short).map(Leaf::Sqrt));
    }
}

/// An odd x with x*x the same as `square` modulo 2^places; `square` is 1 modulo 8.
fn odd_root(square: i128, places: u32) -> i128 {
    let mut x: i128 = 1;
    for place in 3..places {
        if ((x * x - square) >> place) & 1 == 1 {
            x += 1 << (place - 1);
        }
    }
    x & ((1 << places) - 1)
}

/// The roots nearest to a halfway point: 4S = (2q+1)^2 - c for a small c. S ends in 52 zero bits, or in 53 where the
/// exponent is odd, so that 2q+1 is a root of c modulo 2^54 or 2^55; there are four.
pub fn hard_roots(out: &mut Vec<Leaf>) {
    for c in [-31, -23, -15, -7, 1, 9, 17, 25] {
        for places in [54, 55] {
            let x = odd_root(c, places);
            let (whole, half) = (1i128 << places, 1i128 << (places - 1));
            for odd in [x, whole - x, (x + half) % whole, (whole - x + half) % whole] {
                let mantissa = (odd * odd - c) >> places;
                if (1 << 52..1 << 53).contains(&mantissa) {
                    // Even exponents for 54 places, odd ones for 55.
                    let scale = power_of_two(i64::from(places) - 54);
                    out.push(Leaf::Sqrt(mantissa as f64 * scale));
                    out.push(Leaf::Sqrt(mantissa as f64 * scale * power_of_two(-600)));
                }
            }
        }
    }
}

#[cfg(test)]
mod tests {
    use super::*;

    /// So near a halfway point that the whole-number test of the root has nothing to spare.
    #[test]
    fn hard_roots_are_hard() {
        let mut leaves = Vec::new();
        hard_roots(&mut leaves);
        assert!(leaves.len() >= 16);
        for leaf in leaves {
            let Leaf::Sqrt(x) = leaf else {
                panic!("a root")
            };
            let bits = x.to_bits();
            let exponent = (bits >> 52) as i64 - 1075;
            let mantissa = i128::from(bits & ((1 << 52) - 1) | 1 << 52);
            let s = mantissa << if exponent.rem_euclid(2) == 0 { 52 } else { 53 };
            let twice = (4 * s).isqrt();
            let odd = if twice % 2 == 1 { twice } else { twice + 1 };
            assert!((odd * odd - 4 * s).abs() <= 31, "{x:e}");
        }
    }
}
