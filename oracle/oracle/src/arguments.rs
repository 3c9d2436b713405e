//! Lengths and numbers for a call, mostly as they should be.

use crate::random::Random;

/// Mostly exact, sometimes longer, sometimes too short.
pub fn length(rng: &mut Random, needed: usize) -> usize {
    match rng.below(100) {
        0..89 => needed,
        89..98 => needed + 1 + rng.below(3),
        _ => rng.below(needed),
    }
}

/// A vector for a call: of `length`, now and then with a number that is not finite, perhaps in its surplus alone.
pub fn argument(rng: &mut Random, v: &[f64]) -> Vec<f64> {
    let mut v = v.to_vec();
    let len = length(rng, v.len());
    v.resize(len, 1.5);
    if len > 0 && rng.percent(3) {
        v[rng.below(len)] = rng.pick(&[f64::NAN, f64::INFINITY, f64::NEG_INFINITY]);
    }
    v
}

pub fn scalar(rng: &mut Random, x: f64) -> f64 {
    match rng.below(100) {
        0..3 => rng.pick(&[f64::NAN, f64::INFINITY, f64::NEG_INFINITY]),
        3..7 => rng.pick(&[0.0, -0.0, -1.0, -5e-324]),
        _ => x,
    }
}
