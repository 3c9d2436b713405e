//! Problems that are drawn apart from the others, since chance seldom makes them.

use crate::problem::{Problem, column, sized, up_to};
use crate::random::{Random, power_of_two};

/// Near the largest sizes; one in five is wide and low.
pub fn large(rng: &mut Random) -> Problem {
    let (low, high, wide) = (up_to(rng, 15), 64 + rng.below(65), 8 + rng.below(9));
    let (m, n) = rng.pick(&[(128, 16), (128, wide), (high, 16), (high, wide), (low, 16)]);
    sized(rng, m, n)
}

/// A long column takes the place of the first, which is short, and what the reflection leaves of the short ones is
/// of one length. Were the first one's entry of work not moved with it, its norm would be worked out anew too soon:
/// the order of the short ones tells.
pub fn swapped(rng: &mut Random) -> Problem {
    let (m, n) = (4 + rng.below(3), 3 + rng.below(3));
    let mut problem = sized(rng, m, n);
    problem.jacobian.fill(0.0);
    let short = power_of_two(rng.between(-40, -26));
    for j in 0..n {
        let legs = rng.pick(&[
            [3.0, 4.0, 0.0],
            [0.0, 3.0, -4.0],
            [5.0, 0.0, 0.0],
            [4.0, 0.0, 3.0],
        ]);
        let first = rng.unit() * 9.0;
        let column = column(&mut problem, j);
        column[0] = first * short;
        for i in 1..4 {
            column[i] = legs[i - 1] * short;
        }
    }
    let long = 1 + rng.below(n - 1);
    let column = column(&mut problem, long);
    column.fill(0.0);
    column[0] = rng.pick(&[1.0, -3.0, 5.0]);
    problem
}
