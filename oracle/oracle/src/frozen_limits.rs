//! Numbers beside what goes by the free count and not by n (02, #108): the limit of `determined` (#104), and that of a large
//! entry of a norm (#106).

use crate::make_frozen::{all_marks, mark, marks_of};
use crate::near::lent;
use crate::random::Random;
use crate::script::Item;
use crate::{ranges, sample};
use api::{free, frozen};

/// Fewer rows than columns, and a diagonal at the limit that the free count gives, at the one that n gives, or between.
pub fn nearly_singular(rng: &mut Random) -> Vec<Item> {
    let n = 3 + rng.below(4);
    let (m, free) = (2 + rng.below(n - 2), 2 + rng.below(n - 2));
    let marks = marks_of(rng, n, free);
    let first: f64 = rng.pick(&[1.0, -3.0, 1e-300]);
    let edge = |count: usize| (m.max(count) as f64 * f64::EPSILON) * first.abs();
    let (low, high) = (edge(free), edge(n));
    let mut jacobian = vec![7.0; m * n];
    let columns = (0..n).filter(|k| !frozen(marks, *k)).enumerate();
    for (place, k) in columns {
        let column = &mut jacobian[k * m..(k + 1) * m];
        column.fill(0.0);
        let later = rng.pick(&[low, low.next_up(), high, high.next_up(), (low + high) / 2.0]);
        if place < m {
            column[place] = if place == 0 { first } else { later };
        }
    }
    let rooms = lent(rng, m, n);
    let factoring = Item::Factor {
        m,
        n,
        marks,
        jacobian,
        residuals: vec![1.0; m],
    };
    vec![rooms, factoring, Item::Determined, Item::NonSingular]
}

/// A number that is large in a norm over n places and not in one over the free ones, or beside that; or in a range.
fn limit(rng: &mut Random, n: usize, free: usize) -> f64 {
    let (over_n, over_free) = (1.304e19 / n as f64, 1.304e19 / free as f64);
    let between = [over_n, over_n * 1.1, over_free.next_down()];
    let other = [over_free, over_n.next_down(), 1.0, 0.0, 1e-25, 1e20];
    let x = match rng.below(2) {
        0 => rng.pick(&between),
        _ => rng.pick(&other),
    };
    x * rng.pick(&[1.0, -1.0])
}

/// Columns of a diagonal of ones, which take what they are given to the norms as it is; frozen ones of any range.
pub fn at_limits(rng: &mut Random) -> Vec<Item> {
    let n = 2 + rng.below(4);
    let m = n + rng.below(2);
    let mut marks = all_marks(n) & !mark(rng.below(n));
    if rng.percent(50) {
        marks &= !mark(rng.below(n));
    }
    let free = free(marks, n);
    let mut jacobian = vec![0.0; m * n];
    for k in 0..n {
        let other = rng.pick(&[1.0, 1e20, 1e-25, 1e-310]);
        jacobian[k * m + k] = if frozen(marks, k) { other } else { 1.0 };
    }
    let numbers = |rng: &mut Random| (0..n).map(|_| limit(rng, n, free)).collect();
    let mut residuals: Vec<f64> = numbers(rng);
    residuals.resize(m, 0.0);
    let factoring = Item::Factor {
        m,
        n,
        marks,
        jacobian,
        residuals,
    };
    let radius = rng.pick(&[1e19, 1e19, 3e18, 1.0]);
    let search = sample::search(&vec![1.0; n], radius, 0.0);
    let (mode, x) = (rng.below(2), numbers(rng));
    let scaling = ranges::scaling(rng, mode, x);
    vec![
        lent(rng, m, n),
        factoring,
        search,
        Item::Norm(numbers(rng)),
        scaling,
    ]
}
