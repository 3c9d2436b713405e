//! The part of the sample that is there for the ranges (02, #106): what looks right and is not, then drawn cases that show
//! what few before them have shown.

use crate::coverage::Coverage;
use crate::engines::PLAIN;
use crate::random::Random;
use crate::ranges;
use crate::sample::{case, search};
use crate::script::{Item, mode_of};
use crate::wanted::wanted_ranges;

/// A row is shown by so many calls of the drawn cases.
const FEW: u64 = 2;
const DRAWN: usize = 2000;

fn scaling(mode: usize, x: &[f64], step_bound: f64) -> Item {
    Item::Scale {
        mode: mode_of(mode),
        diag: vec![1.0; x.len()],
        x: x.to_vec(),
        step_bound,
    }
}

/// Ones on the diagonal, so that x comes to the norm of Jx and to the unscaled norm as it is.
fn as_it_is(x: &[f64]) -> Vec<Item> {
    let n = x.len();
    let mut ones = vec![0.0; n * n];
    (0..n).for_each(|j| ones[j * n + j] = 1.0);
    let calls = [Item::Norm(x.to_vec()), scaling(1, x, 1.0)];
    case(n, n, &ones, &vec![1.0; n], &calls)
}

/// Zeros of either sign are neither; the least subnormal is small; a small entry counts where a large one decides the
/// number; and 4e18 is large among four and not by itself.
fn limits() -> Vec<Vec<Item>> {
    vec![
        as_it_is(&[-0.0, 0.0]),
        as_it_is(&[-f64::from_bits(1)]),
        as_it_is(&[3.834e-20]),
        as_it_is(&[3.834e-20f64.next_up()]),
        as_it_is(&[1e20, 1e-25]),
        as_it_is(&[4e18]),
        as_it_is(&[0.0, 0.0, -4e18, 0.0]),
    ]
}

/// Numbers of tenths of thousandths: no column has a small entry, what the first reflection leaves of a multiple has one.
/// It is seen in a norm worked out anew and in the pivot's lower end; in the one alone; in the other alone; and in a norm
/// that nobody works out anew, which counts for nothing.
fn small_remains() -> Vec<Vec<Item>> {
    let (u, by) = (1e-4, -2.0 / 7.0);
    let (a, b) = (2e-4, -4e-4);
    let factored =
        |m: usize, jacobian: &[f64]| case(m, jacobian.len() / m, jacobian, &vec![1.0; m], &[]);
    vec![
        factored(2, &[a, b, a * -2.0 / 7.0, b * -2.0 / 7.0]),
        factored(2, &[u, u, u, -u, u * by, u * by]),
        factored(3, &[u, u, 0.0, u * by, u * by, 1e-5]),
        factored(3, &[u, 4e-4, 0.0, u, -u, u, u * by, 4e-4 * by, 1e-5]),
    ]
}

/// No column has a large entry. The pivot's lower end has one; a rest has one whose norm nobody works out anew; a lower end
/// of two has one that is large among three alone. Then samples in the wrong log column; and norms over the largest number,
/// which are refused 8 and tell nothing.
fn large_remains() -> Vec<Vec<Item>> {
    let factored = |m: usize, parts: &[f64]| {
        let jacobian: Vec<f64> = parts.iter().map(|x| x * 1e18).collect();
        case(m, jacobian.len() / m, &jacobian, &vec![1.0; m], &[])
    };
    vec![
        factored(4, &[0.0, 3.2, 3.2, 3.2, 2.5, -2.5, 2.5, 2.5]),
        factored(
            4,
            &[
                0.0, 3.2, 3.2, 3.2, -2.5, -2.5, 2.5, 2.5, 2.4, -2.4, 2.4, 2.4,
            ],
        ),
        factored(
            3,
            &[0.1, 4.3, 4.3, 4.0, -4.0, 4.0, 1.8, 1.8, 1.8, 1.8, 1.8, 1.8],
        ),
        factored(2, &[100.0, 1e-18]),
        factored(2, &[1e290, 1e290]),
    ]
}

/// Searches of one trial: the correction that nobody works out after it would have a small entry, or a large one.
fn one_trial() -> Vec<Vec<Item>> {
    let asked = |lambda: f64| [search(&[1.0, 1.0], 1.0, lambda)];
    vec![
        case(1, 2, &[1e20, 0.0], &[2e20], &asked(1e40)),
        case(1, 2, &[1e-20, 0.0], &[2e-20], &asked(1e-40)),
    ]
}

/// Each call tells its own ranges, whatever the one before it told, answered or refused; a later scaling tells none.
fn one_after_another() -> Vec<Vec<Item>> {
    let asked = |radius: f64| search(&[1.0], radius, 0.0);
    vec![
        case(
            1,
            1,
            &[1e20],
            &[1.0],
            &[
                Item::Norm(vec![1.0]),
                Item::Norm(vec![1e-20]),
                scaling(2, &[1.0], 1.0),
                asked(1.0),
                Item::Norm(vec![1e300]),
                scaling(3, &[1e-30], 1.0),
                scaling(0, &[1e-45], 1.0),
                scaling(0, &[1e300], 1.0),
                scaling(0, &[1e-20], 1.0),
            ],
        ),
        case(
            1,
            1,
            &[1e-25],
            &[1e-5],
            &[
                asked(1e30),
                asked(1e19),
                asked(1e-300),
                Item::Norm(vec![1e25]),
            ],
        ),
    ]
}

fn drawn() -> Vec<Vec<Item>> {
    let (wanted, mut shown) = (wanted_ranges(), Coverage::default());
    let mut rng = Random::new(106);
    let mut kept = Vec::new();
    for _ in 0..DRAWN {
        let mut items = ranges::items(&mut rng);
        items.push(Item::End);
        let mut own = Coverage::default();
        own.sequence(PLAIN, &items);
        let few = |label: &String| own.count(label) > 0 && shown.count(label) < FEW;
        if wanted.iter().any(few) {
            shown.sequence(PLAIN, &items);
            kept.push(items);
        }
    }
    kept
}

pub fn cases() -> Vec<Vec<Item>> {
    let fixed = [limits(), small_remains(), large_remains(), one_trial()].concat();
    [fixed, one_after_another(), drawn()].concat()
}
