//! Problems that are nearly singular, and stores that are claimed to be: what `determined` tells apart (02, #104).

use crate::random::Random;
use crate::script::Item;
use api::{Held, State};

/// Rooms of exact lengths.
pub fn lent(rng: &mut Random, m: usize, n: usize) -> Item {
    Item::Rooms {
        store: n * n + 4 * n,
        order: n,
        bench: m * n + m,
        out: n,
        seed: rng.bits(),
    }
}

fn factored(rng: &mut Random, m: usize, n: usize, jacobian: Vec<f64>) -> Item {
    let residuals = (0..m).map(|_| rng.unit()).collect();
    Item::Factor {
        m,
        n,
        marks: 0,
        jacobian,
        residuals,
    }
}

/// Columns that are multiples of one another: the later diagonals come out as zero or a few units in the last place.
fn multiples(rng: &mut Random, m: usize, n: usize) -> Vec<f64> {
    let rows: Vec<f64> = (0..m).map(|i| (i + 1 + rng.below(3)) as f64).collect();
    let by = (0..n).map(|j| (j + 1 + rng.below(3)) as f64);
    by.flat_map(|c| rows.iter().map(move |r| c * r)).collect()
}

/// The first of a diagonal, the limit for it, and later ones at the limit, beside it, far from it, or no numbers.
fn diagonal(rng: &mut Random, m: usize, n: usize, finite: bool) -> Vec<f64> {
    let exponent = rng.between(-1060, -970);
    let (low, any) = (rng.scaled(exponent), rng.wild());
    let first = rng.pick(&[1.0, -3.0, low, low, any]);
    let edge = (m.max(n) as f64 * f64::EPSILON) * first.abs();
    let beside = [edge, edge, edge.next_up(), edge.next_down(), first, 0.0];
    let wrong = [f64::NAN, f64::INFINITY, 1e-20, 1e20];
    let later = |rng: &mut Random| match rng.below(10) {
        0..3 if !finite => rng.pick(&wrong),
        _ => rng.pick(&beside),
    };
    let first = if finite || rng.percent(80) {
        first
    } else {
        later(rng)
    };
    let mut diagonal: Vec<f64> = (0..n).map(|_| later(rng)).collect();
    diagonal[0] = first;
    diagonal
        .iter()
        .map(|d| if rng.percent(50) { -d } else { *d })
        .collect()
}

/// A store that nobody factored.
fn claimed(rng: &mut Random, m: usize, n: usize) -> Vec<Item> {
    let held = rng.pick(&[Held::Nothing, Held::Zero, Held::Damped]);
    let places = (0..n).map(|k| Item::Order(k, k));
    let diagonal = diagonal(rng, m, n, false);
    let cells = diagonal.iter().enumerate();
    let cells = cells.map(|(j, d)| Item::Store(j * n + j, *d));
    std::iter::once(Item::State(State {
        m,
        n,
        held,
        marks: 0,
    }))
    .chain(places)
    .chain(cells)
    .collect()
}

pub fn items(rng: &mut Random) -> Vec<Item> {
    let (m, n) = (1 + rng.below(6), 2 + rng.below(4));
    let mut items = vec![lent(rng, m, n)];
    match rng.below(4) {
        0 => {
            let jacobian = multiples(rng, m, n);
            items.push(factored(rng, m, n, jacobian));
        }
        1 => {
            let diagonal = diagonal(rng, m, n, true);
            let mut jacobian = vec![0.0; m * n];
            (0..m.min(n)).for_each(|j| jacobian[j * m + j] = diagonal[j]);
            items.push(factored(rng, m, n, jacobian));
        }
        _ => items.append(&mut claimed(rng, m, n)),
    }
    items.extend([Item::Determined, Item::Zero, Item::Determined]);
    items
}
