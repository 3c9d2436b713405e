//! Questions put among the calls of a sequence (02, #105). They are drawn aside, so that the other calls stay what they
//! are, and by what stands in the rooms when they are asked.

use crate::above;
use crate::arguments::scalar;
use crate::engines::PLAIN;
use crate::random::{Random, power_of_two};
use crate::rooms::Rooms;
use crate::script::Item;
use api::{Held, free};

/// One of the free columns' transformed residuals; none where the rooms are too short for their state.
fn transformed(rng: &mut Random, rooms: &Rooms) -> Option<f64> {
    let (n, marks) = (rooms.state.n, rooms.state.marks);
    let free = free(marks, n.min(16));
    let there = (1..=16).contains(&n) && free > 0 && rooms.store.len() >= n * n + 4 * n;
    there.then(|| rooms.store[n * n + rng.below(free)])
}

/// So tiny that one of the residuals over it is about the largest double: larger ones come out infinite.
fn tiny(rng: &mut Random, rooms: &Rooms) -> Option<f64> {
    let over = power_of_two(1023);
    let norm = transformed(rng, rooms)?.abs() / over * rng.pick(&[0.25, 0.5, 1.0, 2.0, 8.0]);
    (norm > 0.0).then_some(norm)
}

fn residual_norm(rng: &mut Random, rooms: &Rooms) -> f64 {
    let norm = match rng.below(100) {
        0..40 => rng.unit().abs() * 10.0,
        40..50 => rng.wild().abs(),
        50..60 => rng.pick(&[1.0, 8.0, f64::from_bits(1)]),
        _ => tiny(rng, rooms).unwrap_or(1.0),
    };
    scalar(rng, norm)
}

/// The number itself or one beside it.
fn beside(rng: &mut Random, x: f64) -> f64 {
    rng.pick(&[x, x, x.next_down(), x.next_up(), x / 2.0])
}

/// The gradient's measure or a single column's, the doubles beside them; zeros; what is refused; and the ends of the range.
fn limit(rng: &mut Random, rooms: &Rooms, b_norm: f64) -> f64 {
    let met = above::met(PLAIN, rooms, b_norm);
    let columns = met.iter().flat_map(|met| &met.columns);
    let measures = columns.filter_map(|column| column.measure());
    let measures: Vec<f64> = measures.filter(|x| x.is_finite()).collect();
    let top = measures.iter().copied().reduce(f64::max);
    match (rng.below(100), top) {
        (0..30, Some(top)) => beside(rng, top),
        (30..50, Some(_)) => {
            let x = rng.pick(&measures);
            beside(rng, x)
        }
        (50..66, _) => rng.pick(&[0.0, -0.0]),
        (66..72, _) => rng.pick(&[f64::NAN, f64::INFINITY, f64::NEG_INFINITY]),
        (72..78, _) => rng.pick(&[-1.0, -f64::from_bits(1), -f64::MAX]),
        (78..86, _) => rng.pick(&[f64::MAX, f64::from_bits(1), 1e300, 1e-300]),
        (86..94, _) => rng.unit().abs(),
        _ => rng.wild().abs(),
    }
}

fn ask(rng: &mut Random, rooms: &mut Rooms, items: &mut Vec<Item>) {
    let b_norm = residual_norm(rng, rooms);
    let limit = limit(rng, rooms, b_norm);
    put(Item::Above { b_norm, limit }, rooms, items);
}

fn put(item: Item, rooms: &mut Rooms, items: &mut Vec<Item>) {
    rooms.play(PLAIN, &item);
    items.push(item);
}

/// What no factoring leaves: a norm of zero over a column that has numbers in it, numbers that are none, junk in work.
fn soil(rng: &mut Random, rooms: &mut Rooms, items: &mut Vec<Item>) {
    let n = rooms.state.n;
    if transformed(rng, rooms).is_none() {
        return;
    }
    let k = rng.below(free(rooms.state.marks, n));
    let spoils = [f64::NAN, f64::INFINITY, f64::NEG_INFINITY, 1e300];
    let (place, x) = match rng.below(6) {
        0..3 => (n * n + n + k, rng.pick(&[0.0, -0.0])),
        3 => (n * n + n + k, rng.pick(&spoils)),
        4 => (n * n + k, rng.pick(&spoils)),
        _ => (k * n + rng.below(k + 1), rng.pick(&spoils)),
    };
    put(Item::Store(place, x), rooms, items);
    put(Item::Store(n * n + 3 * n + k, 7.0), rooms, items);
}

/// The same items with questions between them: one in ten is followed by one, or one in fifty where there is no problem to
/// ask of; and at the end of one sequence in six the store is soiled and asked twice.
pub fn among(rng: &mut Random, calls: Vec<Item>) -> Vec<Item> {
    let (mut rooms, mut items) = (Rooms::none(), Vec::new());
    for item in calls {
        if let Item::End = item
            && rng.percent(16)
        {
            soil(rng, &mut rooms, &mut items);
            ask(rng, &mut rooms, &mut items);
            ask(rng, &mut rooms, &mut items);
        }
        let ends = matches!(item, Item::End);
        put(item, &mut rooms, &mut items);
        let chance = match rooms.state.held {
            _ if ends => 0,
            Held::Empty => 2,
            _ => 10,
        };
        if rng.percent(chance) {
            ask(rng, &mut rooms, &mut items);
        }
    }
    items
}
