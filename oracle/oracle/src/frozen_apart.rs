//! What chance seldom makes of frozen columns (02, #108): no column free, marks past n, lists of another form, junk past
//! the free count, rooms too short, rare searches.

use crate::make_calls::{Scene, call_of, factoring, lend};
use crate::make_frozen::{
    all_marks, claim, list, mark, marked_example, put_between, with_frozen_number,
};
use crate::near::lent;
use crate::pool::Pool;
use crate::random::Random;
use crate::sample;
use crate::script::Item;
use api::{Held, State, free, frozen, mark_past};

fn n_of(scene: &Scene) -> usize {
    scene.example.problem.n
}

/// Other marks than the scene's: past n where there is room for one, of all columns, of none, or any.
pub fn other_marks(rng: &mut Random, scene: &Scene) -> u16 {
    let n = n_of(scene);
    match rng.below(4) {
        0 | 1 if n < 16 => scene.marks | mark(n + rng.below(16 - n)),
        2 => all_marks(n),
        3 => 0,
        _ => rng.bits() as u16,
    }
}

/// Where a store of n columns has nothing of the reduced problem.
fn is_past(n: usize, free: usize, place: usize) -> bool {
    let (row, within) = (place / n, place % n);
    within >= free || row >= free && row < n
}

/// Junk past the free count: in all of it, or in one place.
pub fn junk(rng: &mut Random, scene: &Scene) -> Vec<Item> {
    let n = n_of(scene);
    let free = free(scene.marks, n);
    let past = (0..n * n + 4 * n).filter(|place| is_past(n, free, *place));
    let places: Vec<usize> = past.filter(|place| *place < scene.store).collect();
    let of = [f64::NAN, f64::INFINITY, 1e300, -1.0, -0.0, 3.0];
    let item = |rng: &mut Random, place: usize| Item::Store(place, rng.pick(&of));
    if places.is_empty() {
        return Vec::new();
    }
    if rng.percent(40) {
        let place = rng.pick(&places);
        return vec![item(rng, place)];
    }
    places.iter().map(|place| item(rng, *place)).collect()
}

/// A list that is not of the form: of all columns by their own numbers, with a tail that does not continue the count, or
/// with one place changed.
pub fn spoilt_list(rng: &mut Random, scene: &Scene) -> Vec<Item> {
    let (n, lent) = (n_of(scene), scene.order);
    let free = free(scene.marks, n);
    let order: Vec<usize> = match rng.below(4) {
        0 => (0..n).map(|k| (k + 1) % n).collect(),
        1 => {
            let own = (0..n).filter(|k| !frozen(scene.marks, *k));
            own.chain((0..n).filter(|k| frozen(scene.marks, *k)))
                .collect()
        }
        2 if free < n => {
            let place = free + rng.below(n - free);
            return [Item::Order(place, rng.pick(&[0, free, place + 1, n, 16]))]
                .into_iter()
                .filter(|_| place < lent)
                .collect();
        }
        _ if free > 0 && free <= lent => {
            let place = rng.below(free);
            return vec![Item::Order(place, rng.pick(&[0, free, place + 1, n - 1]))];
        }
        _ => (0..n).collect(),
    };
    let places = order.iter().enumerate().take(lent);
    places.map(|(k, place)| Item::Order(k, *place)).collect()
}

/// One number of `call_of` for each call that takes a state.
const CALLS: [usize; 10] = [0, 14, 28, 42, 52, 60, 68, 78, 89, 92];

/// Calls, each as often as the others, their scalars and frozen numbers changed now and then.
fn calls(rng: &mut Random, scene: &Scene, count: usize, items: &mut Vec<Item>) {
    for _ in 0..count {
        let which = rng.pick(&CALLS);
        let mut drawn = call_of(rng, scene, which);
        if let Item::Gradient(x)
        | Item::Scale { step_bound: x, .. }
        | Item::Search { radius: x, .. } = &mut drawn
            && rng.percent(16)
        {
            *x = rng.pick(&[f64::NAN, f64::INFINITY, 0.0, -1.0]);
        }
        items.push(with_frozen_number(rng, scene, 20, drawn));
    }
}

/// Rooms of which some are too short, with a list that passes as far as it goes; sometimes no column is free.
pub fn short(rng: &mut Random, pool: &Pool) -> Vec<Item> {
    let (example, own) = marked_example(rng, pool);
    let (m, n) = (example.problem.m, example.problem.n);
    let marks = rng.pick(&[own, own, all_marks(n)]);
    let mut about = |needed: usize| {
        if rng.percent(30) {
            rng.below(needed)
        } else {
            needed
        }
    };
    let (store, order) = (about(n * n + 4 * n), about(n));
    let (bench, out) = (about(m * n + m), about(n));
    let seed = rng.bits();
    let mut items = vec![Item::Rooms {
        store,
        order,
        bench,
        out,
        seed,
    }];
    let scene = Scene {
        example,
        marks,
        store,
        order,
    };
    items.push(factoring(rng, &scene));
    claim(rng, &scene, &mut items);
    calls(rng, &scene, 8, &mut items);
    items
}

/// Every column frozen: a factoring, then a state that nobody was given, with a list that mostly passes.
pub fn none_free(rng: &mut Random, pool: &Pool) -> Vec<Item> {
    let mut items = Vec::new();
    let (drawn, _) = marked_example(rng, pool);
    let marks = all_marks(drawn.problem.n);
    let scene = lend(rng, drawn, marks, &mut items);
    let item = factoring(rng, &scene);
    items.push(with_frozen_number(rng, &scene, 20, item));
    claim(rng, &scene, &mut items);
    if rng.percent(10) {
        items.append(&mut spoilt_list(rng, &scene));
    }
    let count = 3 + rng.below(10);
    calls(rng, &scene, count, &mut items);
    items
}

/// A mark past n, as an argument and in a state; an empty state is refused 5 all the same.
pub fn past(rng: &mut Random, pool: &Pool) -> Vec<Item> {
    let mut items = Vec::new();
    let (drawn, marks) = marked_example(rng, pool);
    let (m, n) = (drawn.problem.m, drawn.problem.n);
    let mut scene = lend(rng, drawn, marks, &mut items);
    items.push(factoring(rng, &scene));
    scene.marks = other_marks(rng, &scene);
    if n < 16 && !mark_past(scene.marks, n) {
        scene.marks |= mark(15);
    }
    items.push(factoring(rng, &scene));
    let marks = scene.marks;
    for _ in 0..8 {
        let held = rng.pick(&[Held::Empty, Held::Nothing, Held::Zero, Held::Damped]);
        items.push(Item::State(State { m, n, held, marks }));
        calls(rng, &scene, 1, &mut items);
    }
    items
}

fn factored(rng: &mut Random, pool: &Pool, items: &mut Vec<Item>) -> Scene {
    let (drawn, marks) = marked_example(rng, pool);
    let scene = lend(rng, drawn, marks, items);
    items.push(factoring(rng, &scene));
    scene
}

/// Lists that pass and lists that do not, each with calls that take one.
pub fn lists(rng: &mut Random, pool: &Pool) -> Vec<Item> {
    let mut items = Vec::new();
    let scene = factored(rng, pool, &mut items);
    for _ in 0..4 {
        let mut changed = match rng.below(4) {
            0 => list(rng, &scene),
            _ => spoilt_list(rng, &scene),
        };
        items.append(&mut changed);
        calls(rng, &scene, 3, &mut items);
    }
    items
}

/// Junk past the free count before each call: what is not the reduced problem's is not read, and stays or is set to +0.
pub fn spoilt(rng: &mut Random, pool: &Pool) -> Vec<Item> {
    let mut items = Vec::new();
    let scene = factored(rng, pool, &mut items);
    for _ in 0..8 {
        items.append(&mut junk(rng, &scene));
        calls(rng, &scene, 1, &mut items);
    }
    items
}

/// A search that chance seldom meets, with frozen columns put between its own, before and after a zero solve.
pub fn searched(rng: &mut Random, pool: &Pool) -> Vec<Item> {
    let own = pool.draw(rng);
    let (example, marks) = put_between(rng, &own);
    let (p, diag) = (example.problem, example.diag);
    let search = sample::search(&diag, example.radius, example.lambda);
    let rooms = lent(rng, p.m, p.n);
    let factoring = Item::Factor {
        m: p.m,
        n: p.n,
        marks,
        jacobian: p.jacobian,
        residuals: p.residuals,
    };
    vec![rooms, factoring, search.clone(), Item::Zero, search]
}
