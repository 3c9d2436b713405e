//! Random call scripts with frozen columns (02, #108): a kind of its own, so that the cases of the others stay what they
//! are. A third has no mark.

use crate::frozen_apart as apart;
use crate::frozen_limits as limits;
use crate::make_above;
use crate::make_calls::{self, Scene, call, example, factoring, lend};
use crate::pool::{Example, Pool};
use crate::problem::{self, Problem};
use crate::random::Random;
use crate::script::Item;
use api::{Held, State, free, frozen};

/// The mark of column k.
pub fn mark(k: usize) -> u16 {
    0x8000 >> k
}

pub fn all_marks(n: usize) -> u16 {
    (0..n).map(mark).sum()
}

/// Random marks of n columns: of each in turn with a chance of its own, so that few and many are frozen.
pub fn some_marks(rng: &mut Random, n: usize) -> u16 {
    let chance = rng.pick(&[20, 40, 70, 90]);
    (0..n).filter(|_| rng.percent(chance)).map(mark).sum()
}

/// Marks that leave so many of n columns free.
pub fn marks_of(rng: &mut Random, n: usize, left: usize) -> u16 {
    let mut marks = 0;
    while free(marks, n) > left {
        marks |= mark(rng.below(n));
    }
    marks
}

/// What a frozen column holds: numbers that would show wherever it took part.
fn frozen_column(rng: &mut Random, p: &Problem) -> Vec<f64> {
    let m = p.m;
    match rng.below(8) {
        0 => vec![rng.pick(&[0.0, -0.0, 1e20, 1e-25, -1e200]); m],
        1 | 2 => {
            let k = rng.below(p.n);
            let factor = rng.pick(&[1.0, -1.0, 3.0]);
            let of = p.jacobian[k * m..(k + 1) * m].iter();
            of.map(|x| (x * factor).clamp(-f64::MAX, f64::MAX))
                .collect()
        }
        _ => problem::vector(rng, m),
    }
}

/// The example with frozen columns put between its own: the reduced problem is the example itself, so that a search of a
/// class that chance seldom meets is met with marks too.
pub fn put_between(rng: &mut Random, own: &Example) -> (Example, u16) {
    let p = &own.problem;
    let most = (16 - p.n).min(4);
    let n = p.n + 1 + rng.below(most);
    let marks = marks_of(rng, n, p.n);
    let (mut jacobian, mut diag) = (Vec::new(), Vec::new());
    let (mut columns, mut entries) = (p.jacobian.chunks(p.m), own.diag.iter());
    for k in 0..n {
        if frozen(marks, k) {
            jacobian.extend(frozen_column(rng, p));
            diag.push(rng.pick(&[1.0, -2.0, 1e300, 1e-300]));
        } else {
            jacobian.extend(columns.next().into_iter().flatten());
            diag.extend(entries.next());
        }
    }
    let problem = Problem {
        n,
        jacobian,
        ..p.clone()
    };
    let example = Example {
        problem,
        diag,
        ..own.clone()
    };
    (example, marks)
}

/// Frozen columns among those that an example has, now and then all of them.
fn frozen_of(rng: &mut Random, own: Example) -> (Example, u16) {
    let marks = some_marks(rng, own.problem.n);
    (own, marks)
}

pub fn marked_example(rng: &mut Random, pool: &Pool) -> (Example, u16) {
    let own = match rng.below(4) {
        0 => pool.draw(rng),
        _ => example(rng, pool),
    };
    if own.problem.n < 16 && rng.percent(75) {
        put_between(rng, &own)
    } else {
        frozen_of(rng, own)
    }
}

/// The first places in some order and the count continued, as far as there are places.
pub fn list(rng: &mut Random, scene: &Scene) -> Vec<Item> {
    let n = scene.example.problem.n;
    let free = free(scene.marks, n);
    let mut order: Vec<usize> = (0..n).collect();
    for k in (1..free).rev() {
        order.swap(k, rng.below(k + 1));
    }
    let places = order.iter().enumerate().take(scene.order);
    places.map(|(k, place)| Item::Order(k, *place)).collect()
}

/// A store that nobody factored, with an order list that passes.
pub fn claim(rng: &mut Random, scene: &Scene, items: &mut Vec<Item>) {
    items.append(&mut list(rng, scene));
    let held = rng.pick(&[Held::Nothing, Held::Zero, Held::Damped]);
    let (m, n) = (scene.example.problem.m, scene.example.problem.n);
    let marks = scene.marks;
    items.push(Item::State(State { m, n, held, marks }));
}

/// The vector of a call that has an entry for each column.
fn entries(item: &mut Item) -> Option<&mut Vec<f64>> {
    match item {
        Item::Damped(v) | Item::Solve(v) | Item::Norm(v) => Some(v),
        Item::Scale { mode, diag, x, .. } => match mode {
            api::Mode::FirstScaled | api::Mode::FirstUnscaled => Some(x),
            _ => Some(diag),
        },
        Item::Search { diag, .. } => Some(diag),
        _ => None,
    }
}

/// "Tests 6 and 7 still read a frozen column's numbers": of so many in a hundred calls one is what they refuse.
pub fn with_frozen_number(rng: &mut Random, scene: &Scene, chance: usize, mut item: Item) -> Item {
    let n = scene.example.problem.n;
    let columns: Vec<usize> = (0..n).filter(|k| frozen(scene.marks, *k)).collect();
    if columns.is_empty() || !rng.percent(chance) {
        return item;
    }
    let column = rng.pick(&columns);
    let number = rng.pick(&[f64::NAN, f64::INFINITY, f64::NEG_INFINITY, 0.0, -0.0]);
    match &mut item {
        Item::Factor { jacobian, .. } => {
            let there = jacobian.get_mut(column * scene.example.problem.m);
            there.into_iter().for_each(|x| *x = number);
        }
        other => {
            let there = entries(other).and_then(|v| v.get_mut(column));
            there.into_iter().for_each(|x| *x = number);
        }
    }
    item
}

/// What a careless caller does where there are marks: junk past the free count, a list of another form, other marks.
fn meddle(rng: &mut Random, scene: &Scene, items: &mut Vec<Item>) {
    let p = &scene.example.problem;
    match rng.below(4) {
        0 | 1 => items.append(&mut apart::junk(rng, scene)),
        2 => items.append(&mut apart::spoilt_list(rng, scene)),
        _ => items.push(Item::State(State {
            m: p.m,
            n: p.n,
            held: rng.pick(&[Held::Empty, Held::Nothing, Held::Zero, Held::Damped]),
            marks: apart::other_marks(rng, scene),
        })),
    }
}

fn marked(rng: &mut Random, pool: &Pool) -> Vec<Item> {
    let mut items = Vec::new();
    let (drawn, marks) = marked_example(rng, pool);
    let scene = lend(rng, drawn, marks, &mut items);
    let mut first = factoring(rng, &scene);
    if let Item::Factor { marks, .. } = &mut first
        && rng.percent(2)
    {
        *marks = apart::other_marks(rng, &scene);
    }
    match rng.below(100) {
        0..80 => items.push(with_frozen_number(rng, &scene, 8, first)),
        80..97 => claim(rng, &scene, &mut items),
        _ => {}
    }
    for _ in 0..1 + rng.below(10) {
        if rng.percent(10) {
            meddle(rng, &scene, &mut items);
        }
        let drawn = call(rng, &scene);
        items.push(with_frozen_number(rng, &scene, 8, drawn));
    }
    items
}

/// A factoring with marks in its rooms and nothing else, now and then with a column whose norm is infinite: refused 8
/// where it is free, and only there.
fn factoring_alone(rng: &mut Random, pool: &Pool) -> Vec<Item> {
    let mut items = Vec::new();
    let (mut drawn, marks) = marked_example(rng, pool);
    if rng.percent(10) {
        let k = rng.below(drawn.problem.n);
        problem::column(&mut drawn.problem, k).fill(f64::MAX);
    }
    let scene = lend(rng, drawn, marks, &mut items);
    let item = factoring(rng, &scene);
    items.push(with_frozen_number(rng, &scene, 8, item));
    items
}

/// With questions among the calls (02, #105).
pub fn sequence(rng: &mut Random, pool: &Pool) -> Vec<Item> {
    let mut aside = Random::new(rng.aside().bits());
    make_above::among(&mut aside, bare_sequence(rng, pool))
}

/// Without them; the sample has these by themselves.
pub fn bare_sequence(rng: &mut Random, pool: &Pool) -> Vec<Item> {
    let mut items = match rng.below(33) {
        0..11 => return make_calls::bare_sequence(rng, pool),
        11..22 => marked(rng, pool),
        22..24 => factoring_alone(rng, pool),
        24..26 => apart::none_free(rng, pool),
        26 => apart::past(rng, pool),
        27 => apart::lists(rng, pool),
        28 => apart::spoilt(rng, pool),
        29 => apart::short(rng, pool),
        30 => apart::searched(rng, pool),
        31 => limits::at_limits(rng),
        _ => limits::nearly_singular(rng),
    };
    items.push(Item::End);
    items
}
