//! Random call scripts: lent rooms, a factoring, then further calls, refused ones between.

use crate::apart;
use crate::arguments::{argument, length, scalar};
use crate::make_above;
use crate::near;
use crate::pool::{Example, Pool};
use crate::problem;
use crate::random::Random;
use crate::ranges;
use crate::script::{Item, mode_of};
use api::{Held, State};

/// What the calls of one sequence are drawn from.
pub struct Scene {
    pub example: Example,
    pub marks: u16,
    pub store: usize,
    pub order: usize,
}

pub fn factoring(rng: &mut Random, scene: &Scene) -> Item {
    let p = &scene.example.problem;
    let (mut m, mut n) = (p.m, p.n);
    match rng.below(100) {
        0..2 => m = rng.pick(&[0, 129, 1000, usize::MAX]),
        2..4 => n = rng.pick(&[0, 17, 64, usize::MAX]),
        _ => {}
    }
    Item::Factor {
        m,
        n,
        marks: scene.marks,
        jacobian: argument(rng, &p.jacobian),
        residuals: argument(rng, &p.residuals),
    }
}

fn vector(rng: &mut Random, n: usize) -> Vec<f64> {
    let v = problem::vector(rng, n);
    argument(rng, &v)
}

fn scaling_call(rng: &mut Random, scene: &Scene) -> Item {
    let n = scene.example.problem.n;
    let mode = mode_of(rng.below(4));
    let mut diag = argument(rng, &scene.example.diag);
    for x in &mut diag {
        if rng.percent(10) {
            *x = rng.pick(&[0.0, -0.0]);
        }
    }
    let bound = if rng.percent(80) {
        100.0
    } else {
        rng.wild().abs()
    };
    Item::Scale {
        mode,
        diag,
        x: vector(rng, n),
        step_bound: scalar(rng, bound),
    }
}

fn search_call(rng: &mut Random, scene: &Scene) -> Item {
    let e = &scene.example;
    let mut diag = argument(rng, &e.diag);
    if !diag.is_empty() && rng.percent(3) {
        let k = rng.below(diag.len());
        diag[k] = rng.pick(&[0.0, -0.0]);
    }
    let (radius, lambda) = if rng.percent(60) {
        (e.radius, e.lambda)
    } else {
        (
            problem::radius(rng, &e.problem, &e.diag),
            problem::lambda(rng),
        )
    };
    let lambda = if rng.percent(3) { -1.0 } else { lambda };
    Item::Search {
        diag,
        radius: scalar(rng, radius),
        lambda,
    }
}

/// A diagonal with zero entries among the others, since elimination skips them.
fn diagonal(rng: &mut Random, n: usize) -> Vec<f64> {
    let mut v = problem::vector(rng, n);
    for x in &mut v {
        if rng.percent(15) {
            *x = rng.pick(&[0.0, -0.0]);
        }
    }
    argument(rng, &v)
}

fn odd_state(rng: &mut Random, scene: &Scene) -> Item {
    let held = rng.pick(&[Held::Empty, Held::Nothing, Held::Zero, Held::Damped]);
    let p = &scene.example.problem;
    let m = if rng.percent(20) {
        rng.pick(&[0, 129, usize::MAX])
    } else {
        p.m
    };
    let n = if rng.percent(20) {
        rng.pick(&[0, 17, usize::MAX, 1, 16])
    } else {
        p.n
    };
    let marks = scene.marks;
    Item::State(State { m, n, held, marks })
}

/// Any place, or one of work, which calls must clear, or a column norm, which a scaling judges.
fn store_place(rng: &mut Random, scene: &Scene) -> usize {
    let n = scene.example.problem.n;
    let part = rng.pick(&[3, 3, 1, 1, 0]);
    let k = n * n + part * n + rng.below(n);
    if part > 0 && k < scene.store {
        k
    } else {
        rng.below(scene.store)
    }
}

/// What a careless caller does to the rooms between calls.
fn meddle(rng: &mut Random, scene: &Scene) -> Item {
    match rng.below(3) {
        0 if scene.order > 0 => {
            let place = rng.below(scene.order);
            Item::Order(place, rng.below(17))
        }
        1 if scene.store > 0 => {
            let k = store_place(rng, scene);
            let x = rng.pick(&[f64::NAN, f64::INFINITY, 0.0, -0.0, 1.0, 1e300, 1e-300]);
            Item::Store(k, x)
        }
        _ => odd_state(rng, scene),
    }
}

pub fn call(rng: &mut Random, scene: &Scene) -> Item {
    let which = rng.below(100);
    call_of(rng, scene, which)
}

/// The call that a number below 100 stands for.
pub fn call_of(rng: &mut Random, scene: &Scene, which: usize) -> Item {
    let n = scene.example.problem.n;
    match which {
        0..14 => Item::Zero,
        14..28 => Item::Damped(diagonal(rng, n)),
        28..42 => Item::Solve(vector(rng, n)),
        42..52 => Item::Mul,
        52..60 => {
            let norm = if rng.percent(70) {
                rng.unit().abs() * 10.0
            } else {
                rng.wild().abs()
            };
            Item::Gradient(scalar(rng, norm))
        }
        60..68 => Item::Norm(vector(rng, n)),
        68..78 => scaling_call(rng, scene),
        78..89 => search_call(rng, scene),
        89..92 => Item::Determined,
        92..94 => Item::NonSingular,
        94..99 => meddle(rng, scene),
        _ => factoring(rng, scene),
    }
}

/// More than one in twenty has at least 64 rows and 8 columns.
pub fn example(rng: &mut Random, pool: &Pool) -> Example {
    let problem = match rng.below(100) {
        0..25 => return pool.draw(rng),
        25..35 => apart::large(rng),
        35..37 => apart::swapped(rng),
        _ => problem::any(rng),
    };
    let diag = problem::scaling(rng, problem.n);
    let radius = problem::radius(rng, &problem, &diag);
    Example {
        problem,
        diag,
        radius,
        lambda: problem::lambda(rng),
    }
}

pub fn lend(rng: &mut Random, example: Example, marks: u16, items: &mut Vec<Item>) -> Scene {
    let (m, n) = (example.problem.m, example.problem.n);
    let (store, order) = (length(rng, n * n + 4 * n), length(rng, n));
    let (bench, out) = (length(rng, m * n + m), length(rng, n));
    items.push(Item::Rooms {
        store,
        order,
        bench,
        out,
        seed: rng.bits(),
    });
    Scene {
        example,
        marks,
        store,
        order,
    }
}

/// A store that nobody factored: a state is claimed over junk, with an order list that passes. Now and then it claims
/// more columns than were lent.
fn claim(rng: &mut Random, scene: &Scene, items: &mut Vec<Item>) {
    let surplus = if rng.percent(15) { 1 + rng.below(3) } else { 0 };
    let n = (scene.example.problem.n + surplus).min(16);
    for k in 0..n.min(scene.order) {
        items.push(Item::Order(k, n - 1 - k));
    }
    let held = rng.pick(&[Held::Nothing, Held::Zero, Held::Damped]);
    items.push(Item::State(State {
        m: scene.example.problem.m,
        n,
        held,
        marks: scene.marks,
    }));
}

/// The calls of a sequence; `aside` draws what comes after them.
fn calls(rng: &mut Random, pool: &Pool, aside: &mut Random) -> Vec<Item> {
    let mut items = Vec::new();
    let drawn = example(rng, pool);
    let scene = lend(rng, drawn, 0, &mut items);
    match rng.below(100) {
        0..90 => items.push(factoring(rng, &scene)),
        90..97 => claim(rng, &scene, &mut items),
        _ => {}
    }
    for _ in 0..1 + rng.below(12) {
        let repeated = rng.percent(8);
        match items.last() {
            Some(last) if repeated && !matches!(last, Item::Rooms { .. }) => {
                items.push(last.clone())
            }
            _ => items.push(call(rng, &scene)),
        }
    }
    if aside.percent(4) {
        items.append(&mut near::items(aside));
    }
    items
}

fn factoring_in_rooms(rng: &mut Random, pool: &Pool) -> Vec<Item> {
    let mut items = Vec::new();
    let drawn = example(rng, pool);
    let scene = lend(rng, drawn, 0, &mut items);
    items.push(factoring(rng, &scene));
    items
}

fn ended(mut items: Vec<Item>) -> Vec<Item> {
    items.push(Item::End);
    items
}

/// One sequence in thirteen ends with what is drawn for the ranges (02, #106); among all are questions (#105).
pub fn sequence(rng: &mut Random, pool: &Pool) -> Vec<Item> {
    let mut aside = rng.aside();
    let mut items = calls(rng, pool, &mut aside);
    if aside.percent(8) {
        items.append(&mut ranges::items(&mut aside));
    }
    make_above::among(&mut aside, ended(items))
}

/// A factoring in its rooms and nothing else; after one in twenty-five, one for the ranges in rooms of its own.
pub fn factoring_alone(rng: &mut Random, pool: &Pool) -> Vec<Item> {
    let mut aside = rng.aside();
    let mut items = factoring_in_rooms(rng, pool);
    if aside.percent(4) {
        items.append(&mut ranges::factoring(&mut aside));
    }
    ended(items)
}

/// The two without what is drawn for the ranges and without questions, which the sample has by themselves.
pub fn bare_sequence(rng: &mut Random, pool: &Pool) -> Vec<Item> {
    let mut aside = rng.aside();
    ended(calls(rng, pool, &mut aside))
}

pub fn bare_factoring(rng: &mut Random, pool: &Pool) -> Vec<Item> {
    ended(factoring_in_rooms(rng, pool))
}
