//! Problems as scripts, and norms as leaf vectors.

use super::scene::{Scene, Start, drawn};
use crate::engines::SHOWN;
use crate::leaf::Leaf;
use crate::make_leaves;
use crate::pool::Pool;
use crate::problem;
use crate::random::Random;
use crate::script::{self, Item};
use api::{Held, State};
use std::io::{self, Write};

/// A diagonal for a damped solve: as LMPAR makes one, or any, with zeros.
fn damping(rng: &mut Random, scene: &Scene) -> Vec<f64> {
    if rng.percent(40) && scene.diag.iter().all(|d| d.is_finite()) {
        let root = rng.unit().abs().sqrt();
        return scene.diag.iter().map(|d| root * d).collect();
    }
    let mut v = problem::vector(rng, scene.diag.len());
    for x in &mut v {
        if rng.percent(15) {
            *x = rng.pick(&[0.0, -0.0]);
        }
    }
    v
}

/// Rooms of the least lengths, and what stands in them before the solves.
fn opened(start: &Start, seed: u64) -> Vec<Item> {
    let (m, n) = match start {
        Start::Problem(p) => (p.m, p.n),
        Start::Claimed { n, .. } => (*n, *n),
    };
    let mut items = vec![Item::Rooms {
        store: n * n + 4 * n,
        order: n,
        bench: m * n + m,
        out: n,
        seed,
    }];
    match start {
        Start::Problem(p) => items.push(Item::Factor {
            m,
            n,
            marks: 0,
            jacobian: p.jacobian.clone(),
            residuals: p.residuals.clone(),
        }),
        Start::Claimed { r, qt_b, order, .. } => {
            let held = Held::Nothing;
            items.push(Item::State(State {
                m,
                n,
                held,
                marks: 0,
            }));
            items.extend((0..n).map(|k| Item::Order(k, order[k])));
            let cells = r.iter().chain(qt_b).enumerate();
            items.extend(cells.map(|(k, x)| Item::Store(k, *x)));
        }
    }
    items
}

/// A scene as one case: what stands in the rooms, a damped solve, a search.
pub fn case(scene: Scene, diagonal: Vec<f64>, seed: u64) -> String {
    let mut items = opened(&scene.start, seed);
    items.push(Item::Damped(diagonal));
    items.push(Item::Search {
        diag: scene.diag,
        radius: scene.radius,
        lambda: scene.lambda,
    });
    items.push(Item::End);
    let mut text = String::new();
    items.iter().for_each(|item| script::write(item, &mut text));
    text
}

pub fn problems(count: u64, seed: u64, out: &mut dyn Write) -> io::Result<()> {
    let pool = Pool::hunt(seed);
    let mut rng = Random::new(seed ^ 0x6C6D_7061);
    for _ in 0..count {
        let scene = drawn(&mut rng, &pool);
        let diagonal = damping(&mut rng, &scene);
        out.write_all(case(scene, diagonal, rng.bits()).as_bytes())?;
    }
    Ok(())
}

/// The fixed norms of the leaf vectors, then COUNT random ones.
pub fn norms(count: u64, seed: u64, out: &mut dyn Write) -> io::Result<()> {
    let mut rng = Random::new(seed ^ 0x656E_6F72);
    let random = std::iter::from_fn(|| Some(make_leaves::random(&mut rng)));
    let is_norm = |leaf: &Leaf| matches!(leaf, Leaf::Enorm(_));
    let fixed = make_leaves::edges().into_iter().filter(is_norm);
    for leaf in fixed.chain(random.filter(is_norm).take(count as usize)) {
        writeln!(out, "{}", leaf.line(SHOWN))?;
    }
    Ok(())
}
