//! The kinds of problem for the runs against MINPACK: mostly m >= n, since LMPAR takes no other, and among them those that
//! reach what MINPACK reads otherwise.

use crate::engines::PLAIN;
use crate::pool::{Example, Pool};
use crate::problem::{self, Problem};
use crate::random::{Random, power_of_two};
use api::{Held, State};

/// What a search is made on: a problem to be factored, or an R that nobody factored.
pub enum Start {
    Problem(Problem),
    Claimed {
        n: usize,
        r: Vec<f64>,
        qt_b: Vec<f64>,
        order: Vec<usize>,
    },
}

pub struct Scene {
    pub start: Start,
    pub diag: Vec<f64>,
    pub radius: f64,
    pub lambda: f64,
}

fn of_problem(rng: &mut Random, problem: Problem) -> Scene {
    let diag = problem::scaling(rng, problem.n);
    Scene {
        radius: problem::radius(rng, &problem, &diag),
        diag,
        lambda: problem::lambda(rng),
        start: Start::Problem(problem),
    }
}

fn any(rng: &mut Random) -> Scene {
    let (m, n) = problem::sizes(rng);
    let wide = m < n && rng.percent(20);
    let m = if m < n && !wide { n + rng.below(5) } else { m };
    let problem = problem::sized(rng, m, n);
    of_problem(rng, problem)
}

/// Rows of zeros below, so that m is at least n.
fn tall(p: Problem) -> Problem {
    let m = p.m.max(p.n);
    let mut jacobian = Vec::new();
    for column in p.jacobian.chunks(p.m) {
        jacobian.extend_from_slice(column);
        jacobian.resize(jacobian.len() + m - p.m, 0.0);
    }
    let mut residuals = p.residuals;
    residuals.resize(m, 0.0);
    Problem {
        m,
        n: p.n,
        jacobian,
        residuals,
    }
}

fn pooled(rng: &mut Random, pool: &Pool) -> Scene {
    let Example {
        problem,
        diag,
        radius,
        lambda,
    } = pool.draw(rng);
    Scene {
        start: Start::Problem(tall(problem)),
        diag,
        radius,
        lambda,
    }
}

/// Three columns: the first takes nearly all of the second, so that 0.05*(r_diag/work)^2 is 2^-52 but for its rounding;
/// the third, all in one row, is as long as lies between what is left of the second and the estimate of it, so that the
/// order tells whether its norm was worked out anew.
pub fn near_epsmch(rows: usize, row: usize, length: f64, fortieths: f64) -> Vec<f64> {
    let second = [length, length * (fortieths * f64::EPSILON / 2.0).sqrt()];
    let norm = (second[0] * second[0] + second[1] * second[1]).sqrt();
    let cosine = second[0] / norm;
    let estimate = norm * (1.0 - cosine * cosine).max(0.0).sqrt();
    let mut jacobian = vec![0.0; 3 * rows];
    jacobian[0] = 4.0 * length;
    jacobian[rows..rows + 2].copy_from_slice(&second);
    jacobian[2 * rows + row] = (estimate + second[1]) / 2.0;
    jacobian
}

fn epsmch(rng: &mut Random) -> Scene {
    let m = 2 + rng.below(4);
    let row = 1 + rng.below(m - 1);
    let exponent = rng.between(-20, 20);
    let length = rng.scaled(exponent).abs();
    let problem = Problem {
        m,
        n: 3,
        jacobian: near_epsmch(m, row, length, 40.0 + 1.2 * rng.unit()),
        residuals: (0..m).map(|_| rng.unit()).collect(),
    };
    of_problem(rng, problem)
}

/// The products of R and the transformed residuals underflow: gnorm is zero or nearly so, and dwarf counts.
fn underflow(rng: &mut Random) -> Scene {
    let n = 1 + rng.below(3);
    let mut jacobian = vec![0.0; n * n];
    for j in 0..n {
        for i in 0..=j {
            let e = rng.between(-570, -500);
            jacobian[j * n + i] = rng.scaled(e);
        }
    }
    let level = rng.between(-570, -500);
    let residuals = (0..n).map(|_| rng.scaled(level)).collect();
    let problem = Problem {
        m: n,
        n,
        jacobian,
        residuals,
    };
    let diag: Vec<f64> = (0..n).map(|_| rng.scaled(0).abs()).collect();
    let known = rng.percent(30);
    Scene {
        radius: problem::radius(rng, &problem, &diag),
        diag,
        lambda: if known { rng.wild().abs() } else { 0.0 },
        start: Start::Problem(problem),
    }
}

/// Leads of -0.
fn leads(rng: &mut Random) -> Scene {
    let n = 1 + rng.below(4);
    let m = n + rng.below(3);
    let mut p = problem::sized(rng, m, n);
    for k in 0..m * n {
        if k % m == 0 || rng.percent(30) {
            p.jacobian[k] = rng.pick(&[-0.0, -0.0, 0.0]);
        }
    }
    of_problem(rng, p)
}

fn shuffled(rng: &mut Random, n: usize) -> Vec<usize> {
    let mut order: Vec<usize> = (0..n).collect();
    for k in (1..n).rev() {
        order.swap(k, rng.below(k + 1));
    }
    order
}

/// The undamped scaled norm of an R that nobody factored.
fn undamped(n: usize, r: &[f64], qt_b: &[f64], order: &[usize], diag: &[f64]) -> f64 {
    let state = State {
        m: n,
        n,
        held: Held::Nothing,
        marks: 0,
    };
    let mut store = [r, qt_b].concat();
    store.resize(n * n + 4 * n, 0.0);
    let run = PLAIN.run(state, &store, order, diag, f64::MAX, 0.0);
    run.map_or(1.0, |run| run.undamped_norm)
}

/// An R that no factoring gives: any order, any sizes down its diagonal, zeros of either sign there.
fn claimed(rng: &mut Random) -> Scene {
    let n = 1 + rng.below(5);
    let mut r = problem::vector(rng, n * n);
    for j in 0..n {
        if rng.percent(10) {
            r[j * n + j] = rng.pick(&[0.0, -0.0]);
        }
    }
    let (qt_b, order) = (problem::vector(rng, n), shuffled(rng, n));
    let diag = problem::scaling(rng, n);
    let factor = power_of_two(rng.between(-9, 0)) * (1.0 + 0.5 * rng.unit());
    let radius = undamped(n, &r, &qt_b, &order, &diag) * factor;
    let usable = radius.is_finite() && radius > 0.0;
    Scene {
        start: Start::Claimed { n, r, qt_b, order },
        diag,
        radius: if usable { radius } else { 1.0 },
        lambda: problem::lambda(rng),
    }
}

/// Arguments that document 01 refuses 6 or 7.
fn spoil(rng: &mut Random, scene: &mut Scene) {
    let k = rng.below(scene.diag.len());
    match rng.below(6) {
        0 => scene.radius = rng.pick(&[0.0, -0.0, -1.0]),
        1 => scene.lambda = -1.0,
        2 => scene.diag[k] = rng.pick(&[0.0, -0.0]),
        3 => scene.radius = rng.pick(&[f64::NAN, f64::INFINITY]),
        4 => scene.lambda = rng.pick(&[f64::NAN, f64::INFINITY]),
        _ => scene.diag[k] = rng.pick(&[f64::NAN, f64::INFINITY]),
    }
}

pub fn drawn(rng: &mut Random, pool: &Pool) -> Scene {
    let mut scene = match rng.below(100) {
        0..10 => claimed(rng),
        10..30 => pooled(rng, pool),
        30..34 => epsmch(rng),
        34..39 => underflow(rng),
        39..43 => leads(rng),
        _ => any(rng),
    };
    if rng.percent(2) {
        spoil(rng, &mut scene);
    }
    scene
}
