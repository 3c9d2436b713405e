//! Random Jacobians and residuals, of the kinds that the algorithm takes apart.

use crate::engines::PLAIN;
use crate::random::Random;
use api::{EMPTY, State};

#[derive(Clone, Debug)]
pub struct Problem {
    pub m: usize,
    pub n: usize,
    pub jacobian: Vec<f64>,
    pub residuals: Vec<f64>,
}

/// How numbers are drawn.
#[derive(Clone, Copy)]
enum Kind {
    Whole,
    Unit,
    /// All about the same power of two.
    Level(i64),
    Wild,
}

impl Kind {
    fn any(rng: &mut Random) -> Kind {
        match rng.below(100) {
            0..35 => Kind::Whole,
            35..65 => Kind::Unit,
            65..90 => Kind::Level(rng.between(-1060, 1000)),
            _ => Kind::Wild,
        }
    }

    fn draw(self, rng: &mut Random) -> f64 {
        match self {
            Kind::Whole => rng.between(-9, 9) as f64,
            Kind::Unit => rng.unit(),
            Kind::Level(exponent) => {
                let e = exponent + rng.between(-12, 12);
                rng.scaled(e)
            }
            Kind::Wild => rng.wild(),
        }
    }
}

pub fn up_to(rng: &mut Random, k: usize) -> usize {
    1 + rng.below(k)
}

/// Small mostly; m < n and the largest sizes among them.
pub fn sizes(rng: &mut Random) -> (usize, usize) {
    if rng.below(400) == 0 {
        return (128, 16);
    }
    let n = match rng.below(1000) {
        0..500 => up_to(rng, 3),
        500..850 => up_to(rng, 5),
        850..975 => up_to(rng, 8),
        975..990 => up_to(rng, 16),
        _ => 16,
    };
    let m = match rng.below(1000) {
        0..150 => up_to(rng, n),
        150..800 => n + rng.below(5),
        800..975 => up_to(rng, 12),
        975..990 => up_to(rng, 40),
        990..996 => up_to(rng, 128),
        _ => 128,
    };
    (m, n)
}

pub fn column(problem: &mut Problem, j: usize) -> &mut [f64] {
    &mut problem.jacobian[j * problem.m..(j + 1) * problem.m]
}

/// A second column so near the first that 0.05*(r_diag/work)^2 comes out just beside epsmch (no double gives it itself);
/// and a third as long as what is left of it, so that the order tells whether its norm was worked out anew.
fn partial_norm_edge(rng: &mut Random, problem: &mut Problem) {
    let half = f64::EPSILON / 2.0;
    let k = rng.between(18, 22) as f64;
    let scale = crate::random::power_of_two(rng.between(-30, 30));
    problem.jacobian.fill(0.0);
    column(problem, 0)[0] = 4.0 * scale;
    let near = column(problem, 1);
    near[0] = (1.0 - k * half) * scale;
    let left = ((2.0 * k + rng.between(-2, 2) as f64) * half).sqrt() * scale;
    near[1] = left;
    if problem.m > 2 && problem.n > 2 {
        column(problem, 2)[2] = left;
    }
}

/// Columns near one axis whose remainders are of the same length: the last bit of a partial norm, and so whether and
/// against what it was renewed, decides the order.
fn near_ties(rng: &mut Random, problem: &mut Problem) {
    let small = crate::random::power_of_two(rng.between(-34, -20));
    let legs = [
        [3.0, 4.0, 0.0],
        [4.0, 3.0, 0.0],
        [0.0, 3.0, 4.0],
        [3.0, 0.0, -4.0],
        [1.0, 2.0, 2.0],
        [2.0, -1.0, 2.0],
    ];
    problem.jacobian.fill(0.0);
    for j in 0..problem.n {
        let lengths = rng.pick(&legs);
        let factor = rng.pick(&[1.0, 1.0, 0.6, 5.0 / 3.0]) * small;
        let column = column(problem, j);
        column[0] = 1.0;
        for i in 1..4 {
            column[i] = lengths[i - 1] * factor;
        }
    }
    column(problem, 0)[0] = rng.pick(&[1.0, 2.0, 4.0]);
}

/// Rank-deficient and zero columns, signed zeros, columns far apart in size.
fn spoil(rng: &mut Random, problem: &mut Problem) {
    let n = problem.n;
    let j = rng.below(n);
    match rng.below(100) {
        0..15 => {
            let k = rng.below(n);
            let factor = rng.pick(&[1.0, -1.0, 2.0, 0.5, 3.0]);
            let copy: Vec<f64> = column(problem, k).iter().map(|x| x * factor).collect();
            column(problem, j).copy_from_slice(&copy);
        }
        15..25 => {
            let zero = rng.pick(&[0.0, -0.0]);
            column(problem, j).fill(zero);
        }
        25..40 => {
            for k in 0..problem.jacobian.len() {
                if rng.percent(40) {
                    problem.jacobian[k] = rng.pick(&[0.0, -0.0]);
                }
            }
        }
        40..50 => {
            for j in 0..n {
                let factor = crate::random::power_of_two(rng.between(-60, 60));
                for x in column(problem, j) {
                    *x *= factor;
                }
            }
        }
        50..53 => problem.jacobian.fill(0.0),
        53..55 => {
            for x in problem.jacobian.iter_mut().take(3) {
                *x = rng.pick(&[f64::MAX, -f64::MAX, 1e308]);
            }
        }
        55..57 if problem.m > 1 && n > 1 => partial_norm_edge(rng, problem),
        57..60 if problem.m > 3 && n > 2 => near_ties(rng, problem),
        60..63 => {
            for k in 0..problem.jacobian.len() {
                problem.jacobian[k] = ((k % problem.m + 1) * (k / problem.m + 1)) as f64;
            }
        }
        _ => {}
    }
}

fn keep_finite(v: &mut [f64]) {
    for x in v {
        if !x.is_finite() {
            *x = f64::MAX.copysign(*x);
        }
    }
}

pub fn sized(rng: &mut Random, m: usize, n: usize) -> Problem {
    let kind = Kind::any(rng);
    let jacobian = (0..m * n).map(|_| kind.draw(rng)).collect();
    let other = if rng.percent(60) {
        kind
    } else {
        Kind::any(rng)
    };
    let residuals = (0..m).map(|_| other.draw(rng)).collect();
    let mut problem = Problem {
        m,
        n,
        jacobian,
        residuals,
    };
    spoil(rng, &mut problem);
    if rng.percent(5) {
        problem.residuals[rng.below(m)] = rng.pick(&[0.0, -0.0]);
    }
    keep_finite(&mut problem.jacobian);
    problem
}

pub fn any(rng: &mut Random) -> Problem {
    let (m, n) = sizes(rng);
    sized(rng, m, n)
}

pub fn vector(rng: &mut Random, len: usize) -> Vec<f64> {
    let kind = Kind::any(rng);
    (0..len).map(|_| kind.draw(rng)).collect()
}

/// A scaling that a search accepts.
pub fn scaling(rng: &mut Random, n: usize) -> Vec<f64> {
    if rng.percent(30) {
        return vec![1.0; n];
    }
    let mut v = vector(rng, n);
    let signed = rng.percent(10);
    for x in &mut v {
        if *x == 0.0 {
            *x = 1.0;
        }
        if !signed {
            *x = x.abs();
        }
    }
    v
}

pub fn lambda(rng: &mut Random) -> f64 {
    match rng.below(100) {
        0..50 => 0.0,
        50..55 => -0.0,
        55..80 => rng.unit().abs(),
        80..90 => rng.between(1, 1000) as f64,
        _ => rng.wild().abs(),
    }
}

/// A factored problem in rooms of exact lengths.
pub struct Factored {
    pub state: State,
    pub store: Vec<f64>,
    pub order: Vec<usize>,
}

pub fn factored(p: &Problem) -> Factored {
    let mut made = Factored {
        state: EMPTY,
        store: vec![0.0; p.n * p.n + 4 * p.n],
        order: vec![0; p.n],
    };
    let mut bench = vec![0.0; p.m * p.n + p.m];
    let Factored { store, order, .. } = &mut made;
    let (_, state) = PLAIN.factor(
        p.m,
        p.n,
        0,
        &p.jacobian,
        &p.residuals,
        store,
        order,
        &mut bench,
    );
    made.state = state;
    made
}

/// A radius near the undamped scaled norm, so that the search has something to do; any radius where there is none.
pub fn radius(rng: &mut Random, p: &Problem, diag: &[f64]) -> f64 {
    if rng.percent(10) {
        return rng.wild().abs();
    }
    let f = factored(p);
    let norm = match PLAIN.run(f.state, &f.store, &f.order, diag, f64::MAX, 0.0) {
        Some(run) => run.undamped_norm,
        None => 1.0,
    };
    let factor = match rng.below(100) {
        0..30 => 1.0 + 0.5 * rng.unit(),
        30..60 => 0.5 + 0.4 * rng.unit(),
        60..85 => crate::random::power_of_two(rng.between(-12, 0)),
        _ => crate::random::power_of_two(rng.between(-600, 40)),
    };
    let radius = norm * factor;
    if radius.is_finite() && radius > 0.0 {
        radius
    } else {
        1.0
    }
}
