//! Problems at the limits of the norm's ranges (02, #106): what chance seldom makes, drawn aside so that the other cases
//! stay what they are.

use crate::near::lent;
use crate::problem::{self, Problem, column};
use crate::random::{Random, power_of_two};
use crate::script::{Item, mode_of};

const RDWARF: f64 = 3.834e-20;
const RGIANT: f64 = 1.304e19;

fn sign(rng: &mut Random) -> f64 {
    rng.pick(&[1.0, -1.0])
}

/// From `low` up to `high`.
fn among(rng: &mut Random, low: f64, high: f64) -> f64 {
    low + (high - low) * (rng.unit() + 1.0) / 2.0
}

fn numbered(m: usize, n: usize, rng: &mut Random) -> Problem {
    Problem {
        m,
        n,
        jacobian: vec![0.0; m * n],
        residuals: (0..m).map(|_| rng.unit()).collect(),
    }
}

/// No entry of a column is large, but the reflections gather several into one: what is left of a column may have a large
/// one, by the limit of its own length or by that of m alone. The first column is the longest and has next to nothing in
/// its first row; a column is gathered where it is against that one in all rows but one.
fn gathered(rng: &mut Random) -> Problem {
    let (m, n) = (4 + rng.below(3), 2 + rng.below(3));
    let mut problem = numbered(m, n, rng);
    let most = RGIANT / m as f64;
    let signs: Vec<f64> = (0..m).map(|_| sign(rng)).collect();
    for j in 0..n {
        let (against, but) = (rng.percent(50), 1 + rng.below(m - 1));
        let share = if against {
            among(rng, 0.5, 0.8)
        } else {
            among(rng, 0.7, 0.86)
        };
        for (i, sign_of_row) in signs.iter().enumerate() {
            let x = match j {
                0 if i == 0 => 0.02,
                0 => 0.999,
                _ if against && i != but => -share,
                _ if against => share,
                _ => sign(rng) * share,
            };
            column(&mut problem, j)[i] = x * sign_of_row * most;
        }
    }
    problem
}

/// Columns of tenths of thousandths, most of which are multiples of the first but for their rounding: what a reflection
/// leaves of these is small though no entry was. What is put into the last row, where the first has mostly nothing,
/// decides whether a norm is worked out anew.
fn left_over(rng: &mut Random) -> Problem {
    let (m, n) = rng.pick(&[(2, 2), (2, 3), (3, 2), (3, 3), (3, 4), (4, 3)]);
    let mut problem = numbered(m, n, rng);
    let unit = rng.pick(&[1e-4, 2e-4, 3e-5]);
    let whole = |rng: &mut Random| sign(rng) * rng.between(1, 7) as f64 * unit;
    let mut first: Vec<f64> = (0..m).map(|_| whole(rng)).collect();
    if m > 2 && rng.percent(85) {
        first[m - 1] = 0.0;
    }
    column(&mut problem, 0).copy_from_slice(&first);
    for j in 1..n {
        let by = rng.pick(&[-2.0 / 7.0, 1.0 / 3.0, 0.7]);
        let multiple = rng.percent(65);
        let apart = rng.pick(&[0.0, 1e-9, 1e-5, 1e-5]);
        for (i, x) in first.iter().enumerate() {
            let of = if multiple { *x } else { whole(rng) };
            column(&mut problem, j)[i] = of * by;
        }
        column(&mut problem, j)[m - 1] += apart;
    }
    problem
}

/// A number at a limit of a norm of so many entries, or beside it; a zero; one of no range in particular.
fn limit(rng: &mut Random, length: usize) -> f64 {
    let agiant = RGIANT / length as f64;
    let at = rng.pick(&[RDWARF, agiant]);
    let x = rng.pick(&[
        at,
        at.next_up(),
        at.next_down(),
        0.0,
        1.0,
        4e18,
        1e20,
        1e-25,
        f64::from_bits(1),
    ]);
    sign(rng) * x
}

/// Numbers at the limits, mostly one among zeros.
fn limits(rng: &mut Random, length: usize) -> Vec<f64> {
    let full = rng.percent(30);
    let mut v: Vec<f64> = (0..length).map(|_| sign(rng) * 0.0).collect();
    let one = rng.below(length);
    for k in (0..length).filter(|k| full || *k == one) {
        v[k] = limit(rng, length);
    }
    v
}

/// A diagonal of ones takes what it is given to the norms as it is.
fn as_it_is(rng: &mut Random, items: &mut Vec<Item>) {
    let n = 1 + rng.below(4);
    let mut problem = numbered(n, n, rng);
    (0..n).for_each(|j| problem.jacobian[j * n + j] = 1.0);
    if rng.percent(30) {
        let j = rng.below(n);
        let limits = limits(rng, n);
        column(&mut problem, j).copy_from_slice(&limits);
    }
    push(rng, &problem, items);
    items.push(Item::Norm(limits(rng, n)));
    for k in [rng.below(2), 2 + rng.below(2)] {
        let x = limits(rng, n);
        items.push(scaling(rng, k, x));
    }
}

pub fn scaling(rng: &mut Random, mode: usize, x: Vec<f64>) -> Item {
    Item::Scale {
        mode: mode_of(mode),
        diag: (0..x.len()).map(|_| rng.pick(&[1.0, 2.0])).collect(),
        x,
        step_bound: rng.pick(&[0.1, 1.0, 100.0]),
    }
}

fn push(rng: &mut Random, problem: &Problem, items: &mut Vec<Item>) {
    items.push(lent(rng, problem.m, problem.n));
    items.push(Item::Factor {
        m: problem.m,
        n: problem.n,
        marks: 0,
        jacobian: problem.jacobian.clone(),
        residuals: problem.residuals.clone(),
    });
}

/// A search whose scaled step turns with lambda: of the two directions that J has, one is weak and is damped away first.
/// `parts` are the undamped step's along the weak and the strong one; the strong one is `(-sine, cosine)`.
struct Turning {
    sine: f64,
    parts: [f64; 2],
    strong: f64,
    radius: f64,
    lambda: f64,
}

impl Turning {
    fn items(&self, rng: &mut Random, items: &mut Vec<Item>) {
        let cosine = (1.0 - self.sine * self.sine).sqrt();
        let gains = [self.strong / 1024.0, self.strong];
        let diag = [0, 1].map(|_| power_of_two(rng.between(-3, 3)));
        let column = |lead: f64, other: f64, d: f64| [gains[0] * lead * d, gains[1] * other * d];
        let problem = Problem {
            m: 2,
            n: 2,
            jacobian: [
                column(cosine, -self.sine, diag[0]),
                column(self.sine, cosine, diag[1]),
            ]
            .concat(),
            residuals: vec![gains[0] * self.parts[0], gains[1] * self.parts[1]],
        };
        push(rng, &problem, items);
        items.push(Item::Search {
            diag: diag.to_vec(),
            radius: self.radius,
            lambda: self.lambda * self.strong * self.strong,
        });
    }
}

/// The second entry is large once the weak part is damped away: in the first trial, or in the last.
fn large_later(rng: &mut Random) -> Turning {
    let (agiant, sine) = (RGIANT / 2.0, among(rng, 0.45, 0.55));
    let cosine = (1.0 - sine * sine).sqrt();
    let strong = agiant * among(rng, 1.002, 1.01) / cosine;
    Turning {
        sine,
        parts: [-among(rng, 0.35, 0.42) * agiant, strong],
        strong: power_of_two(rng.between(-20, -6)),
        radius: agiant * rng.pick(&[0.5, 0.9, 1.06, 1.1]),
        lambda: rng.pick(&[0.0, 2e-4, 1e-3]),
    }
}

/// The second entry is small as long as nothing is damped, or at the first lambda.
fn small_first(rng: &mut Random) -> Turning {
    let (sine, strong) = (among(rng, 0.3, 0.7), among(rng, 1e-19, 4e-18));
    let cosine = (1.0 - sine * sine).sqrt();
    let second = rng.unit() * rng.pick(&[0.9, 0.9, 4.0]) * RDWARF;
    Turning {
        sine,
        parts: [(second - strong * cosine) / sine, strong],
        strong: power_of_two(rng.between(8, 20)),
        radius: strong * among(rng, 0.3, 1.2),
        lambda: rng.pick(&[0.0, 1e-7, 1e-3]),
    }
}

/// One row, one column. The first lambda is taken down to the upper bound, and its step is shorter than the radius by more
/// than a tenth: small where the radius is not. Or the undamped step is large where the radius is not.
fn single(rng: &mut Random, items: &mut Vec<Item>) {
    let small = rng.percent(60);
    let (j, limit) = if small { (1.0, RDWARF) } else { (1e-3, RGIANT) };
    let radius = limit
        * if small {
            among(rng, 1.0, 1.6)
        } else {
            among(rng, 0.3, 0.8)
        };
    let step = radius * among(rng, 1.2, 2.5);
    let problem = Problem {
        m: 1,
        n: 1,
        jacobian: vec![j],
        residuals: vec![sign(rng) * step * j],
    };
    push(rng, &problem, items);
    items.push(Item::Search {
        diag: vec![1.0],
        radius,
        lambda: rng.pick(&[0.0, 3.0, 1e3]),
    });
}

/// The damping of the second column is rounded to zero, and the held solve divides by it.
fn divided_by_zero(rng: &mut Random, items: &mut Vec<Item>) {
    let tiny = [0, 1].map(|_| power_of_two(rng.between(-1074, -1050)));
    let problem = Problem {
        m: 1,
        n: 2,
        jacobian: vec![1.0, tiny[0]],
        residuals: vec![among(rng, 1.5, 4.0)],
    };
    push(rng, &problem, items);
    items.push(Item::Search {
        diag: vec![1.0, tiny[1]],
        radius: 1.0,
        lambda: power_of_two(rng.between(-1000, -100)),
    });
}

fn factored(rng: &mut Random, problem: &Problem, items: &mut Vec<Item>) {
    push(rng, problem, items);
    let diag = problem::scaling(rng, problem.n);
    let radius = problem::radius(rng, problem, &diag);
    items.push(Item::Search {
        diag,
        radius,
        lambda: 0.0,
    });
}

/// A factoring alone.
pub fn factoring(rng: &mut Random) -> Vec<Item> {
    let problem = if rng.percent(40) {
        gathered(rng)
    } else {
        left_over(rng)
    };
    let mut items = Vec::new();
    push(rng, &problem, &mut items);
    items
}

pub fn items(rng: &mut Random) -> Vec<Item> {
    let mut items = Vec::new();
    match rng.below(10) {
        0 | 1 => {
            let problem = gathered(rng);
            factored(rng, &problem, &mut items);
        }
        2 | 3 => {
            let problem = left_over(rng);
            factored(rng, &problem, &mut items);
        }
        4 => as_it_is(rng, &mut items),
        5 | 6 => large_later(rng).items(rng, &mut items),
        7 => small_first(rng).items(rng, &mut items),
        8 => single(rng, &mut items),
        _ => divided_by_zero(rng, &mut items),
    }
    items
}
