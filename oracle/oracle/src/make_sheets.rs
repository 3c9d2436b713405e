//! Random job sheets, good and bad.

use crate::pool::{Example, Pool};
use crate::problem;
use crate::random::Random;
use crate::sheets::Fields;

const BAD: [f64; 5] = [
    f64::NAN,
    f64::INFINITY,
    f64::NEG_INFINITY,
    f64::NAN,
    f64::INFINITY,
];

fn example(rng: &mut Random) -> Example {
    let problem = problem::any(rng);
    let diag = problem::scaling(rng, problem.n);
    let radius = problem::radius(rng, &problem, &diag);
    Example {
        problem,
        diag,
        radius,
        lambda: problem::lambda(rng),
    }
}

fn call_one(rng: &mut Random, pool: &Pool) -> Fields {
    let e = if rng.percent(20) {
        pool.draw(rng)
    } else {
        example(rng)
    };
    Fields::of_example(&e)
}

/// Parameters now and then so small or so large that the radius is rounded to zero or is not finite.
fn call_two(rng: &mut Random) -> Fields {
    let p = problem::any(rng);
    let mut x = problem::vector(rng, p.n);
    if rng.percent(5) {
        x.fill(0.0);
    }
    let bound = match rng.below(10) {
        0..6 => 100.0,
        6..8 => crate::random::power_of_two(rng.between(-20, 20)),
        _ => rng.wild().abs(),
    };
    let doubles = [&p.jacobian[..], &p.residuals, &x, &[bound]].concat();
    Fields {
        version: 1,
        call: 2,
        m: p.m,
        n: p.n,
        doubles,
    }
}

/// One defect in the fields; two or three together show the order of the tests.
fn spoil_fields(rng: &mut Random, f: &mut Fields) {
    let len = f.doubles.len();
    match rng.below(9) {
        0 => f.version = rng.pick(&[0, 2, 9, 15]),
        1 => f.call = rng.pick(&[0, 3, 8, 15]),
        2 => f.m = rng.pick(&[0, 129, 1023, f.m | 128, f.m | 256, f.m | 512]),
        3 => f.n = rng.pick(&[0, 17, 63, f.n | 16, f.n | 32]),
        4 => f.doubles[rng.below(len)] = rng.pick(&BAD),
        5 => f.doubles[len - 2] = rng.pick(&[0.0, -0.0, -1.0]),
        6 => f.doubles[len - 1] = rng.pick(&[0.0, -0.0, -1.0, -5e-324]),
        7 => f.doubles[len - 1 - rng.below(f.n.min(len - 1) + 1)] = rng.pick(&[0.0, -0.0]),
        _ => f.doubles[..2].fill(f64::MAX),
    }
}

fn spoil_length(rng: &mut Random, bytes: &mut Vec<u8>) {
    match rng.below(4) {
        0 => bytes.truncate(rng.below(4)),
        1 => bytes.truncate(bytes.len() - 1 - rng.below(8).min(bytes.len() - 1)),
        2 => bytes.extend(vec![0; 1 + rng.below(9)]),
        _ => bytes.truncate(rng.below(bytes.len())),
    }
}

pub fn sheet(rng: &mut Random, pool: &Pool) -> Vec<u8> {
    let mut fields = if rng.percent(70) {
        call_one(rng, pool)
    } else {
        call_two(rng)
    };
    if rng.percent(12) {
        for _ in 0..1 + rng.below(3) {
            spoil_fields(rng, &mut fields);
        }
    }
    let mut bytes = fields.bytes();
    if rng.percent(2) {
        spoil_length(rng, &mut bytes);
    }
    bytes
}
