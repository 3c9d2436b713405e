//! Searches of the classes that chance seldom meets: tiny problems of extreme magnitudes, kept when the run shows
//! that they belong to a class still short of examples.

use crate::classes::{Asked, CLASSES};
use crate::engines::{PLAIN, SHOWN};
use crate::problem::{self, Problem};
use crate::random::{Random, power_of_two};

const KEPT: usize = 6;
const TRIED: usize = 400_000;

/// A problem with a search to make on it.
#[derive(Clone, Debug)]
pub struct Example {
    pub problem: Problem,
    pub diag: Vec<f64>,
    pub radius: f64,
    pub lambda: f64,
}

pub struct Pool {
    pub of_class: Vec<Vec<Example>>,
    pub tried: usize,
}

fn near(rng: &mut Random, exponent: i64, spread: i64) -> f64 {
    let e = (exponent + rng.between(-spread, spread)).clamp(-1074, 1022);
    rng.scaled(e)
}

/// Each column at a level of its own, its scaling likewise; often a triangle, so that nothing mixes levels.
fn levels(rng: &mut Random) -> Example {
    let (m, n) = rng.pick(&[(1, 1), (1, 1), (1, 2), (2, 2), (2, 2), (3, 2), (2, 3)]);
    let triangle = rng.percent(60);
    let mut jacobian = vec![0.0; m * n];
    let mut diag = vec![0.0; n];
    for j in 0..n {
        let level = rng.between(-1060, 1010);
        for i in 0..m {
            if !triangle || i <= j {
                jacobian[j * m + i] = near(rng, level, 3);
            }
        }
        let own = rng.between(-1060, 1010);
        diag[j] = near(rng, own, 3).abs();
    }
    let level = rng.between(-1060, 1010);
    let residuals = (0..m).map(|_| near(rng, level, 30)).collect();
    let lambda = if rng.percent(50) {
        0.0
    } else {
        rng.wild().abs()
    };
    Example {
        problem: Problem {
            m,
            n,
            jacobian,
            residuals,
        },
        diag,
        radius: 1.0,
        lambda,
    }
}

/// Columns that depend on each other: the undamped step is longer than the limit of the damped ones, and with no
/// lower bound the trials fall towards that limit.
fn dependent(rng: &mut Random) -> Example {
    let (m, n) = rng.pick(&[(1, 2), (1, 3), (2, 3), (1, 4), (2, 4)]);
    let jacobian = (0..m * n).map(|_| rng.between(1, 9) as f64).collect();
    let residuals = (0..m).map(|_| rng.between(-9, 9) as f64).collect();
    let lambda = if rng.percent(50) {
        0.0
    } else {
        near(rng, 0, 200).abs()
    };
    let diag = (0..n).map(|_| near(rng, 0, 20).abs()).collect();
    Example {
        problem: Problem {
            m,
            n,
            jacobian,
            residuals,
        },
        diag,
        radius: 1.0,
        lambda,
    }
}

/// Ordinary levels, scalings at the far end.
fn steep(rng: &mut Random) -> Example {
    let (m, n) = rng.pick(&[(1, 1), (2, 2), (3, 2), (3, 3), (2, 3)]);
    let jacobian = (0..m * n).map(|_| near(rng, 0, 40)).collect();
    let residuals = (0..m).map(|_| near(rng, 0, 60)).collect();
    let own = rng.between(-500, 1010);
    let diag = (0..n).map(|_| near(rng, own, 300).abs()).collect();
    let lambda = if rng.percent(30) {
        0.0
    } else {
        rng.wild().abs()
    };
    Example {
        problem: Problem {
            m,
            n,
            jacobian,
            residuals,
        },
        diag,
        radius: 1.0,
        lambda,
    }
}

/// A step of one unit in the last place there is, and a radius of nine tenths of that unit scaled: each trial raises
/// lambda by a ninth and changes nothing, until the step falls to zero. Where that is trial ten the search answers;
/// before, its correction is not finite. The zero column keeps the lower bound at zero.
fn coarse(rng: &mut Random) -> Example {
    let d = power_of_two(rng.between(100, 300));
    let (e, f) = (rng.between(200, 320), rng.between(60, 140));
    let lambda = power_of_two(e);
    let units = 1.2 + 0.1 * rng.unit();
    // The step is about j*r / (lambda*d*d).
    let r = units * (d * power_of_two(e - 1074)) * (d * power_of_two(-f));
    let problem = Problem {
        m: 1,
        n: 2,
        jacobian: vec![power_of_two(f), 0.0],
        residuals: vec![r],
    };
    let radius = (0.885 + 0.02 * rng.unit()) * d * f64::from_bits(1);
    Example {
        problem,
        diag: vec![d, 1.0],
        radius,
        lambda,
    }
}

/// Steps and radius of a few units in the last place there is: trials that end at exactly a tenth of the radius.
fn units(rng: &mut Random) -> Example {
    let d = power_of_two(rng.pick(&[0, 0, 1, 60, 100]));
    let (e, f) = (rng.between(200, 320), rng.between(20, 60));
    let lambda = power_of_two(e);
    let count = rng.pick(&[1.0, 2.0, 3.0, 4.0, 10.0, 10.0, 20.0, 30.0]);
    let r =
        count * (1.2 + 0.8 * rng.unit()) * (d * power_of_two(e - 1074)) * (d * power_of_two(-f));
    let problem = Problem {
        m: 1,
        n: 2,
        jacobian: vec![power_of_two(f), 0.0],
        residuals: vec![r],
    };
    Example {
        problem,
        diag: vec![d, 1.0],
        radius: count * d * f64::from_bits(1),
        lambda,
    }
}

/// An undamped step of eleven tenths of the radius, or just beside that.
fn eleven_tenths(rng: &mut Random) -> Example {
    let j = rng.between(1, 9) as f64;
    let k = rng.between(1, 9) as f64 * power_of_two(rng.between(-40, 40));
    let r = 11.0 * k * j;
    let residuals = vec![rng.pick(&[r, r, r.next_up(), r.next_down()])];
    let problem = Problem {
        m: 1,
        n: 1,
        jacobian: vec![j],
        residuals,
    };
    Example {
        problem,
        diag: vec![1.0],
        radius: 10.0 * k,
        lambda: 0.0,
    }
}

fn candidate(rng: &mut Random) -> Example {
    let mut example = match rng.below(20) {
        0..6 => levels(rng),
        6..11 => dependent(rng),
        11..17 => steep(rng),
        17 => return coarse(rng),
        18 => return units(rng),
        _ => return eleven_tenths(rng),
    };
    example.radius = if rng.percent(20) {
        rng.wild().abs()
    } else {
        problem::radius(rng, &example.problem, &example.diag)
    };
    example
}

/// By either working, so that a slip in one of them does not keep away the examples that would show it.
fn classes_of(example: &Example) -> Vec<usize> {
    let f = problem::factored(&example.problem);
    let Example {
        diag,
        radius,
        lambda,
        ..
    } = example;
    let asked = Asked {
        state: f.state,
        store: &f.store,
        order: &f.order,
        diag,
        radius: *radius,
        lambda: *lambda,
    };
    let mut found = asked.classes(SHOWN);
    found.extend(asked.classes(PLAIN));
    found.sort_unstable();
    found.dedup();
    found
}

impl Pool {
    pub fn hunt(seed: u64) -> Pool {
        let mut rng = Random::new(seed ^ 0x706F_6F6C);
        let mut pool = Pool {
            of_class: vec![Vec::new(); CLASSES.len()],
            tried: 0,
        };
        while pool.tried < TRIED && pool.of_class.iter().any(|kept| kept.len() < KEPT) {
            pool.tried += 1;
            let example = candidate(&mut rng);
            for class in classes_of(&example) {
                if pool.of_class[class].len() < KEPT {
                    pool.of_class[class].push(example.clone());
                }
            }
        }
        pool
    }

    /// An example of a class taken in turn at random, as it is or with a few bits of one number changed.
    pub fn draw(&self, rng: &mut Random) -> Example {
        let filled: Vec<&Vec<Example>> = self
            .of_class
            .iter()
            .filter(|kept| !kept.is_empty())
            .collect();
        let kept = filled[rng.below(filled.len())];
        let mut example = kept[rng.below(kept.len())].clone();
        if rng.percent(50) {
            let k = rng.below(example.problem.residuals.len());
            let x = &mut example.problem.residuals[k];
            *x = f64::from_bits(x.to_bits() ^ (rng.bits() & 0xFFFF));
        }
        example
    }
}
