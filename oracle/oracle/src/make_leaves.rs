//! Leaf vectors: a fixed list of edge cases first, then random ones.

use crate::leaf::Leaf;
use crate::make_norms::{norms, ranges};
use crate::make_roots::{hard_roots, roots};
use crate::problem;
use crate::random::Random;

pub const RDWARF: f64 = 3.834e-20;
pub const RGIANT: f64 = 1.304e19;
pub const TINY: f64 = f64::from_bits(1);

pub fn around(x: f64) -> [f64; 3] {
    [x.next_down(), x, x.next_up()]
}

fn special() -> Vec<f64> {
    let mut v = vec![
        0.0,
        1.0,
        2.0,
        3.0,
        0.1,
        0.5,
        TINY,
        2.0 * TINY,
        f64::MIN_POSITIVE,
        f64::MIN_POSITIVE.next_down(),
    ];
    v.extend([
        f64::MAX,
        f64::INFINITY,
        f64::EPSILON,
        1.0 + f64::EPSILON,
        1.0 - f64::EPSILON / 2.0,
    ]);
    v.extend(around(RDWARF));
    v.extend(around(RGIANT));
    let negated: Vec<f64> = v.iter().map(|x| -x).collect();
    v.extend(negated);
    v.push(f64::NAN);
    v
}

fn scalars(out: &mut Vec<Leaf>) {
    for a in special() {
        out.extend([
            Leaf::Abs(a),
            Leaf::Negative(a),
            Leaf::Finite(a),
            Leaf::Square(a),
            Leaf::Sqrt(a),
        ]);
        for b in special() {
            out.extend([Leaf::Max(a, b), Leaf::Min(a, b)]);
        }
    }
    for x in [
        1e154, 1.34e154, 1.35e154, 1e-154, 1.5e-162, 2.2e-162, 1e-170,
    ] {
        out.push(Leaf::Square(x));
    }
}

fn pairs(out: &mut Vec<Leaf>) {
    let v: [&[f64]; 8] = [
        &[],
        &[-0.0],
        &[1.0, 2.0],
        &[0.0, f64::INFINITY],
        &[f64::NAN, 1.0],
        &[f64::MAX, -f64::MAX],
        &[TINY, 0.5, -3.0],
        &[1e16, 1.0, -1e16],
    ];
    for a in v {
        for b in v {
            out.push(Leaf::Dot(a.to_vec(), b.to_vec()));
            for factor in [1.0, -0.0, -2.5, f64::INFINITY, f64::NAN, TINY] {
                out.push(Leaf::Axpy(factor, a.to_vec(), b.to_vec()));
                out.push(Leaf::AxpyZero(factor, a.to_vec(), b.to_vec()));
            }
        }
    }
    for len in [127, 128, 129, 200] {
        out.push(Leaf::Dot(vec![0.1; len], vec![0.3; len]));
        out.push(Leaf::Axpy(0.1, vec![0.3; len], vec![-0.7; len]));
    }
}

fn largest(out: &mut Vec<Leaf>) {
    let nan = f64::NAN;
    let v: [&[f64]; 12] = [
        &[],
        &[nan],
        &[1.0],
        &[3.0, 3.0],
        &[1.0, 2.0, 2.0],
        &[nan, 5.0],
        &[1.0, nan, 5.0],
        &[5.0, nan, 1.0],
        &[0.0, -0.0],
        &[-0.0, 0.0],
        &[-1.0, f64::NEG_INFINITY],
        &[1.0, f64::INFINITY, f64::INFINITY],
    ];
    out.extend(v.map(|v| Leaf::Imax(v.to_vec())));
    for len in [128, 129, 300] {
        out.push(Leaf::Imax((0..len).map(f64::from).collect()));
    }
}

fn triangles(out: &mut Vec<Leaf>) {
    let r: Vec<f64> = (0..30).map(|k| f64::from(k * 7 % 11) - 4.0).collect();
    for (apart, n, rlen, xlen) in [
        (0, 0, 0, 0),
        (3, 0, 0, 2),
        (1, 1, 1, 1),
        (3, 3, 9, 3),
        (3, 3, 12, 5),
        (5, 3, 15, 3),
        (5, 3, 14, 3),
        (5, 3, 13, 3),
        (3, 3, 8, 3),
        (3, 3, 9, 2),
        (2, 3, 9, 3),
        (usize::MAX, 2, 9, 3),
        (usize::MAX, 1, 9, 3),
        (5, 5, 25, 7),
    ] {
        out.push(Leaf::Upper {
            apart,
            n,
            r: r[..rlen].to_vec(),
            x: r[4..4 + xlen].to_vec(),
        });
    }
    for odd in [0.0, -0.0, f64::NAN, f64::INFINITY, TINY, f64::MAX] {
        out.push(Leaf::Upper {
            apart: 2,
            n: 2,
            r: vec![2.0, 9.0, 1.0, odd],
            x: vec![1.0, 3.0],
        });
        out.push(Leaf::Upper {
            apart: 2,
            n: 2,
            r: vec![odd, 9.0, 1.0, 3.0],
            x: vec![1.0, 3.0, 7.0],
        });
    }
}

pub fn edges() -> Vec<Leaf> {
    let mut out = Vec::new();
    scalars(&mut out);
    roots(&mut out);
    hard_roots(&mut out);
    pairs(&mut out);
    largest(&mut out);
    norms(&mut out);
    triangles(&mut out);
    ranges(&mut out);
    out
}

fn number(rng: &mut Random) -> f64 {
    let special = special();
    match rng.below(20) {
        0 => rng.pick(&special),
        1..8 => rng.wild(),
        8..14 => rng.unit(),
        _ => crate::text::canonical(f64::from_bits(rng.bits())),
    }
}

fn numbers(rng: &mut Random) -> Vec<f64> {
    let len = match rng.below(100) {
        0..90 => rng.below(12),
        90..97 => rng.below(40),
        _ => 120 + rng.below(12),
    };
    if rng.percent(60) {
        problem::vector(rng, len)
    } else {
        (0..len).map(|_| number(rng)).collect()
    }
}

/// Mostly as long as the first.
fn second(rng: &mut Random, first: &[f64]) -> Vec<f64> {
    let mut v = numbers(rng);
    if rng.percent(95) {
        v.resize_with(first.len(), || rng.unit());
    }
    v
}

fn triangle(rng: &mut Random) -> Leaf {
    let n = rng.below(8);
    let apart = n + rng.below(3);
    let short = usize::from(rng.percent(5));
    let rlen = (apart * n).saturating_sub(short) + rng.below(2);
    let xlen = n + rng.below(2);
    let x = problem::vector(rng, xlen);
    Leaf::Upper {
        apart,
        n,
        r: problem::vector(rng, rlen),
        x,
    }
}

pub fn random(rng: &mut Random) -> Leaf {
    match rng.below(20) {
        0 => Leaf::Abs(number(rng)),
        1 => Leaf::Negative(number(rng)),
        2 => Leaf::Finite(number(rng)),
        3 => Leaf::Max(number(rng), number(rng)),
        4 => Leaf::Min(number(rng), number(rng)),
        5 => Leaf::Square(number(rng)),
        6..11 => Leaf::Sqrt(number(rng).abs()),
        11..13 => {
            let a = numbers(rng);
            let b = second(rng, &a);
            Leaf::Dot(a, b)
        }
        op @ 13..15 => {
            let (a, x) = (number(rng), numbers(rng));
            let y = second(rng, &x);
            if op == 13 {
                Leaf::Axpy(a, x, y)
            } else {
                Leaf::AxpyZero(a, x, y)
            }
        }
        15 => Leaf::Imax(numbers(rng)),
        16..19 => Leaf::Enorm(numbers(rng)),
        _ => triangle(rng),
    }
}
