//! Small problems, the smallest first, in which to look for the first of each class.

use super::make::case;
use super::scene::{Scene, Start, near_epsmch};
use crate::problem::Problem;
use crate::random::power_of_two as p;
use std::io::{self, Write};

/// One case; the damped solve takes the scaling for its diagonal.
struct Tiny<'a> {
    m: usize,
    n: usize,
    jacobian: &'a [f64],
    residuals: &'a [f64],
    diag: &'a [f64],
    radius: f64,
    lambda: f64,
}

impl Tiny<'_> {
    fn write(&self, out: &mut dyn Write) -> io::Result<()> {
        let problem = Problem {
            m: self.m,
            n: self.n,
            jacobian: self.jacobian.to_vec(),
            residuals: self.residuals.to_vec(),
        };
        let scene = Scene {
            start: Start::Problem(problem),
            diag: self.diag.to_vec(),
            radius: self.radius,
            lambda: self.lambda,
        };
        out.write_all(case(scene, self.diag.to_vec(), 0).as_bytes())
    }
}

/// Every choice of `count` numbers out of `of`, the last place changing first.
fn choices(of: &[f64], count: usize) -> Vec<Vec<f64>> {
    let mut all = vec![Vec::new()];
    for _ in 0..count {
        all = all
            .iter()
            .flat_map(|v: &Vec<f64>| of.iter().map(move |x| [&v[..], &[*x]].concat()))
            .collect();
    }
    all
}

/// Every matrix of these entries.
fn factorings(out: &mut dyn Write, m: usize, n: usize) -> io::Result<()> {
    for jacobian in choices(&[1.0, 2.0, 0.0, -0.0, -1.0, f64::MAX], m * n) {
        let tiny = Tiny {
            m,
            n,
            jacobian: &jacobian,
            residuals: &vec![1.0; m],
            diag: &vec![1.0; n],
            radius: 1.0,
            lambda: 0.0,
        };
        tiny.write(out)?;
    }
    Ok(())
}

/// Scalings, and for each every row of entries over rows of zeros, with every residual in its row.
fn searches(out: &mut dyn Write, n: usize, scalings: &[f64], entries: &[f64]) -> io::Result<()> {
    for diag in choices(scalings, n) {
        for row in choices(entries, n + 1) {
            let (mut jacobian, mut residuals) = (vec![0.0; n * n], vec![0.0; n]);
            (0..n).for_each(|j| jacobian[j * n] = row[j]);
            residuals[0] = row[n];
            for last in choices(&[1.0, 0.5, p(-600), p(-1074), 0.0], 1) {
                for lambda in [0.0, 1.0, f64::INFINITY] {
                    let tiny = Tiny {
                        m: n,
                        n,
                        jacobian: &jacobian,
                        residuals: &residuals,
                        diag: &diag,
                        radius: last[0],
                        lambda,
                    };
                    tiny.write(out)?;
                }
            }
        }
    }
    Ok(())
}

/// Two rows and three columns are the least that show epsmch: it decides only whether an estimate is worked out anew, and
/// an estimate only the choice between two columns after the first. Three rows are the least that LMDER takes then.
fn estimates(out: &mut dyn Write, m: usize, row: usize) -> io::Result<()> {
    for length in 1..=20 {
        for quarter in 156..=164 {
            let tiny = Tiny {
                m,
                n: 3,
                jacobian: &near_epsmch(m, row, f64::from(length), f64::from(quarter) / 4.0),
                residuals: &vec![1.0; m],
                diag: &[1.0; 3],
                radius: 1.0,
                lambda: 0.0,
            };
            tiny.write(out)?;
        }
    }
    Ok(())
}

pub fn problems(out: &mut dyn Write) -> io::Result<()> {
    factorings(out, 1, 1)?;
    let (far, wide) = ([1.0, 0.0, p(600), p(1023), p(-600)], [p(600), p(1023)]);
    let entries = [1.0, 2.0, 0.0, p(-600), p(-1074)];
    searches(out, 1, &far, &[&entries[..], &wide[..]].concat())?;
    factorings(out, 2, 1)?;
    factorings(out, 1, 2)?;
    factorings(out, 2, 2)?;
    searches(
        out,
        2,
        &[1.0, p(600), p(-600)],
        &[1.0, 0.0, p(-600), p(-1074), p(600)],
    )?;
    estimates(out, 2, 1)?;
    estimates(out, 3, 2)?;
    estimates(out, 3, 1)
}
