//! A factoring beside QRFAC's, and the transformed residuals beside LMDER's.

use super::case::{Factoring, Reply, finite, same};
use super::reading::{DOCUMENT_01, Factors, MINPACK, Reading, factor, readings, upper};
use super::show::{numbers, refused_or, row};
use super::tally::{Tally, Verdict};
use crate::text::Tokens;

/// What one side shows: R, norms and order, and the transformed residuals, which LMDER has for m >= n alone.
struct Shown {
    factors: Factors,
    qt_b: Option<Vec<f64>>,
}

impl Shown {
    fn same_factors(&self, other: &Shown) -> bool {
        self.factors.same(&other.factors)
    }

    fn same_qt_b(&self, other: &Shown) -> bool {
        match (&self.qt_b, &other.qt_b) {
            (Some(a), Some(b)) => same(a, b),
            _ => true,
        }
    }

    fn same(&self, other: &Shown) -> bool {
        self.same_factors(other) && self.same_qt_b(other)
    }

    fn finite(&self) -> bool {
        let Factors { r, norms, .. } = &self.factors;
        finite(r) && finite(norms) && self.qt_b.iter().all(|b| finite(b))
    }

    fn why_refused(&self) -> &'static str {
        let Factors { r, norms, .. } = &self.factors;
        if finite(r) && finite(norms) {
            "refused 8 for qt_b"
        } else {
            "refused 8 for R or a norm"
        }
    }

    fn factors_text(&self) -> String {
        let Factors { r, norms, order } = &self.factors;
        row(&[("R", r), ("norms", norms)]) + &numbers("order", order)
    }

    fn qt_b_text(&self) -> String {
        row(&[("qt_b", self.qt_b.as_deref().unwrap_or_default())])
    }
}

fn by_reading(reading: Reading, f: &Factoring) -> Shown {
    let (factors, qt_b) = factor(reading, f.m, f.n, &f.jacobian, &f.residuals);
    Shown {
        factors,
        qt_b: Some(qt_b),
    }
}

fn by_qrfac(m: usize, n: usize, t: &mut Tokens) -> Result<Factors, String> {
    let (rdiag, norms) = (t.doubles(n)?, t.doubles(n)?);
    let order = (0..n).map(|_| t.number()).collect::<Result<_, _>>()?;
    let r = upper(m, n, &t.doubles(m * n)?, m, &rdiag);
    Ok(Factors { r, norms, order })
}

fn by_us(m: usize, n: usize, reply: &Reply) -> Shown {
    let diagonal: Vec<f64> = (0..n).map(|j| reply.store[j * n + j]).collect();
    let part = |k: usize| reply.store[n * n + k * n..n * n + (k + 1) * n].to_vec();
    let factors = Factors {
        r: upper(m, n, &reply.store, n, &diagonal),
        norms: part(1),
        order: reply.order[..n].to_vec(),
    };
    Shown {
        factors,
        qt_b: Some(part(0)),
    }
}

/// The class of one part: document 01's steps give it, or as few of MINPACK's readings as do.
fn class(refused: Option<&str>, plainly: bool, by: impl Fn(Reading) -> bool) -> Verdict {
    if plainly {
        return refused.map_or(Verdict::Same, |why| Verdict::Differs(why.into()));
    }
    let Some(reading) = readings().into_iter().find(|r| by(*r)) else {
        return Verdict::Unexplained;
    };
    let reading = reading.name();
    Verdict::Differs(refused.map_or(reading.clone(), |why| format!("{why} with {reading}")))
}

/// Ours must be the steps without MINPACK's readings, MINPACK's those with all of them, and MINPACK's with document 01's
/// epsmch those with the other two.
fn explained(f: &Factoring, steps: &Shown, minpack: &Shown, with_our_epsmch: &Factors) -> bool {
    let sound = match f.ours.answer {
        Ok(_) => steps.same(&by_us(f.m, f.n, &f.ours)),
        Err(k) => k == 8 && !steps.finite(),
    };
    let other_two = Reading {
        epsmch: false,
        ..MINPACK
    };
    sound
        && minpack.same(&by_reading(MINPACK, f))
        && with_our_epsmch.same(&by_reading(other_two, f).factors)
}

/// Of R, norms and order, and of the transformed residuals.
fn verdicts(f: &Factoring, minpack: &Shown, with_our_epsmch: &Factors) -> [Verdict; 2] {
    let steps = by_reading(DOCUMENT_01, f);
    if !explained(f, &steps, minpack, with_our_epsmch) {
        return [Verdict::Unexplained, Verdict::Unexplained];
    }
    let refused = f.ours.answer.is_err().then(|| steps.why_refused());
    let of_factors = class(refused, steps.same_factors(minpack), |r| {
        by_reading(r, f).same_factors(minpack)
    });
    let of_qt_b = class(refused, steps.same_qt_b(minpack), |r| {
        by_reading(r, f).same_qt_b(minpack)
    });
    let compared = minpack.qt_b.is_some();
    let none = Verdict::NotCompared("m < n");
    [of_factors, if compared { of_qt_b } else { none }]
}

pub fn one(f: &Factoring, theirs: &mut [Tokens], tally: &mut Tally) -> Result<(), String> {
    let (m, n) = (f.m, f.n);
    let qt_b = theirs.get_mut(2).map(|t| t.doubles(n)).transpose()?;
    let minpack = Shown {
        factors: by_qrfac(m, n, &mut theirs[0])?,
        qt_b,
    };
    let with_our_epsmch = by_qrfac(m, n, &mut theirs[1])?;
    let [of_factors, of_qt_b] = verdicts(f, &minpack, &with_our_epsmch);
    let example = |text: fn(&Shown) -> String| {
        let input = row(&[("J", &f.jacobian), ("r", &f.residuals)]);
        let ours = refused_or(&f.ours.answer, |_| text(&by_us(m, n, &f.ours)));
        [format!("m {m} n {n} {input}"), ours, text(&minpack)]
    };
    tally.add("QRFAC", of_factors, || example(Shown::factors_text));
    tally.add("qt_b of LMDER", of_qt_b, || example(Shown::qt_b_text));
    Ok(())
}
