//! A search beside LMPAR's, on the same R, transformed residuals, order, scaling, radius and first lambda. LMPAR knows no m:
//! for m < n it is given the square whose rows from m on are zero, and counted apart.

use super::case::{Search, finite, same};
use super::path::{self, Ran};
use super::show::{numbers, refused_or, row};
use super::tally::{Tally, Verdict};
use crate::engines::PLAIN;
use crate::text::Tokens;
use api::{End, Held, Place, State};

/// DPMPAR(2): 2.22507385852e-308, where document 01 has 2^-1022.
const DWARF_OF_MINPACK: f64 = f64::from_bits(0x0010_0000_0000_6531);

struct Answer {
    lambda: f64,
    norm: f64,
    trials: usize,
    step: Vec<f64>,
}

impl Answer {
    fn by_us(words: &[String], out: &[f64]) -> Result<Answer, String> {
        let words = words.join(" ");
        let mut t = Tokens::of(&words);
        Ok(Answer {
            lambda: t.double()?,
            norm: t.double()?,
            trials: t.number()?,
            step: out.to_vec(),
        })
    }

    /// LMPAR's scaled norm is the last that it asked ENORM for.
    fn by_lmpar(ran: &Ran) -> Answer {
        Answer {
            lambda: ran.par,
            norm: ran.norms.last().copied().unwrap_or(f64::NAN),
            trials: ran.calls,
            step: ran.x.clone(),
        }
    }

    fn same(&self, other: &Answer) -> bool {
        same(&[self.lambda, self.norm], &[other.lambda, other.norm])
            && same(&self.step, &other.step)
            && self.trials == other.trials
    }

    fn text(&self) -> String {
        let title = row(&[("lambda", &[self.lambda]), ("norm", &[self.norm])]);
        title + &numbers("trials", &[self.trials]) + " " + &row(&[("step", &self.step)])
    }
}

fn ran(n: usize, t: &mut Tokens) -> Result<Ran, String> {
    let (par, x, calls) = (t.double()?, t.doubles(n)?, t.number()?);
    let norms = t.number()?;
    Ok(Ran {
        par,
        x,
        calls,
        norms: t.doubles(norms)?,
        damping: t.doubles(calls * n)?,
    })
}

/// Where the oracle's run of the same search is refused 8.
fn refused_at(s: &Search) -> Option<Place> {
    let given = &s.given;
    let state = State {
        m: given.m,
        n: given.n,
        held: Held::Nothing,
        marks: 0,
    };
    let mut store = given.r.clone();
    store.extend_from_slice(&given.qt_b);
    store.resize(given.n * given.n + 4 * given.n, 0.0);
    let run = PLAIN.run(state, &store, &given.order, &s.diag, s.radius, s.lambda)?;
    match run.end {
        End::Refused(place) => Some(place),
        End::Stopped(_) => None,
    }
}

fn name(place: Place) -> &'static str {
    match place {
        Place::UndampedNorm => "undamped norm",
        Place::LowerBound => "lower bound",
        Place::Gnorm => "gnorm",
        Place::Lambda => "lambda",
        Place::TrialNorm => "trial norm",
        Place::Correction => "correction",
    }
}

/// The place where LMPAR's own run has a number that is not finite must be the oracle's.
fn refused_8(s: &Search, own: &Ran, with_our_dwarf: &Ran) -> Verdict {
    let asked = |dwarf| path::Asked {
        diag: &s.diag[..s.given.n],
        radius: s.radius,
        lambda: s.lambda,
        regular: s.given.diagonal().iter().all(|x| *x != 0.0),
        dwarf,
    };
    let Some(place) = refused_at(s) else {
        return Verdict::Unexplained;
    };
    let class = format!("refused 8 for {}", name(place));
    if path::not_finite(&asked(DWARF_OF_MINPACK), own) == Some(place) {
        Verdict::Differs(class)
    } else if path::not_finite(&asked(f64::MIN_POSITIVE), with_our_dwarf) == Some(place) {
        Verdict::Differs(class + " with dwarf")
    } else {
        Verdict::Unexplained
    }
}

/// Refusals 6 and 7 are told by the arguments: LMPAR tests none.
fn arguments_are_refused(s: &Search) -> Option<u8> {
    let diag = &s.diag[..s.given.n];
    if !finite(diag) || !finite(&[s.radius, s.lambda]) {
        Some(6)
    } else if s.radius <= 0.0 || s.lambda < 0.0 || diag.contains(&0.0) {
        Some(7)
    } else {
        None
    }
}

pub fn one(s: &Search, theirs: &mut [Tokens], tally: &mut Tally) -> Result<(), String> {
    let n = s.given.n;
    let (own, with_our_dwarf) = (ran(n, &mut theirs[0])?, ran(n, &mut theirs[1])?);
    let ours = match &s.ours.answer {
        Ok(words) => Ok(Answer::by_us(words, &s.ours.out[..n])?),
        Err(k) => Err(*k),
    };
    let minpack = Answer::by_lmpar(&own);
    let verdict = match &ours {
        Ok(mine) if mine.same(&minpack) => Verdict::Same,
        Ok(mine) if mine.same(&Answer::by_lmpar(&with_our_dwarf)) => {
            Verdict::Differs("dwarf".into())
        }
        Err(k) if arguments_are_refused(s) == Some(*k) => Verdict::Differs(format!("refused {k}")),
        Err(8) => refused_8(s, &own, &with_our_dwarf),
        _ => Verdict::Unexplained,
    };
    let routine = if s.given.m < n {
        "LMPAR, m < n"
    } else {
        "LMPAR"
    };
    if verdict == Verdict::Same && routine == "LMPAR" {
        tally.note_trials(minpack.trials);
    }
    tally.add(routine, verdict, || {
        let rest = row(&[("radius", &[s.radius]), ("lambda", &[s.lambda])]);
        let input = s.given.text(&s.diag) + " " + &rest;
        [input, refused_or(&ours, Answer::text), minpack.text()]
    });
    Ok(())
}
