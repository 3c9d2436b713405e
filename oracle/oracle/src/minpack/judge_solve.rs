//! A damped solve beside QRSOLV's, on the same R, transformed residuals, order and diagonal.

use super::case::{Given, Reply, finite, same};
use super::show::{refused_or, row};
use super::tally::{Tally, Verdict};
use crate::text::Tokens;

/// The answer, and the square: S, which document 01 calls L, below the diagonal, R on and above it. S has its own diagonal.
struct Solved {
    x: Vec<f64>,
    diagonal: Vec<f64>,
    square: Vec<f64>,
}

impl Solved {
    fn by_qrsolv(n: usize, t: &mut Tokens) -> Result<Solved, String> {
        Ok(Solved {
            x: t.doubles(n)?,
            diagonal: t.doubles(n)?,
            square: t.doubles(n * n)?,
        })
    }

    fn by_us(n: usize, reply: &Reply) -> Solved {
        Solved {
            x: reply.out[..n].to_vec(),
            diagonal: reply.store[n * n + 2 * n..n * n + 3 * n].to_vec(),
            square: reply.store[..n * n].to_vec(),
        }
    }

    fn same(&self, other: &Solved) -> bool {
        same(&self.x, &other.x)
            && same(&self.diagonal, &other.diagonal)
            && same(&self.square, &other.square)
    }

    fn text(&self) -> String {
        let Solved {
            x,
            diagonal,
            square,
        } = self;
        row(&[("x", x), ("S, diagonal", diagonal), ("square", square)])
    }
}

pub fn one(
    given: &Given,
    diag: &[f64],
    ours: &Reply,
    theirs: &mut Tokens,
    tally: &mut Tally,
) -> Result<(), String> {
    let minpack = Solved::by_qrsolv(given.n, theirs)?;
    let mine = Solved::by_us(given.n, ours);
    let verdict = match ours.answer {
        Ok(_) if mine.same(&minpack) => Verdict::Same,
        Err(8) if !finite(&minpack.x) => Verdict::Differs("refused 8".into()),
        _ => Verdict::Unexplained,
    };
    tally.add("QRSOLV", verdict, || {
        let mine = refused_or(&ours.answer, |_| mine.text());
        [given.text(diag), mine, minpack.text()]
    });
    Ok(())
}
