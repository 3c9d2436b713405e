//! Leaf vectors: `op args = answer`, one a line.

use crate::engines::Working;
use crate::replies::push_ranges;
use crate::text::{push_double, push_doubles, push_number};
use api::Ranges;

#[derive(Clone, Debug)]
pub enum Leaf {
    Abs(f64),
    Negative(f64),
    Finite(f64),
    Max(f64, f64),
    Min(f64, f64),
    Square(f64),
    Sqrt(f64),
    Dot(Vec<f64>, Vec<f64>),
    Axpy(f64, Vec<f64>, Vec<f64>),
    AxpyZero(f64, Vec<f64>, Vec<f64>),
    Imax(Vec<f64>),
    Enorm(Vec<f64>),
    Upper {
        apart: usize,
        n: usize,
        r: Vec<f64>,
        x: Vec<f64>,
    },
}

enum Said {
    Doubles(Vec<f64>),
    Number(usize),
    /// A norm with its ranges (02, #106).
    Norm(f64, Ranges),
    Refused(u8),
}

fn double(answer: Result<f64, u8>) -> Said {
    match answer {
        Ok(x) => Said::Doubles(vec![x]),
        Err(k) => Said::Refused(k),
    }
}

fn written(answer: Result<(), u8>, y: Vec<f64>) -> Said {
    match answer {
        Ok(()) => Said::Doubles(y),
        Err(k) => Said::Refused(k),
    }
}

impl Leaf {
    fn ask(&self, engine: &dyn Working) -> Said {
        match self {
            Leaf::Abs(x) => double(Ok(engine.abs(*x))),
            Leaf::Negative(x) => Said::Number(usize::from(engine.is_negative(*x))),
            Leaf::Finite(x) => Said::Number(usize::from(engine.is_finite(*x))),
            Leaf::Max(a, b) => double(Ok(engine.max(*a, *b))),
            Leaf::Min(a, b) => double(Ok(engine.min(*a, *b))),
            Leaf::Square(x) => double(Ok(engine.square(*x))),
            Leaf::Sqrt(x) => double(Ok(engine.sqrt(*x))),
            Leaf::Dot(a, b) => double(engine.dot(a, b)),
            Leaf::Axpy(a, x, y) => {
                let mut y = y.clone();
                written(engine.axpy(*a, x, &mut y), y)
            }
            Leaf::AxpyZero(a, x, y) => {
                let mut y = y.clone();
                written(engine.axpy_zero(*a, x, &mut y), y)
            }
            Leaf::Imax(v) => match engine.imax(v) {
                Ok(k) => Said::Number(k),
                Err(k) => Said::Refused(k),
            },
            Leaf::Enorm(v) => match engine.enorm(v) {
                Ok((norm, ranges)) => Said::Norm(norm, ranges),
                Err(k) => Said::Refused(k),
            },
            Leaf::Upper { apart, n, r, x } => {
                let mut x = x.clone();
                written(engine.solve_upper(r, *apart, *n, &mut x), x)
            }
        }
    }

    /// The whole line, without its end.
    pub fn line(&self, engine: &dyn Working) -> String {
        let mut out = String::new();
        self.write(&mut out);
        out.push_str(" = ");
        match self.ask(engine) {
            Said::Doubles(v) => {
                out.push_str("ok");
                push_doubles(&mut out, &v);
            }
            Said::Number(k) => {
                out.push_str("ok ");
                push_number(&mut out, k as u64);
            }
            Said::Norm(norm, ranges) => {
                out.push_str("ok");
                push_doubles(&mut out, &[norm]);
                push_ranges(&mut out, ranges);
            }
            Said::Refused(k) => out.push_str(&format!("refused {k}")),
        }
        out
    }

    fn write(&self, out: &mut String) {
        match self {
            Leaf::Abs(x) => scalars(out, 'a', &[*x]),
            Leaf::Negative(x) => scalars(out, 'g', &[*x]),
            Leaf::Finite(x) => scalars(out, 'f', &[*x]),
            Leaf::Max(a, b) => scalars(out, 'x', &[*a, *b]),
            Leaf::Min(a, b) => scalars(out, 'i', &[*a, *b]),
            Leaf::Square(x) => scalars(out, 'q', &[*x]),
            Leaf::Sqrt(x) => scalars(out, 'r', &[*x]),
            Leaf::Dot(a, b) => vectors(out, "d", &[a, b]),
            Leaf::Axpy(a, x, y) => axpy(out, 'y', *a, x, y),
            Leaf::AxpyZero(a, x, y) => axpy(out, 'z', *a, x, y),
            Leaf::Imax(v) => vectors(out, "m", &[v]),
            Leaf::Enorm(v) => vectors(out, "e", &[v]),
            Leaf::Upper { apart, n, r, x } => vectors(out, &format!("u {apart:X} {n:X}"), &[r, x]),
        }
    }
}

fn scalars(out: &mut String, op: char, v: &[f64]) {
    out.push(op);
    push_doubles(out, v);
}

fn vectors(out: &mut String, op: &str, of: &[&[f64]]) {
    out.push_str(op);
    for v in of {
        out.push(' ');
        push_number(out, v.len() as u64);
        push_doubles(out, v);
    }
}

fn axpy(out: &mut String, op: char, a: f64, x: &[f64], y: &[f64]) {
    out.push(op);
    out.push(' ');
    push_double(out, a);
    vectors(out, "", &[x, y]);
}
