//! Call scripts: one item a line, written.

use crate::script::{Item, held_number, mode_number};
use crate::text::{push_double, push_doubles, push_number};

struct Line<'a>(&'a mut String);

impl Line<'_> {
    fn begin(&mut self, letter: char) -> &mut Self {
        self.0.push(letter);
        self
    }
    fn number(&mut self, k: u64) -> &mut Self {
        self.0.push(' ');
        push_number(self.0, k);
        self
    }
    fn numbers(&mut self, of: &[usize]) -> &mut Self {
        for &k in of {
            self.number(k as u64);
        }
        self
    }
    /// Nothing where there are none, so that what has no marks reads as it did before there were any.
    fn marks(&mut self, marks: u16) -> &mut Self {
        if marks != 0 {
            self.number(u64::from(marks));
        }
        self
    }
    fn double(&mut self, x: f64) -> &mut Self {
        self.0.push(' ');
        push_double(self.0, x);
        self
    }
    fn doubles(&mut self, v: &[f64]) -> &mut Self {
        push_doubles(self.0, v);
        self
    }
    fn numbered(&mut self, v: &[f64]) -> &mut Self {
        self.number(v.len() as u64).doubles(v)
    }
}

pub fn write(item: &Item, out: &mut String) {
    let mut line = Line(out);
    match item {
        Item::Rooms {
            store,
            order,
            bench,
            out,
            seed,
        } => line
            .begin('R')
            .numbers(&[*store, *order, *bench, *out])
            .number(*seed),
        Item::Factor {
            m,
            n,
            marks,
            jacobian,
            residuals,
        } => line
            .begin(if *marks == 0 { 'F' } else { 'K' })
            .numbers(&[*m, *n])
            .marks(*marks)
            .numbers(&[jacobian.len(), residuals.len()])
            .doubles(jacobian)
            .doubles(residuals),
        Item::State(s) => line
            .begin('T')
            .numbers(&[s.m, s.n])
            .number(held_number(s.held))
            .marks(s.marks),
        Item::Order(k, v) => line.begin('O').numbers(&[*k, *v]),
        Item::Store(k, x) => line.begin('W').numbers(&[*k]).double(*x),
        Item::Zero => line.begin('Z'),
        Item::Damped(diag) => line.begin('D').numbered(diag),
        Item::Solve(rhs) => line.begin('S').numbered(rhs),
        Item::Mul => line.begin('M'),
        Item::Gradient(x) => line.begin('G').double(*x),
        Item::Above { b_norm, limit } => line.begin('A').double(*b_norm).double(*limit),
        Item::Norm(x) => line.begin('N').numbered(x),
        Item::Scale {
            mode,
            diag,
            x,
            step_bound,
        } => line
            .begin('U')
            .numbers(&[mode_number(*mode), diag.len(), x.len()])
            .doubles(diag)
            .doubles(x)
            .double(*step_bound),
        Item::Search {
            diag,
            radius,
            lambda,
        } => line
            .begin('L')
            .numbered(diag)
            .double(*radius)
            .double(*lambda),
        Item::Determined => line.begin('P'),
        Item::NonSingular => line.begin('Q'),
        Item::Exchange(k) => line.begin('X').numbers(&[*k]),
        Item::Lend {
            packed,
            room,
            places,
            seed,
        } => line
            .begin('J')
            .numbers(&[*packed, *room, *places])
            .number(*seed),
        Item::Pack(k) => line.begin('B').numbers(&[*k]),
        Item::Unpack(k) => line.begin('E').numbers(&[*k]),
        Item::Packed(k, place, x) => line.begin('V').numbers(&[*k, *place]).double(*x),
        Item::Place(k, place, v) => line.begin('Y').numbers(&[*k, *place, *v]),
        Item::End => line.begin('.'),
    };
    out.push('\n');
}

pub fn text(items: &[Item]) -> String {
    let mut out = String::new();
    items.iter().for_each(|item| write(item, &mut out));
    out
}
