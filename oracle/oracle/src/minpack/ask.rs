//! Events as questions for `tools/minpack/driver.c`, one to a line.

use super::case::{Event, Factoring, Given, Search};
use crate::text::{push_doubles, push_numbers};
use std::io::{self, Write};

fn line(letter: char, sizes: &[usize], doubles: &[&[f64]]) -> String {
    let mut line = String::from(letter);
    push_numbers(&mut line, sizes);
    doubles.iter().for_each(|v| push_doubles(&mut line, v));
    line
}

fn of_given(letter: char, given: &Given, diag: &[f64], rest: &[f64]) -> String {
    let mut line = line(letter, &[given.n], &[&given.r]);
    push_numbers(&mut line, &given.order);
    for v in [&diag[..given.n], &given.qt_b, rest] {
        push_doubles(&mut line, v);
    }
    line
}

fn of_factoring(f: &Factoring) -> Vec<String> {
    let sizes = [f.m, f.n];
    let mut lines: Vec<String> = ['Q', 'q']
        .map(|letter| line(letter, &sizes, &[&f.jacobian]))
        .into();
    if f.m >= f.n {
        lines.push(line('B', &sizes, &[&f.jacobian, &f.residuals]));
    }
    lines
}

fn of_search(s: &Search) -> Vec<String> {
    ['P', 'p']
        .map(|letter| of_given(letter, &s.given, &s.diag, &[s.radius, s.lambda]))
        .into()
}

/// The questions of one event. They are answered by as many lines, each with its question's letter.
pub fn of(event: &Event) -> Vec<String> {
    match event {
        Event::Norm { v, .. } => vec![line('E', &[v.len()], &[v])],
        Event::Factored(factoring) => of_factoring(factoring),
        Event::Damped { given, diag, .. } => vec![of_given('S', given, diag, &[])],
        Event::Searched(search) => of_search(search),
    }
}

pub fn questions(events: &[Event], out: &mut dyn Write) -> io::Result<()> {
    for line in events.iter().flat_map(of) {
        writeln!(out, "{line}")?;
    }
    Ok(())
}
