//! MINPACK's answers beside ours, bit for bit, and the class of each difference.
//!
//! A class is shown, not guessed: a factoring's by document 01's steps with as few of MINPACK's readings as give MINPACK's
//! bits; dwarf by LMPAR itself with document 01's dwarf, which must give ours; refused 8 by the number that is not finite in
//! MINPACK's own run. Besides, MINPACK's factoring must be the steps with all its readings, and ours those with none.

use super::ask;
use super::case::{Event, same};
use super::judge_factoring;
use super::judge_search;
use super::judge_solve;
use super::show::{refused_or, row};
use super::tally::{Tally, Verdict};
use crate::text::Tokens;
use std::str::Lines;

fn norm(
    v: &[f64],
    ours: Result<f64, u8>,
    theirs: &mut [Tokens],
    tally: &mut Tally,
) -> Result<(), String> {
    let norm = theirs[0].double()?;
    let verdict = match ours {
        Ok(x) if same(&[x], &[norm]) => Verdict::Same,
        Err(2) if v.len() > 128 => Verdict::Differs("refused 2".into()),
        _ => Verdict::Unexplained,
    };
    tally.add("ENORM", verdict, || {
        let input = format!("{} numbers, {}", v.len(), row(&[("x", v)]));
        let mine = refused_or(&ours, |x| row(&[("norm", &[*x])]));
        [input, mine, row(&[("norm", &[norm])])]
    });
    Ok(())
}

fn one(event: &Event, theirs: &mut [Tokens], tally: &mut Tally) -> Result<(), String> {
    match event {
        Event::Norm { v, ours } => norm(v, *ours, theirs, tally),
        Event::Factored(factoring) => judge_factoring::one(factoring, theirs, tally),
        Event::Damped { given, diag, ours } => {
            judge_solve::one(given, diag, ours, &mut theirs[0], tally)
        }
        Event::Searched(search) => judge_search::one(search, theirs, tally),
    }
}

/// MINPACK's lines that answer one event's questions.
fn answers<'a>(event: &Event, lines: &mut Lines<'a>) -> Result<Vec<Tokens<'a>>, String> {
    let letters = ask::of(event).into_iter().map(|q| q.chars().next());
    letters
        .map(|letter| {
            let line = lines.next().ok_or("MINPACK's answers end early")?;
            if line.chars().next() != letter {
                return Err(format!("an answer to another question: {line}"));
            }
            Ok(Tokens::of(&line[1..]))
        })
        .collect()
}

pub fn all(events: &[Event], theirs: &str, show: bool) -> Result<bool, String> {
    let mut tally = Tally::default();
    let mut lines = theirs.lines();
    for event in events {
        let mut answers = answers(event, &mut lines)?;
        one(event, &mut answers, &mut tally)?;
    }
    print!("{}", tally.text(show));
    Ok(tally.unexplained() == 0)
}
