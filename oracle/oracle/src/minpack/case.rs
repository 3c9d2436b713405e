//! What was put to our side, with what it answered: read from a script and from the replies to it.

use super::reading::upper;
use super::show::{numbers, row};
use crate::script::{self, Item};
use crate::text::{Tokens, bits};
use std::str::Lines;

/// What a solve or a search stands on: R on and above the diagonal, the transformed residuals, the order.
#[derive(Clone, Debug)]
pub struct Given {
    pub m: usize,
    pub n: usize,
    pub r: Vec<f64>,
    pub qt_b: Vec<f64>,
    pub order: Vec<usize>,
}

/// One reply, with the rooms after it.
#[derive(Clone, Debug)]
pub struct Reply {
    /// The words after `ok`, or the refusal; 0 for a call that is not there yet.
    pub answer: Result<Vec<String>, u8>,
    pub store: Vec<f64>,
    pub order: Vec<usize>,
    pub out: Vec<f64>,
}

#[derive(Clone, Debug)]
pub struct Factoring {
    pub m: usize,
    pub n: usize,
    pub jacobian: Vec<f64>,
    pub residuals: Vec<f64>,
    pub ours: Reply,
}

#[derive(Clone, Debug)]
pub struct Search {
    pub given: Given,
    pub diag: Vec<f64>,
    pub radius: f64,
    pub lambda: f64,
    pub ours: Reply,
}

#[derive(Clone, Debug)]
pub enum Event {
    Norm {
        v: Vec<f64>,
        ours: Result<f64, u8>,
    },
    Factored(Factoring),
    Damped {
        given: Given,
        diag: Vec<f64>,
        ours: Reply,
    },
    Searched(Search),
}

impl Given {
    fn blank(m: usize, n: usize) -> Given {
        Given {
            m,
            n,
            r: vec![0.0; n * n],
            qt_b: vec![0.0; n],
            order: vec![0; n],
        }
    }

    fn factored(m: usize, n: usize, reply: &Reply) -> Given {
        Given {
            m,
            n,
            r: reply.store[..n * n].to_vec(),
            qt_b: reply.store[n * n..n * n + n].to_vec(),
            order: reply.order[..n].to_vec(),
        }
    }

    fn write(&mut self, place: usize, x: f64) {
        match place.checked_sub(self.n * self.n) {
            None => self.r[place] = x,
            Some(k) if k < self.n => self.qt_b[k] = x,
            Some(_) => {}
        }
    }

    pub fn diagonal(&self) -> Vec<f64> {
        (0..self.n).map(|j| self.r[j * self.n + j]).collect()
    }

    pub fn text(&self, diag: &[f64]) -> String {
        let n = self.n;
        let r = upper(n, n, &self.r, n, &self.diagonal());
        let title = format!("m {} n {n} {}", self.m, row(&[("R", &r)]));
        let order = numbers("order", &self.order);
        title + &order + " " + &row(&[("qt_b", &self.qt_b), ("D", diag)])
    }
}

fn answer_of(line: &str) -> Result<Result<Vec<String>, u8>, String> {
    let mut words = line.split_ascii_whitespace();
    match words.next() {
        Some("ok") => Ok(Ok(words.map(str::to_string).collect())),
        Some("refused") => {
            let k = words.next().and_then(|w| w.parse().ok());
            Ok(Err(k.ok_or_else(|| format!("no number: {line}"))?))
        }
        Some("not") => Ok(Err(0)),
        _ => Err(format!("no answer: {line}")),
    }
}

/// The rest of a line that begins with `title`.
fn titled<'a>(lines: &mut Lines<'a>, title: &str) -> Result<Tokens<'a>, String> {
    let line = lines.next().ok_or("a reply ends early")?;
    let rest = line.strip_prefix(title);
    rest.map(Tokens::of)
        .ok_or_else(|| format!("no {title}: {line}"))
}

fn doubles(mut t: Tokens) -> Vec<f64> {
    std::iter::from_fn(|| t.double().ok()).collect()
}

fn reply(lines: &mut Lines) -> Result<Reply, String> {
    let answer = answer_of(lines.next().ok_or("a reply is missing")?)?;
    titled(lines, "state")?;
    let store = doubles(titled(lines, "store")?);
    let mut t = titled(lines, "order")?;
    let order = std::iter::from_fn(|| t.number().ok()).collect();
    titled(lines, "bench")?;
    let out = doubles(titled(lines, "out")?);
    Ok(Reply {
        answer,
        store,
        order,
        out,
    })
}

/// What each call of a script stands on, beside the replies to it: those of one side to all calls but searches, those of
/// the other to searches.
struct Reader<'a> {
    ours: Lines<'a>,
    searches: Lines<'a>,
    given: Option<Given>,
}

impl Reader<'_> {
    fn replies(&mut self) -> Result<(Reply, Reply), String> {
        Ok((reply(&mut self.ours)?, reply(&mut self.searches)?))
    }

    fn end(&mut self) -> Result<(), String> {
        for side in [&mut self.ours, &mut self.searches] {
            if side.next() != Some(".") {
                return Err("a case does not end where its script does".into());
            }
        }
        Ok(())
    }

    fn factor(
        &mut self,
        m: usize,
        n: usize,
        jacobian: Vec<f64>,
        residuals: Vec<f64>,
    ) -> Result<Event, String> {
        let (ours, _) = self.replies()?;
        let answered = ours.answer.is_ok();
        self.given = answered.then(|| Given::factored(m, n, &ours));
        Ok(Event::Factored(Factoring {
            m,
            n,
            jacobian,
            residuals,
            ours,
        }))
    }

    /// Nothing where the item is no call, and where the factoring before it was refused.
    fn item(&mut self, item: Item) -> Result<Option<Event>, String> {
        match item {
            Item::Rooms { .. } => self.given = None,
            Item::State(s) if s.marks == 0 => self.given = Some(Given::blank(s.m, s.n)),
            Item::Order(k, v) => self.given.iter_mut().for_each(|g| g.order[k] = v),
            Item::Store(k, x) => self.given.iter_mut().for_each(|g| g.write(k, x)),
            Item::Factor {
                m,
                n,
                marks: 0,
                jacobian,
                residuals,
            } => return self.factor(m, n, jacobian, residuals).map(Some),
            Item::Damped(diag) => {
                let (ours, _) = self.replies()?;
                let given = self.given.clone();
                return Ok(given.map(|given| Event::Damped { given, diag, ours }));
            }
            Item::Search {
                diag,
                radius,
                lambda,
            } => {
                let (_, ours) = self.replies()?;
                let of = |given| Search {
                    given,
                    diag,
                    radius,
                    lambda,
                    ours,
                };
                return Ok(self.given.clone().map(of).map(Event::Searched));
            }
            Item::End => self.end()?,
            _ => return Err("an item that is not compared with MINPACK".into()),
        }
        Ok(None)
    }
}

/// A line `e n v.. = answer`.
fn norm(line: &str) -> Result<Event, String> {
    let (question, answer) = line.split_once(" = ").ok_or("a norm has no answer")?;
    let mut t = Tokens::of(question);
    t.word()?;
    let len = t.number()?;
    let v = t.doubles(len)?;
    let ours = match answer_of(answer)? {
        Ok(words) => Ok(Tokens::of(&words.join(" ")).double()?),
        Err(k) => Err(k),
    };
    Ok(Event::Norm { v, ours })
}

pub fn events(script: &str, norms: &str, ours: &str, searches: &str) -> Result<Vec<Event>, String> {
    let mut events: Vec<Event> = norms.lines().map(norm).collect::<Result<_, _>>()?;
    let mut reader = Reader {
        ours: ours.lines(),
        searches: searches.lines(),
        given: None,
    };
    for line in script.lines() {
        events.extend(reader.item(script::read(line)?)?);
    }
    Ok(events)
}

/// Bit for bit, NaN one value.
pub fn same(a: &[f64], b: &[f64]) -> bool {
    a.len() == b.len() && a.iter().zip(b).all(|(x, y)| bits(*x) == bits(*y))
}

pub fn finite(v: &[f64]) -> bool {
    v.iter().all(|x| x.is_finite())
}
