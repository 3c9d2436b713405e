//! What calls answer, and how that is written.

use crate::text::{push_double, push_doubles, push_number, push_numbers};
use api::Ranges;

/// The numbers of an answer.
#[derive(Clone, Debug)]
pub enum Told {
    Done,
    Doubles(Vec<f64>),
    Found {
        lambda: f64,
        norm: f64,
        trials: usize,
    },
    Count(usize),
}

/// What a call that is not refused answers. Factoring, norm of Jx, scaling and search tell their ranges too (02, #106).
#[derive(Clone, Debug)]
pub struct Answer {
    pub told: Told,
    pub ranges: Option<Ranges>,
}

impl Answer {
    pub fn with(told: Told, ranges: Ranges) -> Answer {
        let ranges = Some(ranges);
        Answer { told, ranges }
    }
}

impl From<Told> for Answer {
    fn from(told: Told) -> Answer {
        Answer { told, ranges: None }
    }
}

#[derive(Clone, Debug)]
pub struct Reply {
    pub answer: Result<Answer, u8>,
    /// The lent scaling after a scaling call.
    pub scaling: Option<Vec<f64>>,
    /// The packed room and its places after a packing or an unpacking (02, #107).
    pub packed: Option<(Vec<f64>, Vec<usize>)>,
}

impl From<Result<Answer, u8>> for Reply {
    fn from(answer: Result<Answer, u8>) -> Reply {
        Reply {
            answer,
            scaling: None,
            packed: None,
        }
    }
}

/// Small, then large.
pub fn push_ranges(out: &mut String, ranges: Ranges) {
    push_numbers(out, &[ranges.small, ranges.large].map(usize::from));
}

fn write_told(told: &Told, out: &mut String) {
    match told {
        Told::Done => {}
        Told::Doubles(v) => push_doubles(out, v),
        Told::Found {
            lambda,
            norm,
            trials,
        } => {
            out.push(' ');
            push_double(out, *lambda);
            out.push(' ');
            push_double(out, *norm);
            push_numbers(out, &[*trials]);
        }
        Told::Count(k) => {
            out.push(' ');
            push_number(out, *k as u64);
        }
    }
}

fn write_answer(answer: &Result<Answer, u8>, out: &mut String) {
    match answer {
        Err(k) => out.push_str(&format!("refused {k}")),
        Ok(answer) => {
            out.push_str("ok");
            write_told(&answer.told, out);
            answer
                .ranges
                .iter()
                .for_each(|ranges| push_ranges(out, *ranges));
        }
    }
    out.push('\n');
}

impl Reply {
    pub fn write(&self, out: &mut String) {
        write_answer(&self.answer, out);
        if let Some(scaling) = &self.scaling {
            out.push_str("scaling");
            push_doubles(out, scaling);
            out.push('\n');
        }
        if let Some((room, places)) = &self.packed {
            out.push_str("room");
            push_doubles(out, room);
            out.push_str("\nplaces");
            push_numbers(out, places);
            out.push('\n');
        }
    }

    /// As text, which holds every bit that counts.
    pub fn text(&self) -> String {
        let mut out = String::new();
        self.write(&mut out);
        out
    }
}
