//! What the ranges of a call show (02, #106): which of them an answer has, which norm alone gave one, and what a wrong
//! reading would have added.

use crate::classes::Asked;
use crate::engines::Working;
use crate::minpack::reading::{self, Vectors};
use api::{End, Measured, Mode, Of, Ranges, Run, Stop};

const EACH: [Ranges; 4] = [
    Ranges::NEITHER,
    Ranges {
        small: true,
        large: false,
    },
    Ranges {
        small: false,
        large: true,
    },
    Ranges {
        small: true,
        large: true,
    },
];

const MODES: [Mode; 4] = [
    Mode::FirstScaled,
    Mode::FirstUnscaled,
    Mode::LaterScaled,
    Mode::LaterUnscaled,
];

/// Where one range of an answered search can come from alone, in a search that went on past its undamped norm.
const SEARCH: [&str; 6] = [
    "the undamped norm",
    "the lower bound",
    "gnorm",
    "a trial that is not the last",
    "the last trial",
    "a correction",
];

fn name(ranges: Ranges) -> &'static str {
    match (ranges.small, ranges.large) {
        (false, false) => "neither seen",
        (true, false) => "small seen",
        (false, true) => "large seen",
        (true, true) => "both seen",
    }
}

pub fn label(call: &str, ranges: Ranges) -> String {
    format!("{call} ok, {}", name(ranges))
}

pub fn scaling(mode: Mode, ranges: Ranges) -> String {
    format!("scaling ok, {mode:?}, {}", name(ranges))
}

/// A norm worked out anew cannot be the only one that saw a large entry: its column was over a million times longer.
pub fn wanted_of_factorings() -> Vec<String> {
    let mut wanted: Vec<String> = EACH.map(|ranges| label("factor", ranges)).into();
    let rows = [
        "small by a pivot's lower end alone",
        "large by a pivot's lower end alone",
        "small by a norm worked out anew alone",
        "small in a norm not worked out anew alone",
        "large in a norm not worked out anew alone",
        "large by m's limit for a part of a column alone",
    ];
    wanted.extend(rows.map(|row| format!("factor ok, {row}")));
    wanted
}

pub fn wanted_of_calls() -> Vec<String> {
    let mut wanted = Vec::new();
    for call in ["norm of Jx", "search"] {
        wanted.extend(EACH.map(|ranges| label(call, ranges)));
    }
    for mode in MODES {
        let later = matches!(mode, Mode::LaterScaled | Mode::LaterUnscaled);
        let some = &EACH[..if later { 1 } else { 4 }];
        wanted.extend(some.iter().map(|ranges| scaling(mode, *ranges)));
    }
    for range in ["small", "large"] {
        wanted.extend(SEARCH.map(|from| format!("search ok, {range} by {from} alone")));
        wanted.push(format!(
            "search ok, {range} in a correction after the last trial alone"
        ));
    }
    wanted.push("search ok, large by an infinite held solve alone".into());
    wanted
}

/// The two ranges, each with its name.
type Range = (&'static str, fn(Ranges) -> bool);
const RANGES: [Range; 2] = [("small", |r| r.small), ("large", |r| r.large)];

/// What all norms of a list saw.
fn all(ranges: impl Iterator<Item = Ranges>) -> Ranges {
    ranges.fold(Ranges::NEITHER, Ranges::either)
}

/// Whether a range was seen, and by such norms alone.
fn alone(norms: &[Measured], saw: fn(Ranges) -> bool, of: impl Fn(usize, Of) -> bool) -> bool {
    let mut places = (0..norms.len())
        .filter(|&k| saw(norms[k].ranges))
        .peekable();
    places.peek().is_some() && places.all(|k| of(k, norms[k].of))
}

fn ranges_of(engine: &dyn Working, vectors: &[Vec<f64>]) -> Ranges {
    all(vectors.iter().map(|v| {
        engine
            .enorm(v)
            .map_or(Ranges::NEITHER, |(_, ranges)| ranges)
    }))
}

/// The norms with each vector brought to m entries by zeros: the limit agiant is then m's.
fn by_m(engine: &dyn Working, m: usize, vectors: &[Vec<f64>]) -> Ranges {
    let mut vectors = vectors.to_vec();
    vectors.iter_mut().for_each(|v| v.resize(m, 0.0));
    ranges_of(engine, &vectors)
}

/// The rows of an answered factoring.
pub fn of_factoring(engine: &dyn Working, m: usize, n: usize, jacobian: &[f64]) -> Vec<String> {
    let mut rows = Vec::new();
    let Some(norms) = engine.norms(m, n, 0, jacobian) else {
        return rows;
    };
    let seen = all(norms.iter().map(|norm| norm.ranges));
    let Vectors { worked, kept } = reading::vectors(m, n, &jacobian[..m * n]);
    let (added, longer) = (ranges_of(engine, &kept), by_m(engine, m, &worked));
    for (range, saw) in RANGES {
        let mut row = |there: bool, from: &str| {
            rows.extend(there.then(|| format!("factor ok, {range} {from} alone")));
        };
        let lower = |_, of| matches!(of, Of::Pivot(row) if row > 0);
        row(alone(&norms, saw, lower), "by a pivot's lower end");
        let anew = |_, of| of == Of::Anew;
        row(alone(&norms, saw, anew), "by a norm worked out anew");
        row(saw(added) && !saw(seen), "in a norm not worked out anew");
        row(
            saw(longer) && !saw(seen),
            "by m's limit for a part of a column",
        );
    }
    rows
}

fn sources(norms: &[Measured]) -> [bool; 12] {
    let last = norms.iter().rposition(|norm| norm.of == Of::Trial);
    let from = |saw| {
        [
            alone(norms, saw, |_, of| of == Of::Undamped),
            alone(norms, saw, |_, of| of == Of::LowerBound),
            alone(norms, saw, |_, of| of == Of::Gnorm),
            alone(norms, saw, |k, of| of == Of::Trial && Some(k) != last),
            alone(norms, saw, |k, _| Some(k) == last),
            alone(norms, saw, |_, of| of == Of::Correction),
        ]
    };
    let rows = RANGES.map(|(_, saw)| from(saw));
    std::array::from_fn(|k| rows[k / 6][k % 6])
}

/// Whether each norm that saw a large entry is that of a held solve with an infinite one.
fn large_by_infinity(run: &Run) -> bool {
    let mut trials = run.trials.iter();
    let infinite: Vec<bool> = run
        .norms
        .iter()
        .map(|norm| match norm.of {
            Of::LowerBound => run.infinite_first_solve,
            Of::Correction => trials.next().is_some_and(|trial| trial.infinite_solve),
            _ => false,
        })
        .collect();
    alone(&run.norms, |r| r.large, |k, _| infinite[k])
}

/// The rows of an answered search.
pub fn of_search(engine: &dyn Working, asked: &Asked) -> Vec<String> {
    let mut rows = Vec::new();
    let Some(run) = asked.run(engine) else {
        return rows;
    };
    if let End::Refused(_) | End::Stopped(Stop::Undamped) = run.end {
        return rows;
    }
    for (k, _) in sources(&run.norms)
        .iter()
        .enumerate()
        .filter(|(_, holds)| **holds)
    {
        let (range, from) = (RANGES[k / 6].0, SEARCH[k % 6]);
        rows.push(format!("search ok, {range} by {from} alone"));
    }
    if large_by_infinity(&run) {
        rows.push("search ok, large by an infinite held solve alone".into());
    }
    let seen = all(run.norms.iter().map(|norm| norm.ranges));
    let last = run.trials.last().map_or(0.0, |trial| trial.lambda);
    let Some((_, after)) = asked.correction(engine, last) else {
        return rows;
    };
    for (range, saw) in RANGES {
        if saw(after) && !saw(seen) {
            rows.push(format!(
                "search ok, {range} in a correction after the last trial alone"
            ));
        }
    }
    rows
}
