//! What a set of cases must cover.

use crate::above_rows;
use crate::away_rows;
use crate::classes::CLASSES;
use crate::frozen_rows;
use crate::seen;

/// Every refusal that each call can give, by document 01's table.
pub const REFUSALS: [(&str, &[u8]); 14] = [
    ("factor", &[2, 3, 6, 8]),
    ("zero solve", &[2, 3, 4, 5, 8]),
    ("damped solve", &[2, 3, 4, 5, 6, 8]),
    ("held solve", &[2, 3, 4, 5, 6, 8]),
    ("held mul_qt_b", &[2, 3, 5, 8]),
    ("gradient", &[2, 3, 4, 5, 6, 7, 8]),
    ("above limit", &[2, 3, 4, 5, 6, 7, 8]),
    ("norm of Jx", &[2, 3, 4, 5, 6, 8]),
    ("scaling", &[2, 3, 5, 6, 7, 8]),
    ("search", &[2, 3, 4, 5, 6, 7, 8]),
    ("determined", &[2, 3, 5]),
    ("is_non_singular", &[2, 3, 5]),
    ("pack", &[2, 3, 4, 5]),
    ("unpack", &[2, 3, 4, 5, 6]),
];

/// The scaling's.
pub const MODES: [&str; 4] = [
    "FirstScaled",
    "FirstUnscaled",
    "LaterScaled",
    "LaterUnscaled",
];

/// What `determined` is told of the diagonal, and what it answers (02, #104).
pub const DETERMINED: [&str; 7] = [
    "below the rank",
    "the rank and below n",
    "limit subnormal",
    "a place at the limit",
    "m < n",
    "NaN on the diagonal",
    "infinity on the diagonal",
];

/// The sizes of answered factorings and searches that are counted by themselves.
pub const SIZES: [(&str, fn(usize, usize) -> bool); 6] = [
    ("m < n", |m, n| m < n),
    ("m < n, n = 16", |m, n| m < n && n == 16),
    ("m = 128", |m, _| m == 128),
    ("n = 16", |_, n| n == 16),
    ("128 by 16", |m, n| (m, n) == (128, 16)),
    ("m from 64, n from 8", |m, n| m >= 64 && n >= 8),
];

fn sizes_of(call: &str) -> impl Iterator<Item = String> {
    SIZES
        .iter()
        .map(move |(size, _)| format!("{call} ok, {size}"))
}

pub const KINDS: [&str; 13] = [
    "m < n",
    "m = 128",
    "n = 16",
    "128 by 16",
    "1 by 1",
    "minus zero",
    "subnormal",
    "below 1e-319",
    "1e307 or more",
    "NaN",
    "infinity",
    "zero column",
    "equal columns",
];

pub fn wanted_of_sheets() -> Vec<String> {
    let mut wanted: Vec<String> = [1, 2, 3, 6, 7, 8]
        .iter()
        .map(|k| format!("sheet refused {k}"))
        .collect();
    for what in [
        "call 1 answered",
        "call 2 answered",
        "rank deficient",
        "J overflows and radius is zero",
    ] {
        wanted.push(format!("sheet {what}"));
    }
    wanted.extend(KINDS.iter().map(|kind| format!("sheet with {kind}")));
    wanted.extend(CLASSES.iter().map(|class| class.to_string()));
    wanted
}

fn answers_of(call: &str, numbers: &[u8]) -> Vec<String> {
    let refused = numbers.iter().map(|k| format!("{call} refused {k}"));
    std::iter::once(format!("{call} ok"))
        .chain(refused)
        .collect()
}

fn answers_of_factorings() -> Vec<String> {
    let (call, numbers) = REFUSALS[0];
    let mut wanted = answers_of(call, numbers);
    wanted.extend(sizes_of(call));
    wanted
}

pub fn wanted_of_factorings() -> Vec<String> {
    [answers_of_factorings(), seen::wanted_of_factorings()].concat()
}

/// What the cases with frozen columns show (02, #108), the question (#105) and packing (#107) among them.
pub fn wanted_of_frozen() -> Vec<String> {
    let above = above_rows::wanted_with_marks();
    let away = away_rows::wanted_with_marks();
    [frozen_rows::wanted(), above, away].concat()
}

pub fn wanted_of_calls() -> Vec<String> {
    let (above, away) = (above_rows::wanted(), away_rows::wanted());
    [wanted_but_ranges(), above, away, wanted_ranges()].concat()
}

/// What is wanted of packing and unpacking (02, #107), without marks and with them.
pub fn wanted_away() -> Vec<String> {
    let all = [wanted_of_calls(), wanted_of_frozen()].concat();
    let of_packing = |row: &String| row.contains("pack ") || row.contains("after an unpacking");
    all.into_iter().filter(of_packing).collect()
}

/// What is wanted of the question (02, #105), without marks and with them.
pub fn wanted_above() -> Vec<String> {
    let all = [wanted_of_calls(), wanted_of_frozen()].concat();
    let of_question = |row: &String| row.contains("above limit ");
    all.into_iter().filter(of_question).collect()
}

/// What is wanted of the ranges (02, #106).
pub fn wanted_ranges() -> Vec<String> {
    [seen::wanted_of_factorings(), seen::wanted_of_calls()].concat()
}

pub fn wanted_but_ranges() -> Vec<String> {
    let mut wanted = vec!["held solve refused 5, nothing held".to_string()];
    for (call, numbers) in &REFUSALS[1..] {
        wanted.extend(answers_of(call, numbers));
    }
    for mode in MODES {
        wanted.push(format!("scaling ok, {mode}"));
    }
    for held in ["Zero", "Damped"] {
        wanted.push(format!("held solve ok, {held}"));
        wanted.push(format!("held mul_qt_b ok, {held}"));
    }
    wanted.extend(DETERMINED.map(|what| format!("determined ok, {what}")));
    wanted.extend(answers_of_factorings());
    wanted.extend(sizes_of("search"));
    wanted.extend(CLASSES.iter().map(|class| class.to_string()));
    wanted
}
