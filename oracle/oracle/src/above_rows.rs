//! What a question of 02, #105, shows, without marks and with them.

use crate::above::{self, Met};
use crate::engines::Working;
use crate::replies::Reply;
use crate::rooms::Rooms;
use crate::script::Item;

const SKIPPED: [&str; 2] = [
    "ok, a skipped column",
    "ok, a skipped column whose sum is not zero",
];

/// The rows of both kinds, but for the sizes.
const ROWS: [&str; 15] = [
    "ok, yes",
    "ok, no",
    "ok, yes where the gradient is refused 8",
    "ok, limit equal to the measure",
    "ok, limit next below the measure",
    "ok, limit zero",
    "ok, limit minus zero",
    SKIPPED[0],
    SKIPPED[1],
    "ok, refused 8 in the columns' own order",
    "refused 8, a NaN",
    "refused 8, an infinity",
    "refused 8, a later column above the limit",
    "refused 8, yes in the columns' own order",
    AGREES,
];
const AGREES: &str = "ok, as the answered gradient says";
/// With marks the sizes have rows as those of other calls.
const FEWER_ROWS: &str = "ok, m < n";

fn row(marks: u16, what: &str) -> String {
    let before = if marks == 0 { "" } else { "with marks: " };
    format!("{before}above limit {what}")
}

/// The columns that are looked at and skipped: any, and one with numbers in it.
fn skipped(met: &Met, limit: f64) -> [bool; 2] {
    let end = met.end(limit).unwrap_or(met.columns.len());
    let looked_at = met.columns[..end].iter();
    let sums = looked_at.filter(|column| column.measure().is_none());
    let sums: Vec<f64> = sums.map(|column| column.sum).collect();
    [!sums.is_empty(), sums.iter().any(|sum| *sum != 0.0)]
}

fn of_yes_or_no(met: &Met, limit: f64, yes: bool) -> [bool; 10] {
    let bits = limit.to_bits();
    let [any, soiled] = skipped(met, limit);
    [
        yes,
        !yes,
        yes && met.gradient == Err(8),
        met.gradient == Ok(limit),
        met.gradient == Ok(limit.next_up()),
        bits == 0,
        bits == (-0.0f64).to_bits(),
        any,
        soiled,
        met.unordered(limit) == Err(8),
    ]
}

fn of_eight(met: &Met, limit: f64) -> [bool; 4] {
    let (_, rest) = met.columns.split_at(met.end(limit).expect("what refused"));
    let measure = rest[0].measure().expect("not skipped");
    [
        measure.is_nan(),
        measure.is_infinite(),
        rest.iter().any(|column| column.is_above(limit)),
        met.unordered(limit) == Ok(true),
    ]
}

/// The rows of one question, given the rooms before it; none where it is refused before 8. What it says must be what the
/// columns say, and the gradient where that is answered.
pub fn of_call(engine: &dyn Working, rooms: &Rooms, item: &Item, reply: &Reply) -> Vec<String> {
    let Item::Above { b_norm, limit } = item else {
        return Vec::new();
    };
    let said = above::said(reply);
    let worked = matches!(said, Ok(_) | Err(8));
    let Some(met) = above::met(engine, rooms, *b_norm).filter(|_| worked) else {
        return Vec::new();
    };
    assert_eq!(said, met.answer(*limit), "{rooms:?}\n{item:?}");
    let agrees = above::as_the_gradient(engine, rooms, item, reply);
    assert_ne!(agrees, Some(false), "{rooms:?}\n{item:?}");
    let (first, last) = match said {
        Ok(yes) => (of_yes_or_no(&met, *limit, yes), [false; 4]),
        Err(_) => ([false; 10], of_eight(&met, *limit)),
    };
    let present = [&first[..], &last, &[agrees == Some(true)]].concat();
    let there = ROWS.iter().zip(present).filter(|(_, holds)| *holds);
    let sizes = said.is_ok() && rooms.state.m < rooms.state.n && rooms.state.marks == 0;
    let names = there
        .map(|(name, _)| *name)
        .chain(sizes.then_some(FEWER_ROWS));
    names.map(|what| row(rooms.state.marks, what)).collect()
}

pub fn wanted() -> Vec<String> {
    let names = ROWS.iter().chain([&FEWER_ROWS]);
    names.map(|what| row(0, what)).collect()
}

pub fn wanted_with_marks() -> Vec<String> {
    ROWS.iter().map(|what| row(1, what)).collect()
}
