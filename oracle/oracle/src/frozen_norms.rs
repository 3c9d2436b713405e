//! What goes by the free count in calls with marks (02, #108). The norms, on #106: ranges that the reduced problem has not,
//! and that a norm over the frozen columns, or over n places, would have. The limit of `determined`, on #104.

use crate::engines::Working;
use crate::frozen_rows::Marked;
use crate::replies::Reply;
use crate::script::Item;
use api::{Mode, Ranges, frozen};

const FULL: [&str; 2] = [
    "small of a frozen column alone",
    "large of a frozen column alone",
];
/// Zeros at the frozen places are neither small nor large: only the limit of large goes by the length.
const LONGER: &str = "large in a norm over n places alone";

const BY_N: &str = "another count by max(m, n)";

fn seen(engine: &dyn Working, v: &[f64]) -> Ranges {
    engine
        .enorm(v)
        .map_or(Ranges::NEITHER, |(_, ranges)| ranges)
}

fn of_factoring(engine: &dyn Working, m: usize, n: usize, jacobian: &[f64]) -> Ranges {
    let norms = engine.norms(m, n, 0, jacobian).unwrap_or_default();
    let each = norms.iter().map(|norm| norm.ranges);
    each.fold(Ranges::NEITHER, Ranges::either)
}

/// The vector of a first scaling with every column's entry, and with zeros at the frozen ones.
fn products(marked: &Marked, mode: Mode, x: &[f64]) -> [Vec<f64>; 2] {
    let (n, mut place) = (marked.n, 0);
    let norms = &marked.rooms.store[n * n + n..];
    let (mut full, mut longer) = (x[..n].to_vec(), x[..n].to_vec());
    for k in 0..n {
        if frozen(marked.marks, k) {
            longer[k] = 0.0;
            continue;
        }
        let scaled = mode == Mode::FirstScaled && norms[place] != 0.0;
        let product = if scaled { norms[place] * x[k] } else { x[k] };
        (full[k], longer[k]) = (product, product);
        place += 1;
    }
    [full, longer]
}

/// The last scaled step of a search, with zeros at the frozen places.
fn last_step(engine: &dyn Working, marked: &Marked, diag: &[f64]) -> Vec<f64> {
    let mut after = marked.rooms.clone();
    after.play(engine, marked.item);
    let step = after.out[..marked.n].iter();
    step.zip(diag).map(|(p, d)| p * d).collect()
}

fn rows(told: Ranges, full: Ranges, longer: Ranges) -> Vec<String> {
    let present = [
        (full.small && !told.small, FULL[0]),
        (full.large && !told.large, FULL[1]),
        (longer.large && !told.large, LONGER),
    ];
    let there = present.iter().filter(|(holds, _)| *holds);
    there.map(|(_, name)| name.to_string()).collect()
}

/// The leading places above the limit that so many columns give.
fn leading(marked: &Marked, columns: usize) -> usize {
    let diagonal = |j: usize| marked.rooms.store[j * marked.n + j].abs();
    let limit = (marked.m.max(columns) as f64 * f64::EPSILON) * diagonal(0);
    let there = 0..marked.m.min(marked.free);
    there.take_while(|j| diagonal(*j) > limit).count()
}

/// What is told of an answer, after the call's name and `ok`.
pub fn of_answer(engine: &dyn Working, marked: &Marked, reply: &Reply) -> Vec<String> {
    if let Item::Determined = marked.item {
        let other = leading(marked, marked.n) != leading(marked, marked.free);
        return other.then(|| BY_N.to_string()).into_iter().collect();
    }
    let Ok(Some(told)) = reply.answer.as_ref().map(|answer| answer.ranges) else {
        return Vec::new();
    };
    match marked.item {
        Item::Factor { m, n, jacobian, .. } => {
            let full = of_factoring(engine, *m, *n, jacobian);
            rows(told, full, Ranges::NEITHER)
        }
        Item::Scale {
            mode: mode @ (Mode::FirstScaled | Mode::FirstUnscaled),
            x,
            ..
        } => {
            let [full, longer] = products(marked, *mode, x);
            rows(told, seen(engine, &full), seen(engine, &longer))
        }
        Item::Search { diag, .. } => {
            let longer = last_step(engine, marked, diag);
            rows(told, Ranges::NEITHER, seen(engine, &longer))
        }
        _ => Vec::new(),
    }
}

pub fn wanted(call: &str) -> Vec<String> {
    let names: &[&str] = match call {
        "factor" => &FULL,
        "scaling" => &[FULL[0], FULL[1], LONGER],
        "search" => &[LONGER],
        "determined" => &[BY_N],
        _ => &[],
    };
    names.iter().map(|name| format!("ok, {name}")).collect()
}
