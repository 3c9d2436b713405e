//! The part of the sample that is there for frozen columns (02, #108): what looks right and is not, then drawn cases that show
//! what none before them has shown.

use crate::cases::{drawn, first_shown};
use crate::make_frozen;
use crate::sample::{LONG, marked_case, search};
use crate::script::{Item, mode_of};
use crate::wanted::wanted_of_frozen;

const DRAWN: u64 = 6000;

/// By columns (1 2 2), (5 -1 3), (2 0 1).
const J: [f64; 9] = [1.0, 2.0, 2.0, 5.0, -1.0, 3.0, 2.0, 0.0, 1.0];
const R: [f64; 3] = [3.0, 1.0, -2.0];

fn scaling(mode: usize, diag: &[f64], x: &[f64]) -> Item {
    Item::Scale {
        mode: mode_of(mode),
        diag: diag.to_vec(),
        x: x.to_vec(),
        step_bound: 1.0,
    }
}

fn three(marks: u16, calls: &[Item]) -> Vec<Item> {
    marked_case(3, 3, marks, &J, &R, calls)
}

/// A column frozen is no column of zeros: lambda is 3.504.., and not 3.533... Then every call once, column 0 frozen.
fn each_call() -> Vec<Vec<Item>> {
    let ones = [1.0; 3];
    let held = [Item::Mul, Item::Solve(vec![1.0, 2.0, 3.0])];
    let asked = [
        Item::Gradient(1.0),
        Item::Norm(vec![1.0, 2.0, 3.0]),
        scaling(0, &[7.0; 3], &[1.0, 2.0, 3.0]),
        scaling(1, &[7.0; 3], &[1.0, 2.0, 3.0]),
        scaling(2, &[7.0; 3], &ones),
        scaling(3, &[7.0; 3], &ones),
        Item::Determined,
        Item::NonSingular,
        Item::Zero,
    ];
    let damped = [Item::Damped(vec![9.0, 2.0, 3.0])];
    vec![
        three(0x4000, &[search(&ones, 0.5, 0.0)]),
        three(0x8000, &[&asked, &held[..], &damped, &held].concat()),
    ]
}

/// The order list counts among the free columns, and goes on to n: 0 1 2 and 1 0 2 pass, 1 2 0 and 0 1 1 are refused 4.
fn lists() -> Vec<Vec<Item>> {
    let list = |places: [usize; 3]| {
        let put = |k: usize| Item::Order(k, places[k]);
        three(0x8000, &[put(0), put(1), put(2), Item::Zero])
    };
    vec![
        list([0, 1, 2]),
        list([1, 0, 2]),
        list([1, 2, 0]),
        list([0, 1, 1]),
    ]
}

/// The widest, its last column frozen: 15 of 16 marks are clear.
fn widest() -> Vec<Vec<Item>> {
    let mut jacobian = [0.0; 256];
    (0..16).for_each(|k| jacobian[17 * k] = 1.0);
    let calls = [search(&[1.0; 16], 0.5, 0.0), Item::NonSingular];
    vec![marked_case(16, 16, 1, &jacobian, &[1.0; 16], &calls)]
}

/// No column free: refused 9, after what is tested before it, and nothing is cleared. A mark past n: refused 2.
fn none_free() -> Vec<Vec<Item>> {
    let mut spoiled = J;
    spoiled[0] = f64::NAN;
    vec![
        three(0xE000, &[Item::Zero]),
        three(0x1000, &[]),
        marked_case(3, 3, 0xE000, &spoiled, &R, &[]),
    ]
}

fn drawn_cases() -> Vec<Vec<Item>> {
    let drawn = drawn(make_frozen::bare_sequence, DRAWN, 108);
    first_shown(drawn, &wanted_of_frozen(), &[], LONG)
}

pub fn cases() -> Vec<Vec<Item>> {
    [each_call(), lists(), widest(), none_free(), drawn_cases()].concat()
}
