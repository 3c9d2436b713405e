//! Factorings with marks in lent rooms full of junk, for the tests of 02, #108 and #105; each of them uses a part.
#![allow(dead_code)]

use api::Mode;
use oracle::engines::{PLAIN, SHOWN, Working};
use oracle::rooms::Rooms;
use oracle::sample::marked_case;
use oracle::script::Item;

pub fn both(test: fn(&dyn Working)) {
    test(SHOWN);
    test(PLAIN);
}

pub fn bits(v: &[f64]) -> Vec<u64> {
    v.iter().map(|x| x.to_bits()).collect()
}

/// Lent rooms full of junk, and a factoring in them.
pub fn played(e: &dyn Working, m: usize, marks: u16, jacobian: &[f64], residuals: &[f64]) -> Rooms {
    let n = jacobian.len() / m;
    let mut rooms = Rooms::none();
    for item in &marked_case(m, n, marks, jacobian, residuals, &[])[..2] {
        rooms.play(e, item);
    }
    rooms
}

/// What a call says: `ok` with its numbers, or its refusal.
pub fn says(e: &dyn Working, rooms: &mut Rooms, item: &Item) -> String {
    let reply = rooms.play(e, item).expect("a call");
    reply.text().lines().next().unwrap().to_string()
}

pub fn search(diag: &[f64], radius: f64) -> Item {
    Item::Search {
        diag: diag.to_vec(),
        radius,
        lambda: 0.0,
    }
}

pub fn scaling(mode: Mode, diag: &[f64], x: &[f64]) -> Item {
    Item::Scale {
        mode,
        diag: diag.to_vec(),
        x: x.to_vec(),
        step_bound: 2.0,
    }
}

pub fn ask(b_norm: f64, limit: f64) -> Item {
    Item::Above { b_norm, limit }
}

/// Every call that takes a state, with arguments that pass for three columns.
pub fn calls() -> [Item; 11] {
    let v = || vec![1.0, 2.0, 3.0];
    [
        Item::Zero,
        Item::Damped(v()),
        Item::Solve(v()),
        Item::Gradient(1.0),
        ask(1.0, 1.0),
        Item::Norm(v()),
        search(&v(), 0.5),
        Item::Mul,
        scaling(Mode::FirstScaled, &v(), &v()),
        Item::Determined,
        Item::NonSingular,
    ]
}

pub const NAN: f64 = f64::NAN;
pub const J: [f64; 9] = [1.0, 2.0, 2.0, 5.0, -1.0, 3.0, 2.0, 0.0, 1.0];
pub const R: [f64; 3] = [3.0, 1.0, -2.0];
