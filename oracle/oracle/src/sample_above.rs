//! The part of the sample that is there for the question whether the gradient is above a limit (02, #105): what looks right
//! and is not, then drawn cases that show what none before them has shown.

use crate::cases::{drawn, first_shown};
use crate::sample::{LONG, case, marked_case};
use crate::script::Item;
use crate::wanted::wanted_above;
use crate::{make_calls, make_frozen};
use api::{Held, State};
use std::slice;

const DRAWN: u64 = 3000;

fn ask(b_norm: f64, limit: f64) -> Item {
    Item::Above { b_norm, limit }
}

/// One residual norm, the gradient, then the question with each limit.
fn asked(b_norm: f64, limits: &[f64]) -> Vec<Item> {
    let questions = limits.iter().map(|limit| ask(b_norm, *limit));
    std::iter::once(Item::Gradient(b_norm))
        .chain(questions)
        .collect()
}

/// Document 01's cases I and J: the gradient is 1, and 0. Then one that is the least double.
fn examples() -> Vec<Vec<Item>> {
    let least = f64::from_bits(1);
    let beside = [1.0, 1f64.next_down(), 1f64.next_up(), 0.0, -0.0];
    let low = asked(1.0, &[0.0, -0.0, least]);
    vec![
        case(1, 2, &[3.0, 4.0], &[8.0], &asked(8.0, &beside)),
        case(4, 3, &[0.0; 12], &[1.0, 2.0, 3.0, 4.0], &low),
        case(1, 1, &[1.0], &[least], &low),
    ]
}

/// J = diag(2, 1). A column above the limit before an infinite one: yes where the gradient is refused 8, and 8 for a limit
/// that it is not above. An infinite column first: 8 for every limit. The same with the columns exchanged, whose pivot order
/// is 1, 0; and with a frozen column between, junk in all of work.
fn before_an_infinite_one() -> Vec<Vec<Item>> {
    let limits = [1.0, 0.0, -0.0, 1e11, f64::MAX];
    let calls = asked(1e-310, &limits);
    let junk = [18, 19, 20].map(|place| Item::Store(place, 7.0));
    let after_junk = [&junk[..], &calls[1..]].concat();
    let of = |jacobian: &[f64], residuals: &[f64]| case(2, 2, jacobian, residuals, &calls);
    let (diagonal, exchanged) = ([2.0, 0.0, 0.0, 1.0], [0.0, 1.0, 2.0, 0.0]);
    let between = [2.0, 0.0, 9.0, 9.0, 0.0, 1.0];
    vec![
        of(&diagonal, &[1e-300, 1.0]),
        of(&diagonal, &[1.0, 1e-300]),
        of(&exchanged, &[1e-300, 1.0]),
        of(&exchanged, &[1.0, 1e-300]),
        marked_case(2, 3, 0x4000, &between, &[1e-300, 1.0], &after_junk),
        marked_case(2, 3, 0x4000, &between, &[1.0, 1e-300], &after_junk),
    ]
}

/// What is written into the store of J = diag(2, 1), r = (1, 3), before the questions; work has junk in it each time.
fn soiled(places: &[(usize, f64)], calls: &[Item]) -> Vec<Item> {
    let put = places.iter().map(|(place, x)| Item::Store(*place, *x));
    let junk = [Item::Store(10, 7.0), Item::Store(11, f64::NAN)];
    let each = calls
        .iter()
        .flat_map(|call| [&junk, slice::from_ref(call)].concat());
    let all: Vec<Item> = put.chain(each).collect();
    case(2, 2, &[2.0, 0.0, 0.0, 1.0], &[1.0, 3.0], &all)
}

/// The measures are 1 and 3. A norm of zero, of either sign, skips its column whatever R has there; both skip all; the
/// least norm skips nothing. A NaN first is 8 for every limit, though the sum is zero; a NaN after the first is 8 where the
/// first is not above the limit.
fn in_a_lent_store() -> Vec<Vec<Item>> {
    let limits = [0.0, 1.0, 2.0, 3.0];
    let calls = asked(1.0, &limits);
    vec![
        soiled(&[], &calls),
        soiled(&[(6, 0.0)], &calls),
        soiled(&[(7, -0.0)], &calls),
        soiled(&[(6, -0.0), (7, 0.0)], &calls),
        soiled(&[(6, f64::from_bits(1))], &calls),
        soiled(&[(6, f64::NAN)], &calls),
        soiled(&[(4, 0.0), (6, f64::NAN)], &calls),
        soiled(&[(3, f64::NAN)], &calls),
        soiled(&[(4, f64::INFINITY)], &calls),
        soiled(&[(5, f64::INFINITY)], &calls),
    ]
}

/// Case H with a state that nobody was given, then calls.
fn claimed(held: Held, marks: u16, calls: &[Item]) -> Vec<Item> {
    let state = State {
        m: 1,
        n: 2,
        held,
        marks,
    };
    let put = [Item::Order(0, 0), Item::Order(1, 1), Item::State(state)];
    case(1, 2, &[3.0, 4.0], &[8.0], &[&put, calls].concat())
}

/// Both numbers' 6 before both numbers' 7, and these before 9; −0 passes. What comes before them: 5 of an empty state, 2 of a
/// mark past n, 4 of a list.
fn refused() -> Vec<Vec<Item>> {
    let numbers = [
        ask(f64::NAN, -1.0),
        ask(0.0, f64::NAN),
        ask(-1.0, f64::INFINITY),
        ask(1.0, f64::NEG_INFINITY),
        ask(0.0, 1.0),
        ask(-0.0, -1.0),
        ask(1.0, -f64::from_bits(1)),
        ask(1.0, -0.0),
    ];
    let first = &numbers[..1];
    let list = [Item::Order(1, 0), ask(f64::NAN, -1.0)];
    vec![
        claimed(Held::Nothing, 0, &numbers),
        claimed(Held::Zero, 0xC000, &numbers),
        claimed(Held::Empty, 1, first),
        claimed(Held::Damped, 1, first),
        claimed(Held::Nothing, 0, &list),
    ]
}

/// Sixteen columns, the last of them frozen: the others' measures are 1, 2, up to 15, in their own order.
fn widest() -> Vec<Vec<Item>> {
    let mut jacobian = [0.0; 256];
    (0..16).for_each(|k| jacobian[17 * k] = 1.0);
    let residuals: Vec<f64> = (1..=16).map(f64::from).collect();
    let calls = asked(1.0, &[14.0, 15.0]);
    vec![marked_case(16, 16, 1, &jacobian, &residuals, &calls)]
}

fn drawn_cases() -> Vec<Vec<Item>> {
    let drawn =
        drawn(make_calls::sequence, DRAWN, 105).chain(drawn(make_frozen::sequence, DRAWN, 105));
    first_shown(drawn, &wanted_above(), &[], LONG)
}

pub fn cases() -> Vec<Vec<Item>> {
    let fixed = [
        examples(),
        before_an_infinite_one(),
        in_a_lent_store(),
        refused(),
        widest(),
    ]
    .concat();
    [fixed, drawn_cases()].concat()
}
