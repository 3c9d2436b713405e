//! 02, #105: what looks right of the question whether the gradient is above a limit, and is not; by both workings, with its
//! numbers.

mod common;

use api::{Held, State};
use common::{NAN, ask, bits, both, played, says};
use oracle::engines::{PLAIN, SHOWN, Working};
use oracle::rooms::Rooms;
use oracle::script::{self, Item};

const YES: &str = "ok 1";
const NO: &str = "ok 0";
const LEAST: f64 = f64::from_bits(1);

/// J = diag(2, 1), whose columns are (2, 0) and (0, 1).
const DIAGONAL: [f64; 4] = [2.0, 0.0, 0.0, 1.0];

fn said(e: &dyn Working, rooms: &Rooms, b_norm: f64, limit: f64) -> String {
    says(e, &mut rooms.clone(), &ask(b_norm, limit))
}

fn gradient(e: &dyn Working, rooms: &Rooms, b_norm: f64) -> String {
    says(e, &mut rooms.clone(), &Item::Gradient(b_norm))
}

/// Case I: at residual norm 8 the gradient is 1. It is not above 1, and above every double that is less.
#[test]
fn case_i_is_above_what_is_below_one() {
    both(|e| {
        let rooms = played(e, 1, 0, &[3.0, 4.0], &[8.0]);
        assert_eq!(gradient(e, &rooms, 8.0), "ok 3FF0000000000000");
        let one = 1.0f64;
        for (limit, expected) in [
            (one, NO),
            (one.next_up(), NO),
            (f64::MAX, NO),
            (one.next_down(), YES),
            (LEAST, YES),
            (0.0, YES),
            (-0.0, YES),
        ] {
            assert_eq!(said(e, &rooms, 8.0, limit), expected, "{limit:e}");
        }
    });
}

/// Case J: no column has a norm, so that no measure is above zero; −0 asks what +0 asks.
#[test]
fn case_j_is_above_nothing() {
    both(|e| {
        let rooms = played(e, 4, 0, &[0.0; 12], &[1.0, 2.0, 3.0, 4.0]);
        for limit in [0.0, -0.0, LEAST, 1.0] {
            assert_eq!(said(e, &rooms, 1.0, limit), NO, "{limit:e}");
        }
    });
}

/// The first column's measure is 1e-300/1e-310, which is 1e10; the second's is 1/1e-310, which is infinite.
#[test]
fn a_column_above_the_limit_before_an_infinite_one_is_yes() {
    both(|e| {
        let rooms = played(e, 2, 0, &DIAGONAL, &[1e-300, 1.0]);
        assert_eq!(rooms.order, [0, 1]);
        assert_eq!(gradient(e, &rooms, 1e-310), "refused 8");
        for (limit, expected) in [
            (1.0, YES),
            (0.0, YES),
            (9.9e9, YES),
            (1.1e10, "refused 8"),
            (f64::MAX, "refused 8"),
        ] {
            assert_eq!(said(e, &rooms, 1e-310, limit), expected, "{limit:e}");
        }
    });
}

/// Infinity is greater than each limit; but it is "not before itself".
#[test]
fn an_infinite_column_is_no_yes() {
    both(|e| {
        let rooms = played(e, 2, 0, &DIAGONAL, &[1.0, 1e-300]);
        assert_eq!(gradient(e, &rooms, 1e-310), "refused 8");
        for limit in [0.0, -0.0, LEAST, 1.0, 1e10, 1e300, f64::MAX] {
            assert_eq!(said(e, &rooms, 1e-310, limit), "refused 8", "{limit:e}");
        }
    });
}

/// Case H has the order 1, 0: with the norms 3 and 4 in their own order the measures would be 4/3 and 3/4. And columns
/// (0, 1) and (2, 0), the same order: the second is asked first, and is what it was in J = diag(2, 1).
#[test]
fn the_columns_are_asked_in_pivot_order() {
    both(|e| {
        let rooms = played(e, 1, 0, &[3.0, 4.0], &[8.0]);
        assert_eq!(rooms.order, [1, 0]);
        assert_eq!(said(e, &rooms, 8.0, 1.0), NO);
        let exchanged = [0.0, 1.0, 2.0, 0.0];
        let rooms = played(e, 2, 0, &exchanged, &[1e-300, 1.0]);
        assert_eq!(rooms.order, [1, 0]);
        assert_eq!(said(e, &rooms, 1e-310, 1.0), YES);
        let rooms = played(e, 2, 0, &exchanged, &[1.0, 1e-300]);
        assert_eq!(said(e, &rooms, 1e-310, 1.0), "refused 8");
    });
}

/// A lent store of two columns, in the order 0, 1: R = (2, 3; 0, 4), qt_b = (1, 2), so that 2·1 and 3·1 + 4·2 = 11 are
/// divided by the norms.
fn lent(norms: [f64; 2]) -> Rooms {
    Rooms {
        store: vec![
            2.0, 0.0, 3.0, 4.0, 1.0, 2.0, norms[0], norms[1], 0.0, 0.0, 7.0, NAN,
        ],
        order: vec![0, 1],
        bench: Vec::new(),
        out: Vec::new(),
        state: State {
            m: 2,
            n: 2,
            held: Held::Nothing,
            marks: 0,
        },
        ..Rooms::none()
    }
}

/// Of norm zero, of either sign, though R and the sum are not zero: |2/0| is infinite and would be refused, as 2 over the
/// least double is.
#[test]
fn a_column_of_norm_zero_is_skipped_whatever_r_has() {
    both(|e| {
        for zero in [0.0, -0.0] {
            let first = lent([zero, 5.0]);
            assert_eq!(said(e, &first, 1.0, (11.0f64 / 5.0).next_down()), YES);
            assert_eq!(said(e, &first, 1.0, 11.0 / 5.0), NO);
            let second = lent([4.0, zero]);
            assert_eq!(said(e, &second, 1.0, 0.5f64.next_down()), YES);
            assert_eq!(said(e, &second, 1.0, 0.5), NO);
            let none = lent([zero, zero]);
            assert_eq!(said(e, &none, 1.0, 0.0), NO);
        }
        assert_eq!(said(e, &lent([LEAST, 5.0]), 1.0, 1.0), "refused 8");
    });
}

/// A NaN ends the question where it stands, and not before; a limit that the first column is above never gets there.
#[test]
fn a_nan_ends_it_where_it_stands() {
    both(|e| {
        for limit in [0.0, 1.0, f64::MAX] {
            assert_eq!(said(e, &lent([NAN, 5.0]), 1.0, limit), "refused 8");
        }
        let later = lent([4.0, NAN]);
        assert_eq!(gradient(e, &later, 1.0), "refused 8");
        assert_eq!(said(e, &later, 1.0, 0.5f64.next_down()), YES);
        assert_eq!(said(e, &later, 1.0, 0.5), "refused 8");
    });
}

fn assert_only_work_is_cleared(before: &Rooms, after: &Rooms) {
    let n = before.state.n;
    let work = n * n + 3 * n..n * n + 4 * n;
    let mut store = before.store.clone();
    store[work].fill(0.0);
    assert_eq!(bits(&after.store), bits(&store));
    assert_eq!((after.state, &after.order), (before.state, &before.order));
    let others = |rooms: &Rooms| (bits(&rooms.bench), bits(&rooms.out));
    assert_eq!(others(after), others(before));
}

/// "On an answer and on 8 the store as before and work +0", junk in the lower part and l_diag too.
#[test]
fn work_is_cleared_on_answers_and_on_eight() {
    both(|e| {
        let cases = [
            ([1e-300, 1.0], 1e-310, 1.0, YES),
            ([1e-300, 1.0], 1e-310, 1e11, "refused 8"),
            ([1.0, 1e-300], 1e-310, 1.0, "refused 8"),
            ([1.0, 1.0], 1.0, 2.0, NO),
        ];
        for (residuals, b_norm, limit, expected) in cases {
            let mut rooms = played(e, 2, 0, &DIAGONAL, &residuals);
            for place in [1, 8, 9, 10, 11] {
                rooms.store[place] = [7.0, NAN][place % 2];
            }
            let before = rooms.clone();
            assert_eq!(says(e, &mut rooms, &ask(b_norm, limit)), expected);
            assert_only_work_is_cleared(&before, &rooms);
        }
    });
}

/// What a question says that is refused before 8: nothing is touched.
fn refused(e: &dyn Working, mut rooms: Rooms, b_norm: f64, limit: f64) -> String {
    let before = rooms.clone();
    let said = says(e, &mut rooms, &ask(b_norm, limit));
    assert!(rooms.same(&before));
    said
}

/// One fault is put to the others: it is told before those that were there.
#[test]
fn the_tests_in_their_order() {
    both(|e| {
        let mut rooms = lent([NAN, 4.0]);
        assert_eq!(said(e, &rooms, 1.0, 1.0), "refused 8");
        rooms.state.marks = 0xC000;
        for (b_norm, limit, expected) in [
            (1.0, 1.0, "refused 9"),
            (1.0, -1.0, "refused 7"),
            (-1.0, 1.0, "refused 7"),
            (-1.0, NAN, "refused 6"),
            (NAN, -1.0, "refused 6"),
        ] {
            assert_eq!(refused(e, rooms.clone(), b_norm, limit), expected);
        }
        rooms.order = vec![1, 0];
        assert_eq!(refused(e, rooms.clone(), NAN, NAN), "refused 4");
        let mut short = rooms.clone();
        short.order.truncate(1);
        assert_eq!(refused(e, short, NAN, NAN), "refused 3");
        rooms.store.truncate(11);
        assert_eq!(refused(e, rooms.clone(), NAN, NAN), "refused 3");
        rooms.state.marks = 0xE000;
        assert_eq!(refused(e, rooms.clone(), NAN, NAN), "refused 2");
        rooms.state.m = 129;
        assert_eq!(refused(e, rooms.clone(), NAN, NAN), "refused 2");
        rooms.state.held = Held::Empty;
        assert_eq!(refused(e, rooms, NAN, NAN), "refused 5");
    });
}

/// A NaN limit is no "no", an infinite one is read too, −0 is not below zero and the least double below it is.
#[test]
fn limits_are_tested() {
    both(|e| {
        for limit in [NAN, f64::INFINITY, f64::NEG_INFINITY] {
            assert_eq!(refused(e, lent([3.0, 4.0]), 1.0, limit), "refused 6");
        }
        for limit in [-LEAST, -1.0, -f64::MAX] {
            assert_eq!(refused(e, lent([3.0, 4.0]), 1.0, limit), "refused 7");
        }
        for b_norm in [0.0, -0.0, -LEAST] {
            assert_eq!(refused(e, lent([3.0, 4.0]), b_norm, 0.0), "refused 7");
        }
        for limit in [0.0, -0.0] {
            assert_eq!(said(e, &lent([3.0, 4.0]), 1.0, limit), YES);
        }
    });
}

/// Columns (2, 0), (9, 9), (0, 1), the second frozen: the question is that of J = diag(2, 1).
#[test]
fn a_frozen_column_is_not_asked() {
    both(|e| {
        let between = [2.0, 0.0, 9.0, 9.0, 0.0, 1.0];
        for (residuals, expected) in [([1e-300, 1.0], YES), ([1.0, 1e-300], "refused 8")] {
            let mut rooms = played(e, 2, 0x4000, &between, &residuals);
            rooms.store[18..21].fill(NAN);
            let before = rooms.clone();
            assert_eq!(says(e, &mut rooms, &ask(1e-310, 1.0)), expected);
            assert_only_work_is_cleared(&before, &rooms);
        }
    });
}

/// An item `A` with the residual norm and the limit; a yes is written as that of `is_non_singular`.
#[test]
fn questions_in_scripts() {
    let line = "A 4020000000000000 3FEFFFFFFFFFFFFF\n";
    let read = || script::read(line.trim_end()).unwrap();
    assert_eq!(script::text(&[read()]), line);
    assert!(script::read("A 4020000000000000").is_err());
    for e in [SHOWN, PLAIN] {
        let mut rooms = played(e, 1, 0, &[3.0, 4.0], &[8.0]);
        let text = rooms.printed(e, &read());
        assert!(text.starts_with("ok 1\nstate 1 2 1\nstore "));
    }
}
