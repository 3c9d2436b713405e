//! 02, #108: the refusals of calls with marks and the marks that come back, by both workings.

mod common;

use api::{EMPTY, Held, Mode, State};
use common::{J, NAN, R, ask, bits, both, calls, played, says, scaling, search};
use oracle::engines::Working;
use oracle::rooms::Rooms;
use oracle::script::Item;

/// Column 0 of 3 frozen: the list counts the free columns among themselves, and its tail continues the count.
#[test]
fn the_order_list_has_its_form() {
    both(|e| {
        let with = |order: [usize; 3], call: &Item| {
            let mut rooms = played(e, 3, 0x8000, &J, &R);
            assert_eq!(rooms.order[2], 2);
            rooms.state.held = Held::Zero;
            rooms.order = order.to_vec();
            says(e, &mut rooms, call)
        };
        for call in &calls() {
            let ok = |order| with(order, call).starts_with("ok");
            let unlisted = matches!(
                call,
                Item::Mul | Item::Scale { .. } | Item::Determined | Item::NonSingular
            );
            assert!(ok([0, 1, 2]) && ok([1, 0, 2]));
            for wrong in [
                [1, 2, 0],
                [0, 1, 1],
                [0, 2, 1],
                [2, 1, 0],
                [0, 0, 2],
                [0, 1, 3],
            ] {
                let said = with(wrong, call);
                assert!(if unlisted {
                    said.starts_with("ok")
                } else {
                    said == "refused 4"
                });
            }
        }
    });
}

/// "Every call hands it back unchanged", refused ones too; "an empty state has no marks".
#[test]
fn the_marks_stay() {
    both(|e| {
        let mut rooms = played(e, 3, 0x4000, &J, &R);
        assert_eq!(
            (rooms.state.marks, rooms.state.held),
            (0x4000, Held::Nothing)
        );
        for call in calls()
            .iter()
            .chain(&[search(&[1.0; 3], -1.0), Item::Norm(vec![NAN; 3])])
        {
            says(e, &mut rooms, call);
            assert_eq!(
                (rooms.state.m, rooms.state.n, rooms.state.marks),
                (3, 3, 0x4000)
            );
        }
        for (marks, jacobian) in [(0x1000, [1.0; 9]), (0x4000, [NAN; 9]), (0xE000, [1.0; 9])] {
            assert_eq!(played(e, 3, marks, &jacobian, &R).state, EMPTY);
        }
        assert_eq!(played(e, 3, 0x4000, &[f64::MAX; 9], &R).state, EMPTY);
        let marks = 0x0001;
        let claimed = State { marks, ..EMPTY };
        rooms.state = claimed;
        for call in calls() {
            assert_eq!(says(e, &mut rooms, &call), "refused 5");
            assert_eq!(rooms.state, claimed);
        }
    });
}

/// Three columns, all of them frozen.
const NONE_FREE: u16 = 0xE000;

fn untouched(rooms: &Rooms, lent: &Rooms) -> bool {
    let parts = |rooms: &Rooms| [&rooms.store, &rooms.bench, &rooms.out].map(|part| bits(part));
    parts(rooms) == parts(lent) && rooms.order == lent.order
}

/// What a call says of a state without a free column; nothing is touched.
fn none_free(e: &dyn Working, held: Held, order: [usize; 3], call: &Item) -> String {
    let mut rooms = played(e, 3, 0x0001, &J, &R);
    rooms.order = order.to_vec();
    rooms.state = State {
        m: 3,
        n: 3,
        held,
        marks: NONE_FREE,
    };
    let before = rooms.clone();
    let said = says(e, &mut rooms, call);
    assert!(untouched(&rooms, &before) && rooms.state == before.state);
    said
}

/// Every column frozen: 9 from every call, and nothing is touched.
#[test]
fn nine_touches_nothing() {
    both(|e| {
        for call in &calls() {
            assert_eq!(none_free(e, Held::Damped, [0, 1, 2], call), "refused 9");
        }
        let lent = played(e, 3, 0x0001, &J, &R);
        for (jacobian, said) in [(J, "refused 9"), ([NAN; 9], "refused 6")] {
            let mut rooms = lent.clone();
            let item = Item::Factor {
                m: 3,
                n: 3,
                marks: NONE_FREE,
                jacobian: jacobian.to_vec(),
                residuals: R.to_vec(),
            };
            assert_eq!(says(e, &mut rooms, &item), said);
            assert!(rooms.state == EMPTY && untouched(&rooms, &lent));
        }
    });
}

/// "Tested after 7 and before 8": every test before it comes first, a held call's 5 too.
#[test]
fn nine_comes_after_seven() {
    both(|e| {
        let rhs = || Item::Solve(vec![1.0, NAN, 1.0]);
        let refused = |held, order, call: Item, number: u8| {
            assert_eq!(
                none_free(e, held, order, &call),
                format!("refused {number}")
            );
        };
        let order = [0, 1, 2];
        refused(Held::Zero, order, Item::Norm(vec![1.0]), 3);
        refused(Held::Zero, [0, 2, 1], Item::Zero, 4);
        refused(Held::Nothing, order, Item::Mul, 5);
        refused(Held::Nothing, order, rhs(), 5);
        refused(Held::Zero, order, rhs(), 6);
        refused(Held::Zero, order, search(&[1.0, NAN, 1.0], 0.0), 6);
        refused(Held::Zero, order, search(&[1.0; 3], 0.0), 7);
        refused(Held::Zero, order, search(&[1.0, 0.0, 1.0], 1.0), 7);
        refused(Held::Zero, order, Item::Gradient(-1.0), 7);
        refused(Held::Zero, order, ask(1.0, NAN), 6);
        refused(Held::Zero, order, ask(1.0, -1.0), 7);
    });
}

/// A frozen column's numbers are read by tests 6 and 7, and a mark past n is 2, whatever comes after.
#[test]
fn frozen_numbers_are_tested() {
    both(|e| {
        let mut rooms = played(e, 3, 0x4000, &J, &R);
        let frozen = |x: f64| vec![1.0, x, 1.0];
        says(e, &mut rooms, &Item::Zero);
        for call in [
            Item::Damped(frozen(NAN)),
            Item::Solve(frozen(NAN)),
            Item::Norm(frozen(NAN)),
        ] {
            assert_eq!(says(e, &mut rooms, &call), "refused 6");
        }
        assert_eq!(
            says(e, &mut rooms, &search(&frozen(f64::INFINITY), 1.0)),
            "refused 6"
        );
        assert_eq!(
            says(e, &mut rooms, &search(&frozen(-0.0), 1.0)),
            "refused 7"
        );
        let first = scaling(Mode::FirstUnscaled, &[1.0; 3], &frozen(NAN));
        assert_eq!(says(e, &mut rooms, &first), "refused 6");
        let later = scaling(Mode::LaterScaled, &frozen(NAN), &[1.0; 3]);
        assert_eq!(says(e, &mut rooms, &later), "refused 6");
        rooms.state.marks = 0x4001;
        for call in calls() {
            assert_eq!(says(e, &mut rooms, &call), "refused 2");
        }
    });
}
