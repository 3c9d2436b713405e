//! 02, #107: the refusals of packing and unpacking in their order, which leave everything as it was; and the items of a script.

mod common;

use api::Held;
use common::{NAN, both, played, says};
use oracle::engines::{PLAIN, SHOWN, Working};
use oracle::rooms::Rooms;
use oracle::script::{self, Item};

/// Case H in a room of its own; the packed room has no number in it.
fn h(e: &dyn Working) -> Rooms {
    let mut rooms = played(e, 1, 0, &[3.0, 4.0], &[8.0]);
    rooms.packed[0].room = vec![NAN; 7];
    rooms.packed[0].places = vec![1, 0];
    rooms
}

fn refused(e: &dyn Working, rooms: &Rooms, item: Item) -> String {
    let mut after = rooms.clone();
    let said = says(e, &mut after, &item);
    assert!(after.same(rooms));
    said
}

fn both_refused(e: &dyn Working, rooms: &Rooms) -> [String; 2] {
    [Item::Pack(0), Item::Unpack(0)].map(|item| refused(e, rooms, item))
}

/// One fault is put to the others: it is told before those that were there. 6 is unpacking's alone.
#[test]
fn the_tests_in_their_order() {
    both(|e| {
        let mut rooms = h(e);
        assert_eq!(refused(e, &rooms, Item::Unpack(0)), "refused 6");
        rooms.state.marks = 0xC000;
        (rooms.order, rooms.packed[0].places) = (vec![0, 1], vec![0, 1]);
        assert_eq!(both_refused(e, &rooms), ["refused 9", "refused 6"]);
        let mut finite = rooms.clone();
        finite.packed[0].room.fill(1.0);
        assert_eq!(both_refused(e, &finite), ["refused 9", "refused 9"]);
        (rooms.order, rooms.packed[0].places) = (vec![1, 0], vec![1, 0]);
        assert_eq!(both_refused(e, &rooms), ["refused 4", "refused 4"]);
        let short: [fn(&mut Rooms); 4] = [
            |rooms| rooms.store.truncate(11),
            |rooms| rooms.order.truncate(1),
            |rooms| rooms.packed[0].room.truncate(6),
            |rooms| rooms.packed[0].places.truncate(1),
        ];
        for shorten in short {
            let mut rooms = rooms.clone();
            shorten(&mut rooms);
            assert_eq!(both_refused(e, &rooms), ["refused 3", "refused 3"]);
        }
        short.iter().for_each(|shorten| shorten(&mut rooms));
        rooms.state.marks = 0xE000;
        assert_eq!(both_refused(e, &rooms), ["refused 2", "refused 2"]);
        rooms.state.n = 17;
        assert_eq!(both_refused(e, &rooms), ["refused 2", "refused 2"]);
        (rooms.state.n, rooms.state.m, rooms.state.marks) = (2, 129, 0);
        assert_eq!(both_refused(e, &rooms), ["refused 2", "refused 2"]);
        rooms.state.held = Held::Empty;
        assert_eq!(both_refused(e, &rooms), ["refused 5", "refused 5"]);
    });
}

/// With no fault there is an answer, straight after factoring too.
#[test]
fn nothing_held_is_no_refusal() {
    both(|e| {
        let mut rooms = h(e);
        assert_eq!(says(e, &mut rooms, &Item::Pack(0)), "ok");
        assert_eq!(says(e, &mut rooms, &Item::Unpack(0)), "ok");
    });
}

/// A list is read by the state's marks: with column 0 of three frozen, 1 0 2 passes and 0 2 1 does not.
#[test]
fn the_lists_of_frozen_columns() {
    both(|e| {
        let jacobian = [1.0, 2.0, 2.0, 5.0, -1.0, 3.0, 2.0, 0.0, 1.0];
        let mut rooms = played(e, 3, 0x8000, &jacobian, &[3.0, 1.0, -2.0]);
        rooms.packed[0].room = vec![1.0; 12];
        for (list, expected) in [([1, 0, 2], "ok"), ([0, 2, 1], "refused 4")] {
            let mut own = rooms.clone();
            (own.order, own.packed[0].places) = (list.to_vec(), list.to_vec());
            assert_eq!(says(e, &mut own.clone(), &Item::Pack(0)), expected);
            assert_eq!(says(e, &mut own, &Item::Unpack(0)), expected);
            assert_eq!(own.state.marks, 0x8000);
        }
    });
}

/// Each item reads back as it is written, and a number that is not there is told.
#[test]
fn packing_in_scripts() {
    let lines = "X 1\nJ 2 8 3 A\nB 2\nE 2\nV 2 7 7FF8000000000000\nY 2 1 1F\n";
    let items = lines.lines().map(|line| script::read(line).unwrap());
    assert_eq!(script::text(&items.collect::<Vec<_>>()), lines);
    for line in [
        "X 2",
        "J 3 8 3 A",
        "J 0 8 3",
        "B 3",
        "E",
        "V 0 1",
        "Y 3 0 0",
    ] {
        assert!(script::read(line).is_err(), "{line}");
    }
    for e in [SHOWN, PLAIN] {
        let mut rooms = h(e);
        let text = rooms.printed(e, &Item::Pack(0));
        let room = "C010000000000000 C008000000000000 0000000000000000 C020000000000000";
        let expected = format!(
            "ok\nroom {room} 0000000000000000 4008000000000000 4010000000000000\nplaces 1 0\nstate 1 2 1\nstore "
        );
        assert!(text.starts_with(&expected));
    }
}

/// What is put aside is not seen, and comes back as it was; `R` lends in the place of the lent problem alone.
#[test]
fn three_problems_in_a_script() {
    both(|e| {
        let mut rooms = h(e);
        let first = rooms.clone();
        rooms.play(e, &Item::Exchange(0));
        assert!(rooms.store.is_empty() && rooms.order.is_empty());
        assert_eq!(says(e, &mut rooms, &Item::Zero), "refused 5");
        let lent = Item::Rooms {
            store: 5,
            order: 1,
            bench: 2,
            out: 2,
            seed: 9,
        };
        rooms.play(e, &lent);
        rooms.play(e, &Item::Exchange(1));
        rooms.play(e, &Item::Exchange(0));
        assert_eq!((rooms.state, &rooms.order), (first.state, &first.order));
        assert_eq!(says(e, &mut rooms, &Item::Zero), "ok");
        assert_eq!(rooms.out, [0.0, 2.0]);
        assert_eq!(
            (rooms.aside[0].store.len(), rooms.aside[1].store.len()),
            (0, 5)
        );
    });
}
