//! 02, #107: what looks right of putting a factored problem away, and is not; by both workings, with its numbers.

mod common;

use api::{Held, State};
use common::{J, NAN, R, bits, both, calls, played, says};
use oracle::engines::Working;
use oracle::rooms::Rooms;
use oracle::script::Item;

const OK: &str = "ok";
/// Of three columns: the triangle 6, qt_b 3, norms 3.
const THREE: usize = 12;

fn lend(room: usize, places: usize) -> Item {
    Item::Lend {
        packed: 0,
        room,
        places,
        seed: 3,
    }
}

/// The lent store and order list full of junk, one longer than needed, by a state that claims a problem.
fn over_junk(e: &dyn Working, rooms: &mut Rooms, state: State) {
    let n = state.n;
    let lent = Item::Rooms {
        store: n * n + 4 * n + 1,
        order: n + 1,
        bench: 0,
        out: n,
        seed: 5,
    };
    rooms.play(e, &lent);
    rooms.play(e, &Item::State(state));
}

/// Case H: 7 doubles, 2 places, and a surplus of one each.
fn h(e: &dyn Working) -> Rooms {
    let mut rooms = played(e, 1, 0, &[3.0, 4.0], &[8.0]);
    rooms.play(e, &lend(8, 3));
    rooms
}

fn holding(rooms: &Rooms, held: Held) -> State {
    State {
        held,
        ..rooms.state
    }
}

fn is_zero(store: &[f64], places: impl IntoIterator<Item = usize>) -> bool {
    let mut places = places.into_iter();
    places.all(|place| store[place].to_bits() == 0)
}

/// H factored, a damped solve, packed, unpacked over junk: a held call is refused 5, the zero solve is (0, 2).
#[test]
fn case_h_comes_back() {
    both(|e| {
        let mut rooms = h(e);
        assert_eq!(says(e, &mut rooms, &Item::Damped(vec![1.0, 1.0])), OK);
        assert_eq!(says(e, &mut rooms, &Item::Pack(0)), OK);
        let state = rooms.state;
        assert_eq!(state.held, Held::Damped);
        over_junk(e, &mut rooms, state);
        let (surplus, last) = (rooms.store[12], rooms.order[2]);
        assert_eq!(says(e, &mut rooms, &Item::Unpack(0)), OK);
        assert_eq!(rooms.state, holding(&rooms, Held::Nothing));
        assert_eq!((rooms.order[0], rooms.order[1]), (1, 0));
        assert!(rooms.store[12].to_bits() == surplus.to_bits() && rooms.order[2] == last);
        assert_eq!(says(e, &mut rooms, &Item::Mul), "refused 5");
        assert_eq!(
            says(e, &mut rooms, &Item::Solve(vec![1.0, 2.0])),
            "refused 5"
        );
        assert_eq!(
            says(e, &mut rooms, &Item::Gradient(8.0)),
            "ok 3FF0000000000000"
        );
        assert_eq!(says(e, &mut rooms, &Item::Zero), OK);
        assert_eq!(rooms.out, [0.0, 2.0]);
    });
}

/// R's columns (-4) and (-3, 0), qt_b (-8, 0), the norms 3 and 4; the surplus of room and places stays.
#[test]
fn the_room_of_case_h() {
    both(|e| {
        let mut rooms = h(e);
        let before = rooms.packed[0].clone();
        assert_eq!(says(e, &mut rooms, &Item::Pack(0)), OK);
        let packed = &rooms.packed[0];
        assert_eq!(packed.room[..7], [-4.0, -3.0, 0.0, -8.0, 0.0, 3.0, 4.0]);
        assert_eq!(packed.places[..2], [1, 0]);
        assert_eq!(bits(&packed.room[7..]), bits(&before.room[7..]));
        assert_eq!(packed.places[2], before.places[2]);
    });
}

/// What is left of another problem's damped solve below R, in l_diag and in work would show in the store.
#[test]
fn what_stands_in_the_lent_store_is_gone() {
    both(|e| {
        let mut rooms = h(e);
        let factored = rooms.store.clone();
        says(e, &mut rooms, &Item::Pack(0));
        rooms.play(e, &Item::Exchange(0));
        let mut other = played(e, 1, 0, &[5.0, 2.0], &[3.0]);
        (other.packed, other.aside) = (rooms.packed.clone(), rooms.aside.clone());
        assert_eq!(says(e, &mut other, &Item::Damped(vec![2.0, 2.0])), OK);
        other.store[10] = 7.0;
        assert!(!is_zero(&other.store, [1, 8, 9]));
        assert_eq!(says(e, &mut other, &Item::Unpack(0)), OK);
        assert_eq!(bits(&other.store), bits(&factored));
        assert!(is_zero(&other.store, [1, 8, 9, 10, 11]));
        assert_eq!(says(e, &mut other, &Item::Mul), "refused 5");
        assert_eq!(says(e, &mut other, &Item::Zero), OK);
        assert!(is_zero(&other.store, [1, 8, 9, 10, 11]));
        assert_eq!(other.out, [0.0, 2.0]);
    });
}

/// "Held nothing", whatever the state that comes: a held call after it is refused 5.
#[test]
fn nothing_is_held_after_it() {
    both(|e| {
        for held in [Held::Nothing, Held::Zero, Held::Damped] {
            let mut rooms = h(e);
            says(e, &mut rooms, &Item::Pack(0));
            rooms.state.held = held;
            assert_eq!(says(e, &mut rooms, &Item::Unpack(0)), OK);
            assert_eq!(rooms.state, holding(&rooms, Held::Nothing));
            assert_eq!(says(e, &mut rooms, &Item::Mul), "refused 5");
        }
    });
}

/// J = (3), r = (6), D = (4): l_diag is 5, R is -3. Packed straight after factoring, after a zero and after a damped solve, the
/// room is (-3, -6, 3) each time, and the state comes back as it was.
#[test]
fn r_is_packed_and_not_l() {
    both(|e| {
        for (call, held) in [
            (Item::Determined, Held::Nothing),
            (Item::Zero, Held::Zero),
            (Item::Damped(vec![4.0]), Held::Damped),
        ] {
            let mut rooms = played(e, 1, 0, &[3.0], &[6.0]);
            rooms.play(e, &lend(3, 1));
            says(e, &mut rooms, &call);
            let before = rooms.clone();
            assert_eq!(says(e, &mut rooms, &Item::Pack(0)), OK);
            assert_eq!(rooms.packed[0].room, [-3.0, -6.0, 3.0]);
            assert_eq!(rooms.packed[0].places, [0]);
            assert_eq!((rooms.state, held), (before.state, before.state.held));
            assert_eq!(bits(&rooms.store), bits(&before.store));
        }
    });
}

/// Test 6 reads the first seven doubles, and no surplus.
#[test]
fn the_surplus_of_the_room_is_not_read() {
    both(|e| {
        for x in [NAN, f64::INFINITY, f64::NEG_INFINITY] {
            for place in 0..8 {
                let mut rooms = h(e);
                says(e, &mut rooms, &Item::Pack(0));
                rooms.play(e, &Item::Packed(0, place, x));
                let expected = if place == 7 { OK } else { "refused 6" };
                let before = rooms.clone();
                assert_eq!(says(e, &mut rooms, &Item::Unpack(0)), expected);
                assert!(place == 7 || rooms.same(&before));
            }
        }
    });
}

/// Test 4 reads the places: junk in the lent order list passes, junk in the places does not.
#[test]
fn the_places_are_the_list() {
    both(|e| {
        let mut rooms = h(e);
        says(e, &mut rooms, &Item::Pack(0));
        rooms.order = vec![31, 31];
        assert_eq!(says(e, &mut rooms, &Item::Unpack(0)), OK);
        assert_eq!(rooms.order, [1, 0]);
        for places in [[0, 0], [1, 1], [0, 2]] {
            rooms.packed[0].places[..2].copy_from_slice(&places);
            let before = rooms.clone();
            assert_eq!(says(e, &mut rooms, &Item::Unpack(0)), "refused 4");
            assert!(rooms.same(&before));
        }
        rooms.order = vec![0, 0];
        assert_eq!(says(e, &mut rooms, &Item::Pack(0)), "refused 4");
    });
}

/// J's columns (2, 0), (0, 1), (0, 0), r = (4, 3): the step is (2, 3, 0). And a room that nobody packed, R and the order of three
/// ones, qt_b = (4, 3, 5): with two rows the third is not read.
#[test]
fn two_rows_and_three_columns() {
    both(|e| {
        let mut rooms = played(e, 2, 0, &[2.0, 0.0, 0.0, 1.0, 0.0, 0.0], &[4.0, 3.0]);
        rooms.play(e, &lend(THREE, 3));
        assert_eq!(says(e, &mut rooms, &Item::Pack(0)), OK);
        let state = rooms.state;
        over_junk(e, &mut rooms, state);
        assert_eq!(says(e, &mut rooms, &Item::Unpack(0)), OK);
        assert_eq!(says(e, &mut rooms, &Item::Determined), "ok 2");
        assert_eq!(says(e, &mut rooms, &Item::Zero), OK);
        assert_eq!(rooms.out, [2.0, 3.0, 0.0]);
        let ones = [1.0, 0.0, 1.0, 0.0, 0.0, 1.0, 4.0, 3.0, 5.0, 1.0, 1.0, 1.0];
        rooms.packed[0].room = ones.to_vec();
        rooms.packed[0].places = vec![0, 1, 2];
        for (m, third) in [(2, 0.0), (3, 5.0)] {
            rooms.state.m = m;
            assert_eq!(says(e, &mut rooms, &Item::Unpack(0)), OK);
            assert_eq!((rooms.state.m, rooms.store[8]), (m, 1.0));
            assert_eq!(says(e, &mut rooms, &Item::Zero), OK);
            assert_eq!(rooms.out, [4.0, 3.0, third]);
        }
    });
}

/// "Packing only reads the store": junk in work, below R and in l_diag stays, and a number that is none packs; unpacking
/// refuses it.
#[test]
fn packing_only_reads() {
    both(|e| {
        let mut rooms = h(e);
        for place in [1, 8, 9, 10, 11] {
            rooms.store[place] = [7.0, NAN][place % 2];
        }
        let before = rooms.clone();
        assert_eq!(says(e, &mut rooms, &Item::Pack(0)), OK);
        assert_eq!(bits(&rooms.store), bits(&before.store));
        assert_eq!((rooms.state, &rooms.order), (before.state, &before.order));
        assert_eq!(says(e, &mut rooms, &Item::Unpack(0)), OK);
        for place in [0, 2, 3, 4, 5, 6, 7] {
            let mut spoilt = before.clone();
            spoilt.store[place] = NAN;
            assert_eq!(says(e, &mut spoilt, &Item::Pack(0)), OK);
            assert_eq!(says(e, &mut spoilt, &Item::Unpack(0)), "refused 6");
        }
    });
}

/// "Every call on the unpacked problem answers as on the problem that was packed", in another store, with marks and without.
#[test]
fn every_call_as_after_factoring() {
    both(|e| {
        for marks in [0, 0x8000, 0x4000, 0xA000] {
            let fresh = played(e, 3, marks, &J, &R);
            let mut rooms = fresh.clone();
            rooms.play(e, &lend(THREE, 3));
            says(e, &mut rooms, &Item::Damped(vec![1.0, 2.0, 3.0]));
            assert_eq!(says(e, &mut rooms, &Item::Pack(0)), OK);
            let kept = rooms.state;
            over_junk(e, &mut rooms, kept);
            assert_eq!(says(e, &mut rooms, &Item::Unpack(0)), OK);
            assert_eq!((rooms.state, rooms.state.marks), (fresh.state, marks));
            assert_eq!(bits(&rooms.store[..21]), bits(&fresh.store));
            assert_eq!(rooms.order[..3], fresh.order);
            for item in calls() {
                let (mut a, mut b) = (fresh.clone(), rooms.clone());
                b.out.clone_from(&a.out);
                assert_eq!(says(e, &mut a, &item), says(e, &mut b, &item));
                assert_eq!(bits(&a.store), bits(&b.store[..21]));
                assert_eq!((a.state, bits(&a.out)), (b.state, bits(&b.out)));
            }
        }
    });
}

/// Nothing past the free count is cleared: what was unpacked packs to the same bits.
#[test]
fn packing_what_was_unpacked() {
    both(|e| {
        for marks in [0, 0x4000, 0xC000] {
            let mut rooms = played(e, 3, marks, &J, &R);
            rooms.play(e, &lend(THREE, 3));
            let free = api::free(marks, 3);
            rooms.packed[0].places = (0..free).rev().chain(free..3).collect();
            let before = rooms.packed[0].clone();
            assert_eq!(says(e, &mut rooms, &Item::Unpack(0)), OK);
            rooms.packed[0].room.fill(NAN);
            rooms.packed[0].places.fill(31);
            assert_eq!(says(e, &mut rooms, &Item::Pack(0)), OK);
            assert_eq!(bits(&rooms.packed[0].room), bits(&before.room));
            assert_eq!(rooms.packed[0].places, before.places);
        }
    });
}
