//! 02, #108: what looks right of frozen columns and is not, by both workings, with its numbers.

mod common;

use api::{Mode, Ranges};
use common::{J, NAN, R, bits, both, played, says, scaling, search};
use oracle::engines::{PLAIN, SHOWN, Working};
use oracle::rooms::Rooms;
use oracle::script::{self, Item};

fn lambda_of(e: &dyn Working, marks: u16, jacobian: &[f64]) -> (f64, [u64; 3]) {
    let mut rooms = played(e, 3, marks, jacobian, &R);
    let said = says(e, &mut rooms, &search(&[1.0; 3], 0.5));
    let lambda = said.split(' ').nth(1).unwrap();
    let lambda = f64::from_bits(u64::from_str_radix(lambda, 16).unwrap());
    (lambda, bits(&rooms.out)[..3].try_into().unwrap())
}

/// Column 1 frozen. With that column zero instead, full rank is lost, and the lower bound with it.
#[test]
fn a_frozen_column_is_no_zero_column() {
    both(|e| {
        let (lambda, step) = lambda_of(e, 0x4000, &J);
        assert!((3.504..3.505).contains(&lambda), "{lambda}");
        assert_eq!(step[1], 0);
        let mut zeroed = J;
        zeroed[3..6].fill(0.0);
        let (lambda, _) = lambda_of(e, 0, &zeroed);
        assert!((3.533..3.534).contains(&lambda), "{lambda}");
    });
}

/// One free of four and a step of 4e18: over four places that is large. Two free of four: over four places the norm has
/// other bits too.
#[test]
fn norms_go_by_the_free_count() {
    both(|e| {
        let found = |marks: u16, residuals: [f64; 4]| {
            let mut jacobian = [0.0; 16];
            (0..4).for_each(|k| jacobian[5 * k] = 1.0);
            let mut rooms = played(e, 4, marks, &jacobian, &residuals);
            let mut out = [7.0; 4];
            let Rooms {
                state,
                store,
                order,
                ..
            } = &mut rooms;
            let (told, _) = e.search(*state, store, order, &[1.0; 4], 1e19, 0.0, &mut out);
            told.map(|(found, ranges)| (found.norm, ranges)).unwrap()
        };
        assert_eq!(
            found(0x7000, [4e18, 0.0, 0.0, 0.0]),
            (4e18, Ranges::NEITHER)
        );
        let (norm, ranges) = found(0x3000, [4.3e18, 4.1e18, 1e30, 1e30]);
        let (over_two, _) = e.enorm(&[4.3e18, 4.1e18]).unwrap();
        let (over_four, wrong) = e.enorm(&[4.3e18, 4.1e18, 0.0, 0.0]).unwrap();
        assert_eq!((norm, ranges), (over_two, Ranges::NEITHER));
        assert!(wrong.large && over_four != over_two);
    });
}

/// Column 0 frozen, of norm 7; the norms of the others are 3 and 5. norms[i] is that of the i-th free column.
#[test]
fn a_scaling_leaves_out_the_frozen_column() {
    both(|e| {
        let jacobian = [7.0, 0.0, 0.0, 0.0, -3.0, 0.0, 0.0, 0.0, 5.0];
        let scaled = |mode: Mode, lent: [f64; 3]| {
            let mut rooms = played(e, 3, 0x8000, &jacobian, &R);
            let reply = rooms
                .play(e, &scaling(mode, &lent, &[-9.0, 1.0, 0.8]))
                .unwrap();
            let doubles = reply.text().lines().next().unwrap().to_string();
            (reply.scaling.unwrap(), doubles)
        };
        let five = "ok 4014000000000000 4024000000000000 0 0";
        assert_eq!(
            scaled(Mode::FirstScaled, [9.0, NAN, NAN]),
            (vec![1.0, 3.0, 5.0], five.into())
        );
        assert_eq!(
            scaled(Mode::LaterScaled, [9.0, 4.0, 4.0]),
            (vec![9.0, 4.0, 5.0], "ok 0 0".into())
        );
        assert_eq!(
            scaled(Mode::LaterUnscaled, [9.0, 4.0, 4.0]).0,
            [9.0, 4.0, 4.0]
        );
        assert_eq!(
            scaled(Mode::FirstUnscaled, [9.0, 4.0, 4.0]).0,
            [9.0, 4.0, 4.0]
        );
    });
}

/// The output held junk, and the frozen column would give numbers below zero.
#[test]
fn a_frozen_step_is_plus_zero() {
    both(|e| {
        let jacobian = J.map(|x| -x);
        let mut rooms = played(e, 3, 0x4000, &jacobian, &R);
        for call in [
            Item::Zero,
            Item::Damped(vec![-1.0; 3]),
            search(&[-1.0; 3], 0.5),
        ] {
            rooms.out.fill(-7.0);
            says(e, &mut rooms, &call);
            assert!(rooms.out[1].to_bits() == 0 && rooms.out[2] != 0.0);
        }
        for solve in [Item::Zero, Item::Damped(vec![1.0; 3])] {
            says(e, &mut rooms, &solve);
            for call in [Item::Solve(vec![1.0, -5.0, 2.0]), Item::Mul] {
                rooms.out.fill(-7.0);
                says(e, &mut rooms, &call);
                assert!(rooms.out[2].to_bits() == 0 && rooms.out[1] != 0.0);
            }
        }
    });
}

/// "Its columns still n apart, +0 past the free count", and all of the bench is +0.
#[test]
fn a_factoring_lays_out_the_reduced_problem() {
    both(|e| {
        let rooms = played(e, 3, 0x4000, &J, &R);
        let own = played(e, 3, 0, &[1.0, 2.0, 2.0, 2.0, 0.0, 1.0], &R);
        let (s, o) = (&rooms.store, &own.store);
        assert_eq!(s[..9], [o[0], 0.0, 0.0, o[2], o[3], 0.0, 0.0, 0.0, 0.0]);
        assert_eq!(s[9..15], [o[4], o[5], 0.0, o[6], o[7], 0.0]);
        assert!(s[15..].iter().chain(&rooms.bench).all(|x| x.to_bits() == 0));
        assert_eq!(rooms.order, [own.order[0], own.order[1], 2]);
    });
}

/// Two rows, three columns, one of them frozen: of full rank, and max(m, n) of #104 is 2.
#[test]
fn rank_goes_by_the_free_count() {
    both(|e| {
        let edge = 2.0 * f64::EPSILON;
        for (second, count) in [(edge.next_up(), "ok 2"), (edge, "ok 1")] {
            let mut rooms = played(
                e,
                2,
                0x8000,
                &[9.0, 9.0, 1.0, 0.0, 0.0, second],
                &[1.0, 1.0],
            );
            assert_eq!(says(e, &mut rooms, &Item::NonSingular), "ok 1");
            assert_eq!(says(e, &mut rooms, &Item::Determined), count);
        }
    });
}

/// `K` is a factoring with marks; `F`, `T` and `state` without them read as before there were any.
#[test]
fn marks_in_scripts() {
    let back = |line: &str| script::text(&[script::read(line).unwrap()]);
    let (k, f) = ("K 1 2 4000 2 1", "F 1 2 2 1");
    let doubles = " 4008000000000000 4010000000000000 4020000000000000\n";
    for line in [k.to_string() + doubles, f.to_string() + doubles] {
        assert_eq!(back(&line), line);
    }
    assert_eq!(
        back(&("K 1 2 0 2 1".to_string() + doubles)),
        f.to_string() + doubles
    );
    for line in ["T 3 2 1\n", "T 3 2 1 8000\n"] {
        assert_eq!(back(line), line);
    }
    assert_eq!(back("T 3 2 1 0"), "T 3 2 1\n");
    assert!(script::read("T 3 2 1 10000").is_err());
    for e in [SHOWN, PLAIN] {
        let mut rooms = played(e, 1, 0, &[3.0, 4.0], &[8.0]);
        let state = |text: String| text.lines().nth(1).unwrap().to_string();
        let read = script::read(&(k.to_string() + doubles)).unwrap();
        assert_eq!(state(rooms.printed(e, &read)), "state 1 2 1 4000");
        assert_eq!(state(rooms.printed(e, &Item::Zero)), "state 1 2 2 4000");
        rooms.state.marks = 0xC000;
        let refused = rooms.printed(e, &Item::Determined);
        assert!(refused.starts_with("refused 9\nstate 1 2 2 C000\n"));
    }
}
