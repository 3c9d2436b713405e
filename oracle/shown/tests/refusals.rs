//! Document 01's refusal numbers, by inputs that earn several of them: the first test in its order answers.

use api::{EMPTY, Engine, Held, Leaves, Mode, Ranges, State};
use shown::Shown;

const NAN: f64 = f64::NAN;

/// R = (2), order 0, and room to spare.
const STORE: [f64; 5] = [2.0, 4.0, 2.0, 0.0, 7.0];

fn state(m: usize, n: usize, held: Held) -> State {
    State {
        m,
        n,
        held,
        marks: 0,
    }
}

fn search(state: State, store: &[f64], order: &[usize], diag: &[f64], radius: f64) -> u8 {
    let (mut store, mut out) = (store.to_vec(), [7.0]);
    let (found, back) = Shown.search(state, &mut store, order, diag, radius, 0.0, &mut out);
    if found.is_err() {
        assert_eq!((back, out), (state, [7.0]));
    }
    found.err().unwrap_or(0)
}

#[test]
fn the_search_tests_in_order() {
    let held = |m, n| state(m, n, Held::Nothing);
    assert_eq!(search(state(0, 99, Held::Empty), &[], &[], &[NAN], NAN), 5);
    assert_eq!(
        search(state(1, 1, Held::Empty), &STORE, &[0], &[1.0], 1.0),
        5
    );
    assert_eq!(search(held(0, 1), &[], &[], &[NAN], NAN), 2);
    assert_eq!(search(held(129, 1), &[], &[], &[NAN], NAN), 2);
    assert_eq!(search(held(1, 17), &[], &[], &[NAN], NAN), 2);
    assert_eq!(search(held(1, 1), &STORE[..4], &[5], &[NAN], 0.0), 3);
    assert_eq!(search(held(1, 1), &STORE, &[5], &[], 0.0), 3);
    assert_eq!(search(held(1, 1), &STORE, &[5], &[NAN], 0.0), 4);
    assert_eq!(search(held(1, 1), &STORE, &[0, 5], &[NAN], 0.0), 6);
    assert_eq!(search(held(1, 1), &STORE, &[0], &[0.0], NAN), 6);
    assert_eq!(search(held(1, 1), &STORE, &[0], &[1.0, NAN], 0.0), 7);
    assert_eq!(search(held(1, 1), &STORE, &[0], &[1.0], -0.0), 7);
    assert_eq!(search(held(1, 1), &STORE, &[0], &[-0.0], 1.0), 7);
    assert_eq!(search(held(1, 1), &STORE, &[0], &[-1.0], 1.0), 0);
}

#[test]
fn held_calls_test_what_is_held_after_the_order() {
    let solve = |held, order: &[usize], rhs: f64| {
        let (mut store, mut out) = (STORE, [7.0]);
        let answer = Shown
            .solve(state(1, 1, held), &mut store, order, &[rhs], &mut out)
            .0;
        (answer, out[0])
    };
    assert_eq!(solve(Held::Nothing, &[1], NAN), (Err(4), 7.0));
    assert_eq!(solve(Held::Nothing, &[0], NAN), (Err(5), 7.0));
    assert_eq!(solve(Held::Zero, &[0], NAN), (Err(6), 7.0));
    assert_eq!(solve(Held::Zero, &[0], 6.0), (Ok(()), 3.0));
    assert_eq!(solve(Held::Damped, &[0], 6.0), (Err(8), 7.0));
}

#[test]
fn factoring_hands_back_the_empty_state_and_reads_no_order() {
    let factor = |m: usize, jacobian: &[f64]| {
        let (mut store, mut order, mut bench) = ([7.0; 6], [9], [7.0; 4]);
        let lent = (&mut store, &mut order, &mut bench);
        let residuals = [1.0, 1.0];
        let (answer, state) = Shown.factor(m, 1, 0, jacobian, &residuals, lent.0, lent.1, lent.2);
        (answer, state, store, order, bench)
    };
    assert_eq!(factor(0, &[NAN]), (Err(2), EMPTY, [7.0; 6], [9], [7.0; 4]));
    assert_eq!(factor(2, &[NAN]), (Err(3), EMPTY, [7.0; 6], [9], [7.0; 4]));
    assert_eq!(factor(1, &[NAN]), (Err(6), EMPTY, [7.0; 6], [9], [7.0; 4]));
    let (zeroed, bench) = ([0.0, 0.0, 0.0, 0.0, 0.0, 7.0], [0.0; 4]);
    assert_eq!(
        factor(2, &[f64::MAX; 2]),
        (Err(8), EMPTY, zeroed, [0], bench)
    );
    let (answer, state, _, order, bench) = factor(1, &[3.0, NAN]);
    let answered = (Ok(Ranges::NEITHER), [0], [0.0, 0.0, 7.0, 7.0]);
    assert_eq!((answer, order, bench), answered);
    assert_eq!(state.held, Held::Nothing);
}

#[test]
fn scaling_reads_only_what_its_mode_needs() {
    let scale = |mode, diag: f64, x: &[f64], step_bound: f64| {
        let (mut store, mut diag) = (STORE, [diag]);
        let state = state(1, 1, Held::Nothing);
        let answer = Shown
            .update_diag(state, &mut store, mode, &mut diag, x, step_bound)
            .0;
        assert_eq!(store[4].to_bits() == 0, !matches!(answer, Err(1..8)));
        (
            answer.map(|(start, _)| start.map(|start| (start.xnorm, start.radius))),
            diag[0],
        )
    };
    assert_eq!(scale(Mode::FirstScaled, 5.0, &[], 0.0), (Err(3), 5.0));
    assert_eq!(scale(Mode::FirstScaled, 5.0, &[NAN], 0.0), (Err(6), 5.0));
    assert_eq!(scale(Mode::FirstScaled, 5.0, &[3.0], 0.0), (Err(7), 5.0));
    assert_eq!(
        scale(Mode::FirstScaled, NAN, &[3.0], 0.5),
        (Ok(Some((6.0, 3.0))), 2.0)
    );
    assert_eq!(
        scale(Mode::FirstScaled, 5.0, &[0.0], 0.5),
        (Ok(Some((0.0, 0.5))), 2.0)
    );
    assert_eq!(
        scale(Mode::FirstScaled, 5.0, &[f64::MAX], 0.5),
        (Err(8), 5.0)
    );
    assert_eq!(
        scale(Mode::FirstScaled, 5.0, &[1e-300], 1e-300),
        (Err(8), 5.0)
    );
    assert_eq!(
        scale(Mode::FirstUnscaled, 5.0, &[3.0], 0.5),
        (Ok(Some((3.0, 1.5))), 5.0)
    );
    assert_eq!(scale(Mode::LaterScaled, NAN, &[], 0.0).0, Err(6));
    assert_eq!(scale(Mode::LaterScaled, 1.0, &[], NAN), (Ok(None), 2.0));
    assert_eq!(scale(Mode::LaterUnscaled, 5.0, &[], NAN), (Ok(None), 5.0));
}

#[test]
fn leaves_refuse_lengths_alone() {
    let mut y = [7.0];
    assert_eq!(Shown.dot(&[NAN], &[]), Err(3));
    assert_eq!(Leaves::axpy(&Shown, 1.0, &[], &mut y), Err(3));
    assert_eq!(Shown.axpy_zero(1.0, &[1.0, 2.0], &mut y), Err(3));
    assert_eq!(Shown.imax(&[]), Err(3));
    assert_eq!(Shown.solve_upper(&[1.0], 1, 2, &mut [1.0, 1.0]), Err(3));
    assert_eq!(
        Shown.solve_upper(&[1.0], usize::MAX, 2, &mut [1.0, 1.0]),
        Err(3)
    );
    assert_eq!(Shown.solve_upper(&[], 0, 0, &mut y), Ok(()));
    assert_eq!(Shown.solve_upper(&[0.0], 1, 1, &mut y), Ok(()));
    assert_eq!(y, [f64::INFINITY]);
}

fn sheet(head: [u8; 3], doubles: &[f64]) -> String {
    let bytes = doubles
        .iter()
        .flat_map(|double| double.to_bits().to_be_bytes());
    Shown.sheet(&head.into_iter().chain(bytes).collect::<Vec<u8>>())
}

#[test]
fn sheets_are_tested_whole_before_they_are_worked() {
    const ONE: [u8; 3] = [0x11, 0x00, 0x41];
    const TWO: [u8; 3] = [0x12, 0x00, 0x41];
    assert_eq!(Shown.sheet(&[0x11, 0x00]), "refused 1\n");
    assert_eq!(sheet([0x21, 0x00, 0x41], &[]), "refused 1\n");
    assert_eq!(sheet([0x13, 0x00, 0x41], &[]), "refused 1\n");
    assert_eq!(sheet([0x11, 0x00, 0x40], &[]), "refused 2\n");
    assert_eq!(sheet([0x11, 0x20, 0x41], &[]), "refused 2\n");
    assert_eq!(sheet([0x11, 0x00, 0x51], &[]), "refused 2\n");
    assert_eq!(sheet(ONE, &[NAN]), "refused 3\n");
    assert_eq!(sheet(ONE, &[3.0, 6.0, 1.0, 0.0, NAN]), "refused 6\n");
    assert_eq!(sheet(ONE, &[3.0, 6.0, 1.0, 0.0, 0.0]), "refused 7\n");
    assert_eq!(sheet(ONE, &[3.0, 6.0, 0.0, 1.0, 0.0]), "refused 7\n");
    assert_eq!(sheet(ONE, &[3.0, 6.0, 1.0, 1.0, -1.0]), "refused 7\n");
    assert_eq!(sheet(TWO, &[3.0, 6.0, 1.0, 0.0]), "refused 7\n");
    assert_eq!(sheet(TWO, &[1e-200, 6.0, 1e-100, 1e-100]), "refused 8\n");
    let lines = "radius 401E000000000000\nlambda 0000000000000000\nnorm 4018000000000000\n\
                 trials 0\ndetermined 1\nstep 0 4000000000000000\n";
    assert_eq!(sheet(TWO, &[3.0, 6.0, 2.5, 1.0]), lines);
}

/// Two rows of 1.7e308 overflow; the radius of zero is found first.
#[test]
fn a_sheet_that_would_overflow_with_a_radius_of_zero_is_7() {
    let doubles = [1.7e308, 1.7e308, 1.0, 1.0, 1.0, 0.0, 0.0];
    assert_eq!(sheet([0x11, 0x00, 0x81], &doubles), "refused 7\n");
    let doubles = [1.7e308, 1.7e308, 1.0, 1.0, 1.0, 1.0, 0.0];
    assert_eq!(sheet([0x11, 0x00, 0x81], &doubles), "refused 8\n");
}
