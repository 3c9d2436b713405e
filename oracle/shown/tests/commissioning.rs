//! Document 01's commissioning examples, and the runs it asks for beside them.

use api::{Engine, Found, Held, Leaves, Ranges, State};
use shown::Shown;

/// A factored problem with its lent room.
struct Site {
    state: State,
    store: Vec<f64>,
    order: Vec<usize>,
}

impl Site {
    fn factored(m: usize, n: usize, jacobian: &[f64], residuals: &[f64]) -> Site {
        let mut store = vec![7.0; n * n + 4 * n];
        let mut order = vec![9; n];
        let mut bench = vec![7.0; m * n + m];
        let (answer, state) = Shown.factor(
            m, n, 0, jacobian, residuals, &mut store, &mut order, &mut bench,
        );
        assert_eq!(answer, Ok(Ranges::NEITHER));
        assert!(bench.iter().all(|entry| entry.to_bits() == 0));
        Site {
            state,
            store,
            order,
        }
    }

    fn search(&mut self, diag: &[f64], radius: f64) -> (Result<(Found, Ranges), u8>, Vec<f64>) {
        let mut step = vec![7.0; self.state.n];
        let (order, store) = (&self.order, &mut self.store);
        let (found, state) = Shown.search(self.state, store, order, diag, radius, 0.0, &mut step);
        self.state = state;
        (found, step)
    }
}

fn found(lambda: f64, norm: f64, trials: usize) -> Result<(Found, Ranges), u8> {
    let found = Found {
        lambda,
        norm,
        trials,
    };
    Ok((found, Ranges::NEITHER))
}

#[test]
fn a_to_d_leaves() {
    assert_eq!(Leaves::sqrt(&Shown, 0.390625), 0.625);
    assert_eq!(Leaves::sqrt(&Shown, f64::from_bits(1)), 2f64.powi(-537));
    assert_eq!(Shown.enorm(&[3.0, 4.0]), Ok((5.0, Ranges::NEITHER)));
    let empty = Shown
        .enorm(&[])
        .map(|(norm, ranges)| (norm.to_bits(), ranges));
    assert_eq!(empty, Ok((0, Ranges::NEITHER)));
}

#[test]
fn e_equal_columns_stay_in_order() {
    assert_eq!(Site::factored(1, 2, &[3.0, 3.0], &[1.0]).order, [0, 1]);
}

#[test]
fn f_g_and_k_searches() {
    let one = |residual| Site::factored(1, 1, &[3.0], &[residual]);
    assert_eq!(
        one(6.0).search(&[1.0], 2.0),
        (found(0.0, 2.0, 0), vec![2.0])
    );
    assert_eq!(
        one(33.0).search(&[1.0], 10.0),
        (found(0.0, 11.0, 0), vec![11.0])
    );
    assert_eq!(one(6.0).search(&[1.0], 0.0), (Err(7), vec![7.0]));
    let (damped, _) = one(36.0).search(&[1.0], 10.0);
    assert!(damped.is_ok_and(|(found, _)| found.lambda > 0.0 && found.trials > 0));
}

#[test]
fn f_as_a_sheet() {
    let mut sheet = vec![0x11, 0x00, 0x41];
    for double in [3.0f64, 6.0, 1.0, 2.0, 0.0] {
        sheet.extend(double.to_bits().to_be_bytes());
    }
    let lines = "lambda 0000000000000000\nnorm 4000000000000000\ntrials 0\ndetermined 1\n\
                 step 0 4000000000000000\n";
    assert_eq!(Shown.sheet(&sheet), lines);
    sheet.push(0);
    assert_eq!(Shown.sheet(&sheet), "refused 3\n");
}

#[test]
fn h_and_i_step_in_the_columns_order() {
    let mut site = Site::factored(1, 2, &[3.0, 4.0], &[8.0]);
    assert_eq!(site.order, [1, 0]);
    let mut step = [7.0; 2];
    let (order, store) = (&site.order, &mut site.store);
    let (solved, state) = Shown.solve_with_zero_diagonal(site.state, store, order, &mut step);
    assert_eq!((solved, step), (Ok(()), [0.0, 2.0]));
    assert_eq!(state.held, Held::Zero);
    assert_eq!(Shown.max_a_t_b_scaled(state, store, order, 8.0).0, Ok(1.0));
}

#[test]
fn j_all_zero() {
    let mut site = Site::factored(4, 3, &[0.0; 12], &[1.0, 2.0, 3.0, 4.0]);
    let (order, store) = (&site.order, &mut site.store);
    assert_eq!(Shown.determined(site.state, store).0, Ok(0));
    assert_eq!(
        Shown.max_a_t_b_scaled(site.state, store, order, 1.0).0,
        Ok(0.0)
    );
}

#[test]
fn l_a_held_call_straight_after_factoring() {
    let mut site = Site::factored(1, 1, &[3.0], &[6.0]);
    let (order, store) = (&site.order, &mut site.store);
    let mut out = [7.0];
    let (answer, state) = Shown.solve(site.state, store, order, &[1.0], &mut out);
    assert_eq!((answer, out), (Err(5), [7.0]));
    assert_eq!(state, site.state);
}

#[test]
fn rows_128_and_129() {
    let factor = |m: usize| {
        let jacobian = vec![1.0; m];
        let (mut store, mut order, mut bench) = ([0.0; 5], [0], vec![0.0; 2 * m]);
        let lent = (&mut store, &mut order, &mut bench);
        Shown
            .factor(m, 1, 0, &jacobian, &jacobian, lent.0, lent.1, lent.2)
            .0
    };
    assert_eq!(factor(128), Ok(Ranges::NEITHER));
    assert_eq!(factor(129), Err(2));
    assert_eq!(Shown.enorm(&[1.0; 129]), Err(2));
}
