//! Document 01's commissioning examples A to L, and its examples that are only run, on both workings.

use api::{EMPTY, Held, Mode, Ranges, State};
use oracle::engines::{PLAIN, SHOWN, Working};
use oracle::text::bytes_of_hex;

const SHEET_F: &str =
    "110041 4008000000000000 4018000000000000 3FF0000000000000 4000000000000000 0000000000000000";
const PRINTED_F: &str = "lambda 0000000000000000\nnorm 4000000000000000\ntrials 0\ndetermined 1\nstep 0 4000000000000000\n";

fn both(test: fn(&dyn Working)) {
    test(SHOWN);
    test(PLAIN);
}

struct Fit<'a> {
    engine: &'a dyn Working,
    state: State,
    store: Vec<f64>,
    order: Vec<usize>,
}

fn factored<'a>(
    engine: &'a dyn Working,
    m: usize,
    n: usize,
    jacobian: &[f64],
    residuals: &[f64],
) -> Fit<'a> {
    let (mut store, mut order) = (vec![7.0; n * n + 4 * n], vec![9; n]);
    let mut bench = vec![7.0; m * n + m];
    let (result, state) = engine.factor(
        m, n, 0, jacobian, residuals, &mut store, &mut order, &mut bench,
    );
    assert!(result.is_ok());
    assert_eq!(
        state,
        State {
            m,
            n,
            held: Held::Nothing,
            marks: 0,
        }
    );
    assert!(bench.iter().all(|x| x.to_bits() == 0));
    Fit {
        engine,
        state,
        store,
        order,
    }
}

impl Fit<'_> {
    /// Step, lambda, scaled norm and trials for scaling 1.
    fn search(&mut self, radius: f64) -> Result<(f64, f64, f64, usize), u8> {
        let mut step = [7.0];
        let (found, _) = self.engine.search(
            self.state,
            &mut self.store,
            &self.order,
            &[1.0],
            radius,
            0.0,
            &mut step,
        );
        found.map(|(f, _)| (step[0], f.lambda, f.norm, f.trials))
    }
}

#[test]
fn a_to_d_leaves() {
    both(|e| {
        assert_eq!(e.sqrt(0.390625), 0.625);
        assert_eq!(
            e.sqrt(f64::from_bits(1)),
            f64::from_bits((1023 - 537) << 52)
        );
        assert_eq!(e.enorm(&[3.0, 4.0]), Ok((5.0, Ranges::NEITHER)));
        let empty = e.enorm(&[]).map(|(norm, ranges)| (norm.to_bits(), ranges));
        assert_eq!(empty, Ok((0, Ranges::NEITHER)));
    });
}

#[test]
fn e_order_of_equal_columns() {
    both(|e| assert_eq!(factored(e, 1, 2, &[3.0, 3.0], &[1.0]).order, [0, 1]));
}

#[test]
fn f_undamped_step() {
    both(|e| {
        assert_eq!(
            factored(e, 1, 1, &[3.0], &[6.0]).search(2.0),
            Ok((2.0, 0.0, 2.0, 0))
        );
        assert_eq!(e.sheet(&bytes_of_hex(SHEET_F).unwrap()), PRINTED_F);
    });
}

#[test]
fn g_a_tenth_over_the_radius() {
    both(|e| {
        assert_eq!(
            factored(e, 1, 1, &[3.0], &[33.0]).search(10.0),
            Ok((11.0, 0.0, 11.0, 0))
        );
        let (_, lambda, _, trials) = factored(e, 1, 1, &[3.0], &[36.0]).search(10.0).unwrap();
        assert!(lambda > 0.0 && trials > 0);
    });
}

#[test]
fn h_and_i_order_step_and_gradient() {
    both(|e| {
        let mut fit = factored(e, 1, 2, &[3.0, 4.0], &[8.0]);
        assert_eq!(fit.order, [1, 0]);
        let mut step = [7.0; 2];
        let (result, state) =
            e.solve_with_zero_diagonal(fit.state, &mut fit.store, &fit.order, &mut step);
        assert_eq!((result, step), (Ok(()), [0.0, 2.0]));
        assert_eq!(
            e.max_a_t_b_scaled(state, &mut fit.store, &fit.order, 8.0),
            (Ok(1.0), state)
        );
    });
}

#[test]
fn j_nothing_determined() {
    both(|e| {
        let mut fit = factored(e, 4, 3, &[0.0; 12], &[1.0, 2.0, 3.0, 4.0]);
        assert_eq!(e.determined(fit.state, &mut fit.store).0, Ok(0));
        assert_eq!(
            e.max_a_t_b_scaled(fit.state, &mut fit.store, &fit.order, 1.0)
                .0,
            Ok(0.0)
        );
    });
}

#[test]
fn k_radius_zero() {
    both(|e| {
        assert_eq!(factored(e, 1, 1, &[3.0], &[6.0]).search(0.0), Err(7));
        let sheet = SHEET_F.replace("4000000000000000", "0000000000000000");
        assert_eq!(e.sheet(&bytes_of_hex(&sheet).unwrap()), "refused 7\n");
    });
}

#[test]
fn l_held_call_after_factoring() {
    both(|e| {
        let mut fit = factored(e, 1, 1, &[3.0], &[6.0]);
        let mut out = [7.0];
        let (result, state) = e.solve(fit.state, &mut fit.store, &fit.order, &[1.0], &mut out);
        assert_eq!((result, state, out), (Err(5), fit.state, [7.0]));
    });
}

#[test]
fn the_most_rows() {
    both(|e| {
        factored(e, 128, 1, &[1.0; 128], &[1.0; 128]);
        let (mut store, mut order, mut bench) = ([7.0; 5], [9], [7.0; 300]);
        let v = [1.0; 129];
        let (result, state) = e.factor(129, 1, 0, &v, &v, &mut store, &mut order, &mut bench);
        assert_eq!((result, state), (Err(2), EMPTY));
        assert_eq!((store, order, bench), ([7.0; 5], [9], [7.0; 300]));
    });
}

#[test]
fn a_radius_rounded_to_zero_leaves_the_scaling() {
    both(|e| {
        let mut fit = factored(e, 1, 1, &[3.0], &[6.0]);
        let mut diag = [5.0];
        let tiny = f64::from_bits(1);
        let first = Mode::FirstScaled;
        let (result, _) = e.update_diag(fit.state, &mut fit.store, first, &mut diag, &[0.01], tiny);
        assert_eq!((result, diag), (Err(8), [5.0]));
    });
}
