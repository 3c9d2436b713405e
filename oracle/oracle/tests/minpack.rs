//! The switchable factoring of the runs against MINPACK (`tools/compare-minpack`), as far as it can be tried without MINPACK.

use oracle::engines::SHOWN;
use oracle::minpack::reading::{DOCUMENT_01, MINPACK, Reading, factor, upper};
use oracle::problem;
use oracle::random::Random;

/// With no reading of MINPACK's it is the factoring of the shown Rust.
#[test]
fn without_minpacks_readings_it_is_document_01s() {
    let mut rng = Random::new(7);
    let mut answered = 0;
    for _ in 0..3000 {
        let p = problem::any(&mut rng);
        let (m, n) = (p.m, p.n);
        let (mut store, mut order) = (vec![0.0; n * n + 4 * n], vec![0; n]);
        let mut bench = vec![0.0; m * n + m];
        let (done, _) = SHOWN.factor(
            m,
            n,
            0,
            &p.jacobian,
            &p.residuals,
            &mut store,
            &mut order,
            &mut bench,
        );
        let (factors, qt_b) = factor(DOCUMENT_01, m, n, &p.jacobian, &p.residuals);
        if done.is_err() {
            continue;
        }
        answered += 1;
        let bits = |v: &[f64]| v.iter().map(|x| x.to_bits()).collect::<Vec<u64>>();
        let diagonal: Vec<f64> = (0..n).map(|j| store[j * n + j]).collect();
        assert_eq!(bits(&factors.r), bits(&upper(m, n, &store, n, &diagonal)));
        assert_eq!(bits(&qt_b), bits(&store[n * n..n * n + n]));
        assert_eq!(bits(&factors.norms), bits(&store[n * n + n..n * n + 2 * n]));
        assert_eq!(factors.order, order);
    }
    assert!(answered > 2500, "{answered} answered");
}

fn diagonal_bits(reading: Reading, m: usize, jacobian: &[f64]) -> u64 {
    factor(reading, m, 1, jacobian, &vec![1.0; m]).0.r[0].to_bits()
}

/// What `tools/compare-minpack smallest` printed for QRFAC itself (docs/DIFFERENCES.md).
#[test]
fn minpacks_readings_on_the_smallest_inputs() {
    assert_eq!(diagonal_bits(MINPACK, 1, &[0.0]), 0x8000_0000_0000_0000);
    assert_eq!(diagonal_bits(DOCUMENT_01, 1, &[0.0]), 0);
    assert_eq!(
        diagonal_bits(MINPACK, 2, &[-0.0, 1.0]),
        0xBFF0_0000_0000_0000
    );
    assert_eq!(
        diagonal_bits(DOCUMENT_01, 2, &[-0.0, 1.0]),
        0x3FF0_0000_0000_0000
    );
    let near = f64::from_bits(0x3E71_A9DC_8F6D_F104);
    let between = f64::from_bits(0x3E71_C6AA_1582_F2DC);
    let jacobian = [4.0, 0.0, 1.0, near, 0.0, between];
    let order = |reading| factor(reading, 2, 3, &jacobian, &[1.0, 1.0]).0.order;
    assert_eq!(order(MINPACK), [0, 2, 1]);
    assert_eq!(order(DOCUMENT_01), [0, 1, 2]);
}

/// The square that the test of a partial norm looks at steps over epsmch: `<=` and `<` cannot be told apart.
#[test]
fn no_partial_norm_meets_epsmch_exactly() {
    let twentieth = |q: f64| 0.05 * SHOWN.square(q);
    let below = f64::from_bits(0x3E71_E377_9B97_F4A7);
    assert!(twentieth(below) < f64::EPSILON);
    assert!(twentieth(below.next_up()) > f64::EPSILON);
}
