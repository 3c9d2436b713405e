//! The inputs of docs/DIFFERENCES.md: what the leaf rule gives, which decides, and what the published norm gives.

use api::{Engine, Leaves};
use shown::{Shown, published};

fn both(v: &[f64]) -> (u64, u64) {
    let leaf = Shown.enorm(v).expect("short").0;
    (leaf.to_bits(), published::norm(v).to_bits())
}

#[test]
fn norms_that_differ() {
    assert_eq!(
        both(&[1e19, 1e19]),
        (0x43E8885EAD7D3C2F, 0x43E8885EAD7D3C2E)
    );
    assert_eq!(
        both(&[2e-20, 1e-20]),
        (0x3BDA6619CCC92636, 0x3BDA6619CCC92635)
    );
    assert_eq!(
        both(&[5e18, 1e18, 1e18]),
        (0x43D2071C46468DB6, 0x43D2071C46468DB5)
    );
    assert_eq!(
        both(&[2e-20, 1e-20, 1e-20]),
        (0x3BDCEB20E48BADF1, 0x3BDCEB20E48BADF2)
    );
}

#[test]
fn norms_that_agree() {
    for v in [
        &[][..],
        &[0.0],
        &[-0.0],
        &[5e-324],
        &[f64::MAX],
        &[3.0, 4.0],
        &[1e18; 4],
    ] {
        let (leaf, published) = both(v);
        assert_eq!(leaf, published, "{v:?}");
    }
    for v in [
        &[f64::NAN][..],
        &[1e20, f64::NAN],
        &[f64::INFINITY, f64::INFINITY],
    ] {
        assert!(Shown.enorm(v).is_ok_and(|(norm, _)| norm.is_nan()) && published::norm(v).is_nan());
    }
}

/// Two rows, one column, all 1e19; scaling and radius 1, lambda 0.
#[test]
fn a_sheet_that_differs() {
    let mut sheet = vec![0x11, 0x00, 0x81];
    for double in [1e19f64, 1e19, 1e19, 1e19, 1.0, 1.0, 0.0] {
        sheet.extend(double.to_bits().to_be_bytes());
    }
    let lines = |bits: &str| {
        format!("lambda 0000000000000000\nnorm {bits}\ntrials 0\ndetermined 1\nstep 0 {bits}\n")
    };
    assert_eq!(Shown.sheet(&sheet), lines("3FEFFFFFFFFFFFFF"));
    let published = published::in_place(|| Shown.sheet(&sheet));
    assert_eq!(published, lines("3FF0000000000000"));
    assert_eq!(Shown.sheet(&sheet), lines("3FEFFFFFFFFFFFFF"));
}
