//! 01, Job sheet and its program. A sheet is one call: its tests stand over all its fields, before any working.

use crate::factoring::factor;
use crate::leaves::{all_finite, is_finite};
use crate::measures::{determined, update_diag};
use crate::room::{needed, sizes};
use crate::search::search;
use api::{Found, Mode, State};

/// The fields of a sheet that is not refused 1, 2 or 3. `tail` is the scaling or the parameters x.
struct Sheet {
    call: u8,
    m: usize,
    n: usize,
    jacobian: Vec<f64>,
    residuals: Vec<f64>,
    tail: Vec<f64>,
    /// Radius or step bound.
    bound: f64,
    /// +0 in call 2.
    lambda: f64,
}

/// Double number `k` after the three bytes of the header, most significant byte first.
fn double(bytes: &[u8], k: usize) -> f64 {
    let mut bits = 0;
    for &byte in &bytes[3 + 8 * k..3 + 8 * k + 8] {
        bits = bits << 8 | u64::from(byte);
    }
    f64::from_bits(bits)
}

fn read(bytes: &[u8]) -> Result<Sheet, u8> {
    let &[first, second, third, ..] = bytes else {
        return Err(1);
    };
    let call = first & 15;
    if first >> 4 != 1 || !(call == 1 || call == 2) {
        return Err(1);
    }
    let m = usize::from(second) << 2 | usize::from(third >> 6);
    let n = usize::from(third & 63);
    sizes(m, n)?;
    let last = if call == 1 { 2 } else { 1 };
    if bytes.len() != 3 + 8 * (m * n + m + n + last) {
        return Err(3);
    }
    let fields =
        |from: usize, count: usize| (from..from + count).map(|k| double(bytes, k)).collect();
    let after = m * n + m;
    Ok(Sheet {
        call,
        m,
        n,
        jacobian: fields(0, m * n),
        residuals: fields(m * n, m),
        tail: fields(after, n),
        bound: double(bytes, after + n),
        lambda: if call == 1 {
            double(bytes, after + n + 1)
        } else {
            0.0
        },
    })
}

/// Tests 6 and 7.
fn check(sheet: &Sheet) -> Result<(), u8> {
    let vectors = [&sheet.jacobian, &sheet.residuals, &sheet.tail];
    if !vectors.iter().all(|v| all_finite(v)) || !is_finite(sheet.bound) || !is_finite(sheet.lambda)
    {
        return Err(6);
    }
    let zero_scaling = sheet.call == 1 && sheet.tail.contains(&0.0);
    if sheet.bound <= 0.0 || sheet.lambda < 0.0 || zero_scaling {
        return Err(7);
    }
    Ok(())
}

fn hex(x: f64) -> String {
    format!("{:016X}", x.to_bits())
}

fn lines(radius: Option<f64>, found: Found, places: usize, step: &[f64]) -> String {
    let mut text = String::new();
    if let Some(radius) = radius {
        text += &format!("radius {}\n", hex(radius));
    }
    text += &format!("lambda {}\nnorm {}\n", hex(found.lambda), hex(found.norm));
    text += &format!("trials {}\ndetermined {places}\n", found.trials);
    for (j, &x) in step.iter().enumerate() {
        text += &format!("step {j} {}\n", hex(x));
    }
    text
}

/// The scaling and the radius of the search; call 2 works them out and prints the radius.
fn scaling(
    sheet: &Sheet,
    state: State,
    store: &mut [f64],
) -> Result<(Vec<f64>, f64, Option<f64>), u8> {
    if sheet.call == 1 {
        return Ok((sheet.tail.clone(), sheet.bound, None));
    }
    let mut diag = vec![0.0; sheet.n];
    let (start, _) = update_diag(
        state,
        store,
        Mode::FirstScaled,
        &mut diag,
        &sheet.tail,
        sheet.bound,
    );
    let (start, _) = start?;
    let radius = start.expect("a first scaling gives a radius").radius;
    Ok((diag, radius, Some(radius)))
}

fn work_out(bytes: &[u8]) -> Result<String, u8> {
    let sheet = read(bytes)?;
    check(&sheet)?;
    let (m, n) = (sheet.m, sheet.n);
    let mut store = vec![0.0; needed(n)];
    let mut order = vec![0; n];
    let mut bench = vec![0.0; m * n + m];
    let (factored, state) = factor(
        m,
        n,
        0,
        &sheet.jacobian,
        &sheet.residuals,
        &mut store,
        &mut order,
        &mut bench,
    );
    factored?;
    let (diag, radius, shown) = scaling(&sheet, state, &mut store)?;
    let mut step = vec![0.0; n];
    let (found, state) = search(
        state,
        &mut store,
        &order,
        &diag,
        radius,
        sheet.lambda,
        &mut step,
    );
    let (found, _) = found?;
    let (places, _) = determined(state, &mut store);
    Ok(lines(shown, found, places?, &step))
}

pub fn sheet(bytes: &[u8]) -> String {
    match work_out(bytes) {
        Ok(text) => text,
        Err(k) => format!("refused {k}\n"),
    }
}
