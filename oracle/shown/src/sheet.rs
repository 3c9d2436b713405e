//! The job sheet: its tests over all its fields, then the calls of document 01, and what `fitstep` prints.

use crate::Shown;
use crate::room::{Room, finite, unless};
use api::{Engine, Found, Mode};
use core::fmt::Write;

struct Sheet {
    second: bool,
    room: Room,
    jacobian: Vec<f64>,
    residuals: Vec<f64>,
    /// Scaling, or the parameters.
    places: Vec<f64>,
    /// Radius, or step bound.
    bound: f64,
    /// +0 in call 2.
    lambda: f64,
}

pub struct Printed {
    radius: Option<f64>,
    found: Found,
    determined: usize,
    step: Vec<f64>,
}

/// Version 4 bits, call 4, m 10, n 6, most significant first.
fn head(bytes: &[u8]) -> Result<(bool, Room), u8> {
    let [first, second, third, ..] = bytes else {
        return Err(1);
    };
    let second_call = match first {
        0x11 => false,
        0x12 => true,
        _ => return Err(1),
    };
    let m = usize::from(*second) << 2 | usize::from(*third) >> 6;
    let room = Room::of_sizes(m, usize::from(*third & 0x3F), 0)?;
    Ok((second_call, room))
}

/// Tests 1, 2, 3, 6 and 7 of the whole sheet.
fn read(bytes: &[u8]) -> Result<Sheet, u8> {
    let (second, room) = head(bytes)?;
    let (m, n) = (room.m, room.n);
    let count = m * n + m + n + if second { 1 } else { 2 };
    if bytes.len() != 3 + 8 * count {
        return Err(3);
    }
    let numbers = bytes[3..].chunks(8).map(|double| {
        let high_first = double
            .iter()
            .fold(0, |bits, byte| bits << 8 | u64::from(*byte));
        f64::from_bits(high_first)
    });
    let numbers: Vec<f64> = numbers.collect();
    finite(&numbers)?;
    let (jacobian, rest) = numbers.split_at(m * n);
    let (residuals, rest) = rest.split_at(m);
    let (places, rest) = rest.split_at(n);
    let lambda = if second { 0.0 } else { rest[1] };
    unless(rest[0] <= 0.0 || lambda < 0.0)?;
    unless(!second && places.contains(&0.0))?;
    Ok(Sheet {
        second,
        room,
        jacobian: jacobian.to_vec(),
        residuals: residuals.to_vec(),
        places: places.to_vec(),
        bound: rest[0],
        lambda,
    })
}

pub fn work(bytes: &[u8]) -> Result<Printed, u8> {
    let sheet = read(bytes)?;
    let (m, n) = (sheet.room.m, sheet.room.n);
    let mut store = vec![0.0; sheet.room.needed()];
    let mut bench = vec![0.0; sheet.room.bench()];
    let mut order = vec![0; n];
    let (jacobian, residuals) = (&sheet.jacobian, &sheet.residuals);
    let (factored, state) = Shown.factor(
        m, n, 0, jacobian, residuals, &mut store, &mut order, &mut bench,
    );
    factored?;
    let (mut diag, mut radius) = (sheet.places.clone(), sheet.bound);
    if sheet.second {
        let (x, mode) = (&sheet.places, Mode::FirstScaled);
        let (start, _) = Shown.update_diag(state, &mut store, mode, &mut diag, x, sheet.bound);
        radius = start?.0.ok_or(8)?.radius;
    }
    let mut step = vec![0.0; n];
    let lambda = sheet.lambda;
    let (found, state) = Shown.search(state, &mut store, &order, &diag, radius, lambda, &mut step);
    let (found, _) = found?;
    let determined = Shown.determined(state, &mut store).0?;
    Ok(Printed {
        radius: sheet.second.then_some(radius),
        found,
        determined,
        step,
    })
}

pub fn print(worked: Result<Printed, u8>) -> String {
    let mut lines = String::new();
    match worked {
        Err(number) => writeln!(lines, "refused {number}"),
        Ok(printed) => print_lines(&printed, &mut lines),
    }
    .expect("a string takes every line");
    lines
}

fn print_lines(printed: &Printed, lines: &mut String) -> core::fmt::Result {
    if let Some(radius) = printed.radius {
        writeln!(lines, "radius {:016X}", radius.to_bits())?;
    }
    writeln!(lines, "lambda {:016X}", printed.found.lambda.to_bits())?;
    writeln!(lines, "norm {:016X}", printed.found.norm.to_bits())?;
    writeln!(lines, "trials {}", printed.found.trials)?;
    writeln!(lines, "determined {}", printed.determined)?;
    for (place, entry) in printed.step.iter().enumerate() {
        writeln!(lines, "step {place} {:016X}", entry.to_bits())?;
    }
    Ok(())
}
