//! Job sheets: their fields, their bytes, and the run of the search on them.

use crate::classes::Asked;
use crate::engines::Working;
use crate::pool::Example;
use crate::text::bits;
use api::{EMPTY, Mode, Run, State};

/// The fields as they stand in a sheet, in range or not.
#[derive(Clone, Debug)]
pub struct Fields {
    pub version: u8,
    pub call: u8,
    pub m: usize,
    pub n: usize,
    pub doubles: Vec<f64>,
}

impl Fields {
    pub fn of_example(e: &Example) -> Fields {
        let p = &e.problem;
        let doubles = [
            &p.jacobian[..],
            &p.residuals,
            &e.diag,
            &[e.radius, e.lambda],
        ]
        .concat();
        Fields {
            version: 1,
            call: 1,
            m: p.m,
            n: p.n,
            doubles,
        }
    }

    pub fn bytes(&self) -> Vec<u8> {
        let head = u32::from(self.version & 15) << 20
            | u32::from(self.call & 15) << 16
            | (self.m as u32 & 1023) << 6
            | (self.n as u32 & 63);
        let mut bytes = head.to_be_bytes()[1..].to_vec();
        for &x in &self.doubles {
            bytes.extend(bits(x).to_be_bytes());
        }
        bytes
    }

    /// None for a sheet that is refused 1, 2 or 3.
    pub fn read(bytes: &[u8]) -> Option<Fields> {
        if bytes.len() < 3 {
            return None;
        }
        let head = u32::from(bytes[0]) << 16 | u32::from(bytes[1]) << 8 | u32::from(bytes[2]);
        let (version, call) = ((head >> 20) as u8, (head >> 16 & 15) as u8);
        let (m, n) = ((head >> 6 & 1023) as usize, (head & 63) as usize);
        let exact = 3 + 8 * (m * n + m + n + if call == 1 { 2 } else { 1 });
        let sizes = (1..=128).contains(&m) && (1..=16).contains(&n);
        if version != 1 || !(1..=2).contains(&call) || !sizes || bytes.len() != exact {
            return None;
        }
        let word = |c: &[u8]| c.iter().fold(0, |w: u64, &b| w << 8 | u64::from(b));
        let doubles = bytes[3..]
            .chunks(8)
            .map(|c| f64::from_bits(word(c)))
            .collect();
        Some(Fields {
            version,
            call,
            m,
            n,
            doubles,
        })
    }
}

/// A factored sheet, ready for its search.
pub struct Ready {
    pub state: State,
    pub store: Vec<f64>,
    pub order: Vec<usize>,
    pub diag: Vec<f64>,
    pub radius: f64,
    pub lambda: f64,
}

impl Ready {
    pub fn asked(&self) -> Asked<'_> {
        let Ready {
            state,
            store,
            order,
            diag,
            radius,
            lambda,
        } = self;
        Asked {
            state: *state,
            store,
            order,
            diag,
            radius: *radius,
            lambda: *lambda,
        }
    }
}

/// None where the sheet is refused before its search.
pub fn ready(engine: &dyn Working, f: &Fields) -> Option<Ready> {
    let (m, n) = (f.m, f.n);
    let (jacobian, rest) = f.doubles.split_at(m * n);
    let (residuals, rest) = rest.split_at(m);
    let (diag, last) = rest.split_at(n);
    let mut r = Ready {
        state: EMPTY,
        store: vec![0.0; n * n + 4 * n],
        order: vec![0; n],
        diag: diag.to_vec(),
        radius: last[0],
        lambda: last.get(1).copied().unwrap_or(0.0),
    };
    let mut bench = vec![0.0; m * n + m];
    let (factored, state) = engine.factor(
        m,
        n,
        0,
        jacobian,
        residuals,
        &mut r.store,
        &mut r.order,
        &mut bench,
    );
    factored.ok()?;
    r.state = state;
    if f.call == 2 {
        let first = Mode::FirstScaled;
        let (start, _) = engine.update_diag(state, &mut r.store, first, &mut r.diag, diag, last[0]);
        r.radius = start.ok()?.0?.radius;
    }
    Some(r)
}

pub fn trace(engine: &dyn Working, bytes: &[u8]) -> Option<Run> {
    ready(engine, &Fields::read(bytes)?)?.asked().run(engine)
}
