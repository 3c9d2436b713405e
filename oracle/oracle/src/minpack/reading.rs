//! Document 01's factoring and transformed residuals, with the three places where QRFAC reads a step otherwise as switches.

use super::case::same;
use crate::engines::PLAIN;

/// DPMPAR(1): 2.22044604926e-16, where document 01 has 2^-52.
const EPSMCH_OF_MINPACK: f64 = f64::from_bits(0x3CB0_0000_0000_4CBF);

/// A switch that is on is MINPACK's reading.
#[derive(Clone, Copy, PartialEq, Eq, Debug, Default)]
pub struct Reading {
    /// A zero reduced norm gives -0 on R's diagonal, not +0.
    pub zero: bool,
    /// The lead of a reflection is negative where it is below zero, so not where it is -0.
    pub lead: bool,
    pub epsmch: bool,
}

pub const DOCUMENT_01: Reading = Reading {
    zero: false,
    lead: false,
    epsmch: false,
};

pub const MINPACK: Reading = Reading {
    zero: true,
    lead: true,
    epsmch: true,
};

/// Every reading that has something of MINPACK's, those with the fewest switches on first.
pub fn readings() -> Vec<Reading> {
    let mut all: Vec<Reading> = (1..8)
        .map(|k| Reading {
            zero: k & 1 != 0,
            lead: k & 2 != 0,
            epsmch: k & 4 != 0,
        })
        .collect();
    all.sort_by_key(|r| [r.zero, r.lead, r.epsmch].iter().filter(|&&on| on).count());
    all
}

impl Reading {
    pub fn name(self) -> String {
        let all = [
            (self.zero, "zero reduced norm"),
            (self.lead, "lead -0"),
            (self.epsmch, "epsmch"),
        ];
        let on: Vec<&str> = all.iter().filter(|(on, _)| *on).map(|(_, n)| *n).collect();
        on.join(" with ")
    }

    fn epsmch(self) -> f64 {
        if self.epsmch {
            EPSMCH_OF_MINPACK
        } else {
            f64::EPSILON
        }
    }

    fn counts_as_negative(self, lead: f64) -> bool {
        if self.lead {
            lead < 0.0
        } else {
            PLAIN.is_negative(lead)
        }
    }
}

/// What a factoring shows, by either side: R's first min(m, n) rows column by column, and what goes with them.
#[derive(Clone, Debug)]
pub struct Factors {
    pub r: Vec<f64>,
    pub norms: Vec<f64>,
    pub order: Vec<usize>,
}

impl Factors {
    pub fn same(&self, other: &Factors) -> bool {
        same(&self.r, &other.r) && same(&self.norms, &other.norms) && self.order == other.order
    }
}

/// R's rows that both sides have, from a matrix whose columns stand `apart` places apart and from its diagonal.
pub fn upper(m: usize, n: usize, a: &[f64], apart: usize, diagonal: &[f64]) -> Vec<f64> {
    let mut r = Vec::new();
    for j in 0..n {
        r.extend_from_slice(&a[j * apart..j * apart + j.min(m)]);
        if j < m {
            r.push(diagonal[j]);
        }
    }
    r
}

fn enorm(v: &[f64]) -> f64 {
    PLAIN.enorm(v).expect("at most 128 rows").0
}

fn dot(a: &[f64], b: &[f64]) -> f64 {
    PLAIN.dot(a, b).expect("of one length")
}

/// The vectors whose norms a factoring works out, in their order; and those rests of later columns whose norms it does not
/// work out anew (02, #106: these count for nothing).
#[derive(Clone, Debug, Default)]
pub struct Vectors {
    pub worked: Vec<Vec<f64>>,
    pub kept: Vec<Vec<f64>>,
}

struct Working<'a> {
    reading: Reading,
    m: usize,
    n: usize,
    a: &'a mut [f64],
    r_diag: Vec<f64>,
    work: Vec<f64>,
    order: Vec<usize>,
    vectors: Vectors,
}

impl Working<'_> {
    fn pivot(&mut self, j: usize) {
        let k = j + PLAIN.imax(&self.r_diag[j..]).expect("j is below n");
        if k == j {
            return;
        }
        for i in 0..self.m {
            self.a.swap(j * self.m + i, k * self.m + i);
        }
        self.order.swap(j, k);
        self.r_diag[k] = self.r_diag[j];
        self.work[k] = self.work[j];
    }

    /// False for a zero column, which gets no reflection.
    fn reduce(&mut self, j: usize) -> bool {
        let axis = &mut self.a[j * self.m + j..(j + 1) * self.m];
        let mut norm = enorm(axis);
        self.vectors.worked.push(axis.to_vec());
        if norm == 0.0 {
            self.r_diag[j] = if self.reading.zero { -0.0 } else { 0.0 };
            return false;
        }
        if self.reading.counts_as_negative(axis[0]) {
            norm = -norm;
        }
        axis.iter_mut().for_each(|x| *x /= norm);
        axis[0] += 1.0;
        self.r_diag[j] = -norm;
        true
    }

    fn reflect(&mut self, j: usize, k: usize) {
        let (left, right) = self.a.split_at_mut(k * self.m);
        let axis = &left[j * self.m + j..(j + 1) * self.m];
        let column = &mut right[j..self.m];
        let factor = -(dot(column, axis) / axis[0]);
        PLAIN.axpy(factor, axis, column).expect("of one length");
        let (r_diag, work) = (&mut self.r_diag[k], &mut self.work[k]);
        let rest = column[1..].to_vec();
        if *r_diag == 0.0 {
            return self.vectors.kept.push(rest);
        }
        let lost = PLAIN.square(column[0] / *r_diag);
        *r_diag *= PLAIN.sqrt(PLAIN.max(1.0 - lost, 0.0));
        if 0.05 * PLAIN.square(*r_diag / *work) <= self.reading.epsmch() {
            *r_diag = enorm(&rest);
            *work = *r_diag;
            self.vectors.worked.push(rest);
        } else {
            self.vectors.kept.push(rest);
        }
    }
}

/// The residuals take each reflection; the first n of them are the answer, and places from m on are 0.
fn transformed(m: usize, n: usize, a: &[f64], residuals: &[f64]) -> Vec<f64> {
    let mut b = residuals.to_vec();
    for j in 0..m.min(n) {
        let axis = &a[j * m + j..(j + 1) * m];
        if axis[0] != 0.0 {
            let factor = -dot(&b[j..], axis) / axis[0];
            PLAIN
                .axpy(factor, axis, &mut b[j..])
                .expect("of one length");
        }
    }
    b.resize(n, 0.0);
    b
}

/// The factoring of `a`, in place, by a reading.
fn work<'a>(reading: Reading, m: usize, n: usize, a: &'a mut [f64]) -> (Working<'a>, Vec<f64>) {
    let norms: Vec<f64> = a.chunks(m).map(enorm).collect();
    let worked = a.chunks(m).map(<[f64]>::to_vec).collect();
    let mut w = Working {
        reading,
        m,
        n,
        a,
        r_diag: norms.clone(),
        work: norms.clone(),
        order: (0..n).collect(),
        vectors: Vectors {
            worked,
            kept: Vec::new(),
        },
    };
    for j in 0..m.min(n) {
        w.pivot(j);
        if w.reduce(j) {
            (j + 1..w.n).for_each(|k| w.reflect(j, k));
        }
    }
    (w, norms)
}

pub fn vectors(m: usize, n: usize, jacobian: &[f64]) -> Vectors {
    let mut a = jacobian.to_vec();
    work(DOCUMENT_01, m, n, &mut a).0.vectors
}

/// The factoring by a reading, and the transformed residuals.
pub fn factor(
    reading: Reading,
    m: usize,
    n: usize,
    jacobian: &[f64],
    residuals: &[f64],
) -> (Factors, Vec<f64>) {
    let mut a = jacobian.to_vec();
    let (w, norms) = work(reading, m, n, &mut a);
    let (r_diag, order) = (w.r_diag, w.order);
    let factors = Factors {
        r: upper(m, n, &a, m, &r_diag),
        norms,
        order,
    };
    (factors, transformed(m, n, &a, residuals))
}
