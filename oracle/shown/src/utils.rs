//! Document 01's leaf rules for what the shown Rust takes from `utils.rs`.

use crate::recorder::{self, Norm};
use api::Ranges;
use nalgebra::{Dim, RealField, U1, Vector, convert, storage::Storage};
use num_traits::Float;

/// 2^−52.
pub(crate) fn epsmch<F: RealField>() -> F {
    F::default_epsilon()
}

/// 2^−1022.
pub(crate) fn dwarf<F: Float>() -> F {
    F::min_positive_value()
}

/// +0, then the products added by rising index.
#[inline]
pub(crate) fn dot<F, N, AS, BS>(a: &Vector<F, N, AS>, b: &Vector<F, N, BS>) -> F
where
    F: RealField + Copy,
    N: Dim,
    AS: Storage<F, N, U1>,
    BS: Storage<F, N, U1>,
{
    assert_eq!(a.nrows(), b.nrows());
    let mut sum = F::zero();
    for (x, y) in a.entries().iter().zip(b.entries()) {
        sum += *x * *y;
    }
    sum
}

/// MINPACK's limits for what is small and what is large.
const RDWARF: f64 = 3.834e-20;
const RGIANT: f64 = 1.304e19;

/// A sum of squares, each divided by the square of the largest.
struct Scaled<F> {
    sum: F,
    largest: F,
}

impl<F: RealField + Float> Scaled<F> {
    fn none() -> Self {
        Scaled {
            sum: F::zero(),
            largest: F::zero(),
        }
    }

    /// A NaN is never above the largest, so that it goes into the sum.
    fn add(&mut self, v: F) {
        if v > self.largest {
            self.sum = F::one() + self.sum * Float::powi(self.largest / v, 2);
            self.largest = v;
        } else {
            self.sum += Float::powi(v / self.largest, 2);
        }
    }
}

/// Where an absolute value belongs. A zero, of either sign, adds nothing and counts as none of the three (02, #106).
enum Range {
    Zero,
    Small,
    Middle,
    Large,
}

/// "Strictly between rdwarf and agiant"; "one <= rdwarf"; "all others, NaN too".
fn range<F: RealField + Float>(v: F, agiant: F) -> Range {
    let rdwarf: F = convert(RDWARF);
    if v > rdwarf && v < agiant {
        Range::Middle
    } else if v <= rdwarf {
        if v.is_zero() {
            Range::Zero
        } else {
            Range::Small
        }
    } else {
        Range::Large
    }
}

/// "agiant = rgiant/length", by the norm's own length.
fn agiant<F: RealField + Float>(length: usize) -> F {
    let rgiant: F = convert(RGIANT);
    rgiant / convert(length as f64)
}

/// Writes down the norm's ranges, by the leaf rule's limits whichever norm works the number out.
fn record<F: RealField + Float>(entries: &[F]) {
    let mut ranges = Ranges::NEITHER;
    for x in entries {
        match range(Float::abs(*x), agiant(entries.len())) {
            Range::Zero | Range::Middle => {}
            Range::Small => ranges.small = true,
            Range::Large => ranges.large = true,
        }
    }
    recorder::note(Norm {
        length: entries.len(),
        ranges,
    });
}

/// The norm; `published` in its place while [`crate::published::in_place`] runs.
pub(crate) fn enorm<F, N, VS>(v: &Vector<F, N, VS>) -> F
where
    F: RealField + Float + Copy,
    N: Dim,
    VS: Storage<F, N, U1>,
{
    record(v.entries());
    if crate::published::is_in_place() {
        return crate::published::enorm(v);
    }
    let (mut large, mut s2, mut small) = (Scaled::none(), F::zero(), Scaled::none());
    for x in v.entries() {
        let x = Float::abs(*x);
        match range(x, agiant(v.nrows())) {
            Range::Zero => {}
            Range::Small => small.add(x),
            Range::Middle => s2 += x * x,
            Range::Large => large.add(x),
        }
    }
    finish(large, s2, small)
}

fn finish<F: RealField + Float>(large: Scaled<F>, s2: F, small: Scaled<F>) -> F {
    let (x1max, s1) = (large.largest, large.sum);
    let (x3max, s3) = (small.largest, small.sum);
    if !s1.is_zero() {
        x1max * Float::sqrt(s1 + (s2 / x1max) / x1max)
    } else if !s2.is_zero() {
        Float::sqrt(if s2 >= x3max {
            s2 * (F::one() + (x3max / s2) * (x3max * s3))
        } else {
            x3max * ((s2 / x3max) + (x3max * s3))
        })
    } else {
        x3max * Float::sqrt(s3)
    }
}
