//! The norms that the shown Rust works out, written down by the shim of `enorm` while somebody listens (02, #106). The
//! shown files know nothing of it.

use api::Ranges;
use core::cell::RefCell;

/// A norm's own length, and the ranges of its entries.
#[derive(Clone, Copy, PartialEq, Eq, Debug)]
pub struct Norm {
    pub length: usize,
    pub ranges: Ranges,
}

thread_local! {
    static NORMS: RefCell<Option<Vec<Norm>>> = const { RefCell::new(None) };
}

/// What `calls` answers, and the norms worked out in it, in their order.
pub fn of<A>(calls: impl FnOnce() -> A) -> (A, Vec<Norm>) {
    let before = NORMS.replace(Some(Vec::new()));
    let answer = calls();
    let norms = NORMS.replace(before).unwrap_or_default();
    (answer, norms)
}

pub fn note(norm: Norm) {
    NORMS.with_borrow_mut(|norms| norms.iter_mut().for_each(|norms| norms.push(norm)));
}

/// The norm worked out last, for who has just asked for one.
pub fn last() -> Norm {
    NORMS.with_borrow(|norms| {
        let norms = norms.as_ref().expect("somebody listens");
        *norms.last().expect("a norm was worked out")
    })
}

/// "In any norm worked out for that call" (02, #106).
pub fn all(norms: &[Norm]) -> Ranges {
    let each = norms.iter().map(|norm| norm.ranges);
    each.fold(Ranges::NEITHER, Ranges::either)
}
