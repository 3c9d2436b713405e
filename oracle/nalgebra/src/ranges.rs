//! What may stand for a range of rows or columns: one place, or a range that may be open at either end.

use crate::{Dim, Dyn, U1};
use core::ops::{Range, RangeFrom, RangeFull, RangeTo};

pub trait DimRange<D: Dim> {
    type Size: Dim;

    fn begin(&self) -> usize;
    fn size(&self, whole: D) -> Self::Size;
}

impl<D: Dim> DimRange<D> for usize {
    type Size = U1;

    fn begin(&self) -> usize {
        *self
    }

    fn size(&self, _: D) -> U1 {
        U1::from_usize(1)
    }
}

impl<D: Dim> DimRange<D> for Range<usize> {
    type Size = Dyn;

    fn begin(&self) -> usize {
        self.start
    }

    fn size(&self, _: D) -> Dyn {
        Dyn(self.end - self.start)
    }
}

impl<D: Dim> DimRange<D> for RangeFrom<usize> {
    type Size = Dyn;

    fn begin(&self) -> usize {
        self.start
    }

    fn size(&self, whole: D) -> Dyn {
        Dyn(whole.value() - self.start)
    }
}

impl<D: Dim> DimRange<D> for RangeTo<usize> {
    type Size = Dyn;

    fn begin(&self) -> usize {
        0
    }

    fn size(&self, _: D) -> Dyn {
        Dyn(self.end)
    }
}

impl<D: Dim> DimRange<D> for RangeFull {
    type Size = D;

    fn begin(&self) -> usize {
        0
    }

    fn size(&self, whole: D) -> D {
        whole
    }
}
