//! The scaling lines of `update_diag` of `lm.rs`, unchanged between the two marks, with just the fields they use.
#![allow(unexpected_cfgs)]

use crate::qr::LinearLeastSquaresDiagonalProblem;
use crate::utils::enorm;
use nalgebra::{
    DefaultAllocator, Dim, DimMax, DimMaximum, OVector, RealField, allocator::Allocator,
};
use num_traits::Float;

pub enum TerminationReason {
    Numerical(#[allow(dead_code)] &'static str),
}

pub struct Config<F> {
    pub stepbound: F,
    pub scale_diag: bool,
}

pub struct LM<F: RealField, N: Dim> {
    pub config: Config<F>,
    pub x: OVector<F, N>,
    pub tmp: OVector<F, N>,
    pub delta: F,
    pub xnorm: F,
    pub diag: OVector<F, N>,
    pub first_update: bool,
}

impl<F: RealField + Float + Copy, N: Dim> LM<F, N> {
    pub fn update_diag<M>(
        &mut self,
        lls: &mut LinearLeastSquaresDiagonalProblem<F, M, N>,
    ) -> Result<(), TerminationReason>
    where
        M: Dim + DimMax<N>,
        DefaultAllocator: Allocator<N> + Allocator<DimMaximum<M, N>, N>,
    {
        // lm.rs from here
        if self.first_update {
            // Initialize diag and xnorm
            self.xnorm = if self.config.scale_diag {
                for (d, col_norm) in self.diag.iter_mut().zip(lls.column_norms.iter()) {
                    *d = if col_norm.is_zero() {
                        F::one()
                    } else {
                        *col_norm
                    };
                }
                self.tmp.cmpy(F::one(), &self.diag, &self.x, F::zero());
                enorm(&self.tmp)
            } else {
                enorm(&self.x)
            };
            if !self.xnorm.is_finite() && !cfg!(feature = "minpack-compat") {
                return Err(TerminationReason::Numerical("subproblem x"));
            }
            // Initialize delta
            self.delta = if self.xnorm.is_zero() {
                self.config.stepbound
            } else {
                self.config.stepbound * self.xnorm
            };
            self.first_update = false;
        } else if self.config.scale_diag {
            // Update diag
            for (d, norm) in self.diag.iter_mut().zip(lls.column_norms.iter()) {
                *d = Float::max(*norm, *d);
            }
        }
        Ok(())
        // lm.rs to here
    }
}
