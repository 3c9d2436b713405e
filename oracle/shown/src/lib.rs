//! The shown Rust of levenberg-marquardt 0.15.0 over document 01's leaf rules, and its calls in plain slices.
//!
//! `qr.rs`, `trust_region.rs` and the marked lines of `update_diag.rs` and `published.rs` are the crate's own, byte for
//! byte, so they are not reformatted; `traced.rs` is `trust_region.rs` with marked lines added.

mod above;
mod engine;
mod factoring;
mod frozen;
mod leaves;
mod packing;
pub mod published;
mod recorder;
mod room;
mod scaling;
mod searching;
mod sheet;
mod trace;
#[rustfmt::skip]
mod traced;
#[rustfmt::skip]
mod trust_region;
mod update_diag;
mod utils;

include!(concat!(env!("OUT_DIR"), "/module.rs"));

/// The shown Rust as one of the two workings of document 01.
#[derive(Clone, Copy, Debug)]
pub struct Shown;
