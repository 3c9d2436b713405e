//! The two workings of document 01.

use api::{Engine, Leaves, Traced};
use plain::Plain;
use shown::Shown;

pub trait Working: Leaves + Engine + Traced {}
impl<T: Leaves + Engine + Traced> Working for T {}

pub static SHOWN: &(dyn Working + Sync) = &Shown;
pub static PLAIN: &(dyn Working + Sync) = &Plain;
