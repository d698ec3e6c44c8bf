//! What is feasible, what is granted, who comes when, and which cells a call evicts.
//!
//! Needs are feasible exactly if, for every r, the r largest together do not exceed the capacity for r: the sum over
//! the slots of the smaller of r and the bridges on offer there. No slot offers more than eight bridges, so the
//! capacity stops growing at r = 8, and beyond that only the sum of all needs counts.

mod evict;
mod grants;
mod lrtf;
mod offers;

pub use evict::{evict, Evicted};
pub use grants::grants;
pub use lrtf::Lrtf;
pub use offers::{Capacities, Offers};
