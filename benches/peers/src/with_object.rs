//! The loops with the crate `object`.
pub mod high;
pub mod low;
