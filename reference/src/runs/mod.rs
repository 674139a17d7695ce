//! The check of two runs: that nothing is told of a sensitive role too early.

pub mod compare;
pub mod counts;
pub mod sample;
