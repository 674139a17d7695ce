//! Whole negotiations: two honest ends, or one end and another that does as it likes.

pub mod adversary;
pub mod calls;
pub mod sample;
pub mod two_ends;
