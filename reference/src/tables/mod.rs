//! House tables: their records and their check.

pub mod bytes;
mod check;
pub mod counts;
pub mod faults;
pub mod records;
pub mod sample;
pub mod shapes;
#[cfg(test)]
mod tests;

pub use check::*;
