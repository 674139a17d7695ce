//! Messages: their commands, which of these are legal, and the call that takes a message.

pub mod bytes;
mod commands;
pub mod counts;
pub mod faults;
pub mod large;
pub mod legal;
pub mod plan;
pub mod sample;
pub mod shapes;
pub mod take;
#[cfg(test)]
mod tests;
pub mod writer;

pub use commands::*;
