//! The reply: the rules that find its moves, the credentials that go before an edge, and the call that gives it.

mod call;
pub mod counts;
pub mod large;
pub mod leak;
pub mod moves;
pub mod needed;
pub mod opponent;
#[cfg(test)]
mod tests;
pub mod verifier;

pub use call::*;
