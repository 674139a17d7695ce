//! A negotiation: its bytes, its graph, its states, its damage, and the calls that begin it and report on it.

pub mod begin;
pub mod bytes;
pub mod clause;
pub mod counts;
pub mod damage;
pub mod edge_faults;
pub mod faults;
pub mod graph;
pub mod growth;
pub mod large;
mod layout;
mod messages;
pub mod node_faults;
pub mod report;
pub mod sample;
pub mod shapes;
pub mod states;
#[cfg(test)]
mod tests;

pub use layout::*;
pub use messages::*;
