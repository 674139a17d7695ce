//! RT0: roles, expressions and credentials, the relation "f from e" and questions about it, frontiers, and the classes
//! of role names.

pub mod classes;
pub mod expression;
pub mod frontier;
pub mod question;
pub mod relation;
pub mod sample;
pub mod shapes;
