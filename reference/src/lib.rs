//! RT0 questions answered, house tables checked, negotiations begun and reported on, messages taken and replies given
//! straight from their definitions, to compare the engine with.
//!
//! A folder uses only those before it in this order, but for tests: `rules`, `tables`, `negotiation`, `message`,
//! `reply`, `ends`, `runs`. Beside the definitions it may have random examples (`sample`), ones with faults (`faults`),
//! both in bytes (`bytes`), what occurred among them (`counts`), and examples built by hand, those that last long among
//! them (`shapes`, `large`). `random` makes the random numbers, `refusal` numbers the refusals.

pub mod ends;
pub mod message;
pub mod negotiation;
pub mod random;
pub mod refusal;
pub mod reply;
pub mod rules;
pub mod runs;
pub mod tables;
