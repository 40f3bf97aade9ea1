//! Deterministic generator of test cases. Everything follows from one seed:
//! the same seed gives the same case on every machine.

pub mod cases;
mod lines;
pub mod models;
pub mod outputs;
pub mod pairs;
pub mod records;
pub mod rng;
pub mod runs;
pub mod script;
pub mod texts;
