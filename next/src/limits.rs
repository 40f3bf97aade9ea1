//! The limits of a model, and which of them a composed model would pass, for the message of refusal 38.

pub use wirdoku::limits::{passed, ATOMS, CLOCKS, COUNTERS, EDGES, LOCATIONS};

pub const LABEL: usize = 15;
pub const CLOCK_CONSTANT: usize = 30;
pub const COUNTER_VALUE: usize = 31;
