//! Safe calls of the proved library, and the parts of the command `wirdoku`.
//!
//! Module `library` is the only one that calls foreign code. What its functions answer is proved (crates/wirdoku/specs says what
//! it is); everything else in this package is ordinary Rust and is only tested.

pub mod answer;
pub mod args;
pub mod command;
pub mod explain;
pub mod library;
pub mod limits;
pub mod model;
pub mod parts;
pub mod scratch;
pub mod solver;
pub mod trace;
