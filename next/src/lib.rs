//! Safe calls of the proved library, and the parts of the command `wirdoku`.
//!
//! Modules `library` and `system` are the only ones that call foreign code. What the functions of `library` answer is proved
//! (crates/wirdoku/specs says what it is); everything else in this package is ordinary Rust and is only tested.

pub mod answer;
pub mod args;
pub mod check;
pub mod command;
pub mod convert;
pub mod cubes;
pub mod dot;
pub mod drawing;
pub mod explain;
pub mod fault;
pub mod faulty;
pub mod input;
pub mod items;
pub mod joined;
pub mod json;
pub use wirdoku::library;
pub mod limits;
pub mod model;
pub mod names;
pub mod options;
pub mod outcome;
pub mod parts;
pub mod path;
pub mod process;
pub mod progress;
pub mod proving;
pub mod reach;
pub mod refused;
pub mod refutation;
pub mod report;
pub mod search;
pub mod solver;
pub mod solving;
pub mod subject;
pub mod system;
pub mod table;
pub mod trace;
pub mod trace_json;
pub mod variables;
pub mod version;
pub mod walk;
