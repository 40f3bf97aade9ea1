//! What the numbers of refusals mean, in plain sentences.

pub use crate::refused::text_refusal;
pub use wirdoku::explain::{place_name, refusal, sentence};
