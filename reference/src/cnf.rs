//! The cnf program: a bound line and a model text in, the DIMACS file out.

use crate::dimacs::file;
use crate::refusal::Refusal;
use crate::text::{read_bound_line, read_whole};

/// What the program prints: the file, or after a refusal its number and line.
/// It tests 9, then the text, then 21. It lends no words, so there is no 22.
pub fn printed(input: &[u8]) -> String {
    match asked(input) {
        Ok(file) => file,
        Err(refusal) => format!("refusal={}\nline={}\n", refusal.number, refusal.place),
    }
}

fn asked(input: &[u8]) -> Result<String, Refusal> {
    let (bound, text) = read_bound_line(input)?;
    let model = read_whole(text)?;
    file(&model, bound as usize)
}
