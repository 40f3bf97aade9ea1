//! The DIMACS file of a list ("A file that every solver reads"): the line `p cnf`
//! with variables and clauses, then a line for each clause; and the call that
//! writes it to a lent buffer.

use crate::list::{totals, visit_clauses, Flow};
use crate::model::Model;
use crate::refusal::{Refusal, BYTES_SHORT};

/// A clause as a line: its literals and 0, one space apart, and LF.
pub fn line(clause: &[i32]) -> String {
    let mut line = String::new();
    for literal in clause {
        line.push_str(&literal.to_string());
        line.push(' ');
    }
    line.push_str("0\n");
    line
}

/// The whole file for a bound.
pub fn file(model: &Model, bound: usize) -> Result<String, Refusal> {
    let totals = totals(model, bound)?;
    let mut file = format!("p cnf {} {}\n", totals.variables, totals.clauses);
    let _ = visit_clauses(model, bound, &mut |clause| {
        file.push_str(&line(clause));
        Flow::Continue(())
    })?;
    Ok(file)
}

/// What the call returns. `bytes` is the file's length for 0 and for 32, else 0.
#[derive(Clone, Copy, PartialEq, Eq, Debug)]
pub struct Filing {
    pub refusal: u32,
    pub bytes: usize,
}

/// The file into a lent buffer: 20, 21, 32. A refused call leaves the buffer as
/// it was; an accepted one writes the file from the start and nothing beyond.
pub fn write_file(model: &Model, bound: usize, buffer: &mut [u8]) -> Filing {
    match file(model, bound) {
        Err(refusal) => Filing { refusal: refusal.number, bytes: 0 },
        Ok(file) if buffer.len() < file.len() => Filing { refusal: BYTES_SHORT, bytes: file.len() },
        Ok(file) => {
            buffer[..file.len()].copy_from_slice(file.as_bytes());
            Filing { refusal: 0, bytes: file.len() }
        }
    }
}
