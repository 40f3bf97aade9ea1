//! A solver's output in the form of the competitions ("Read what the solver
//! says"): comments, one line `s`, and for a satisfiable list lines `v` with its
//! literals; and the call that writes the assignment to a lent buffer.

use std::collections::HashSet;

use crate::refusal::{Refusal, NOT_ALL_NAMED, WRONG_OUTPUT_LINE, WRONG_VARIABLE};

/// The competitions' exit statuses, which stand for the outcomes.
pub const SATISFIABLE: u32 = 10;
pub const UNSATISFIABLE: u32 = 20;

/// What an accepted output says; an assignment has a byte for each variable.
#[derive(Clone, PartialEq, Eq, Debug)]
pub enum Verdict {
    Satisfiable(Vec<u8>),
    Unsatisfiable,
}

/// What the call returns. The outcome is 0 after a refusal, the line 0 without one.
#[derive(Clone, Copy, PartialEq, Eq, Debug)]
pub struct Reading {
    pub refusal: u32,
    pub line: u32,
    pub outcome: u32,
}

/// Reads an output: 33, 34, 35. The buffer has a byte for each variable. It is
/// written whole if the output is accepted and says satisfiable, else not at all.
pub fn output_to_assignment(output: &[u8], assignment: &mut [u8]) -> Reading {
    match read_output(output, assignment.len()) {
        Err(refusal) => Reading { refusal: refusal.number, line: refusal.place, outcome: 0 },
        Ok(Verdict::Unsatisfiable) => Reading { refusal: 0, line: 0, outcome: UNSATISFIABLE },
        Ok(Verdict::Satisfiable(bytes)) => {
            assignment.copy_from_slice(&bytes);
            Reading { refusal: 0, line: 0, outcome: SATISFIABLE }
        }
    }
}

/// Where the reading stands.
enum Due {
    /// The line `s`.
    Status,
    /// Lines `v`, the closing 0 not among those read.
    Values,
    /// Nothing but comments.
    Comments,
}

/// Reads an output for variables 1 to `variables`. Lines are judged in order.
pub fn read_output(output: &[u8], variables: usize) -> Result<Verdict, Refusal> {
    let mut due = Due::Status;
    let mut satisfiable = false;
    let mut named = HashSet::new();
    let mut bytes = vec![0; variables];
    let mut lines = 0;
    for line in output.split_inclusive(|byte| *byte == b'\n') {
        lines += 1;
        let wrong = Refusal::at(WRONG_OUTPUT_LINE, lines);
        let line = line.strip_suffix(b"\n").ok_or(wrong)?;
        if line.starts_with(b"c ") {
            continue;
        }
        match (&due, line) {
            (Due::Status, b"s UNSATISFIABLE") => due = Due::Comments,
            (Due::Status, b"s SATISFIABLE") => {
                satisfiable = true;
                due = Due::Values;
            }
            (Due::Values, _) => {
                for literal in literals(line).ok_or(wrong)? {
                    if literal == "0" {
                        if named.len() < variables {
                            return Err(Refusal::at(NOT_ALL_NAMED, lines));
                        }
                        due = Due::Comments;
                        continue;
                    }
                    let wrong_variable = Refusal::at(WRONG_VARIABLE, lines);
                    let variable = variable(literal).filter(|variable| *variable <= variables).ok_or(wrong_variable)?;
                    if !named.insert(variable) {
                        return Err(wrong_variable);
                    }
                    bytes[variable - 1] = u8::from(!literal.starts_with('-'));
                }
            }
            _ => return Err(wrong),
        }
    }
    match due {
        Due::Comments if satisfiable => Ok(Verdict::Satisfiable(bytes)),
        Due::Comments => Ok(Verdict::Unsatisfiable),
        _ => Err(Refusal::at(NOT_ALL_NAMED, lines + 1)),
    }
}

/// The literals of a line `v`, of which there is at least one; none if the line
/// has another form. A 0 is the last.
fn literals(line: &[u8]) -> Option<Vec<&str>> {
    let words: Vec<&str> = std::str::from_utf8(line).ok()?.strip_prefix("v ")?.split(' ').collect();
    let (last, others) = words.split_last()?;
    let formed = others.iter().all(|word| is_literal(word)) && (is_literal(last) || *last == "0");
    formed.then_some(words)
}

/// Digits without a leading zero, or a minus before them.
fn is_literal(word: &str) -> bool {
    let digits = word.strip_prefix('-').unwrap_or(word);
    !digits.is_empty() && !digits.starts_with('0') && digits.bytes().all(|byte| byte.is_ascii_digit())
}

/// The variable of a literal; none if it is greater than any buffer's length.
fn variable(literal: &str) -> Option<usize> {
    literal.trim_start_matches('-').parse().ok()
}
