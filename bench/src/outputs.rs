//! What a solver prints, read by the library, by plain Rust for speed and by the
//! reference program. Plain Rust has the library call's contract: lines are judged
//! in order, a line's form before its literals, a variable that is named twice or
//! not at all is found, and the buffer is written only after all is accepted. It
//! keeps the values in a vector of its own meanwhile, which the library does not.

use reference::gen::outputs;
use reference::gen::rng::Rng;
use reference::output::output_to_assignment;
use wirdoku::library::{self, OutputAnswer, SATISFIABLE, UNSATISFIABLE};

use crate::measure::{keep, Rounds};
use crate::table::OutputRow;

/// The numbers of variables; 21,776 are the most that a list has.
pub const VARIABLES: [usize; 5] = [100, 1_000, 21_776, 40_000, 100_000];

/// A line is as long as cadical's at most.
const WIDEST: usize = 78;
/// Generated outputs that are compared before a time is taken.
const GENERATED: u64 = 5_000;

/// The row of an output that gives random values to so many variables.
pub fn reading(variables: usize) -> Result<OutputRow, String> {
    let output = printed(variables);
    agree(&output, variables)?;
    let [mut a, mut b, mut c] = [(); 3].map(|()| vec![7; variables]);
    let rounds = Rounds::of(&mut [
        &mut || keep(library::output_to_assignment(&output, &mut a)),
        &mut || keep(plain(&output, &mut b)),
        &mut || keep(output_to_assignment(&output, &mut c)),
    ]);
    Ok(OutputRow { variables, bytes: output.len(), rounds })
}

/// An output as cadical lays it out.
fn printed(variables: usize) -> Vec<u8> {
    let mut rng = Rng::new(1);
    let mut output = "s SATISFIABLE\nv".to_string();
    let mut width = 1;
    for variable in 1..=variables + 1 {
        let sign = if rng.one_in(2) { "-" } else { "" };
        let word = if variable > variables { "0".to_string() } else { format!("{sign}{variable}") };
        if width + 1 + word.len() > WIDEST {
            output.push_str("\nv");
            width = 1;
        }
        width += 1 + word.len();
        output.push(' ');
        output.push_str(&word);
    }
    output.push('\n');
    output.into_bytes()
}

/// All agree in the output, and in some that are refused.
fn agree(right: &[u8], variables: usize) -> Result<(), String> {
    let again = [&right[..right.len() - 2], b"1 0\n"].concat();
    let wrong = [&right[..right.len() - 1], b" \n"].concat();
    let cut = [&right[..right.len() - 3], b"\n"].concat();
    agree_in(right, variables - 1)?;
    for output in [right, &again[..], &wrong[..], &cut[..]] {
        agree_in(output, variables)?;
    }
    Ok(())
}

/// All agree in generated outputs, damaged ones too.
pub fn agree_in_generated() -> Result<(), String> {
    (0..GENERATED).try_for_each(|seed| {
        let (output, variables) = outputs::output(&mut Rng::new(seed));
        agree_in(&output, variables)
    })
}

/// The answers and the buffers are the same.
fn agree_in(output: &[u8], variables: usize) -> Result<(), String> {
    let mut buffers = [(); 3].map(|()| vec![7; variables]);
    let [a, b, c] = &mut buffers;
    let (told, found, reading) = (library::output_to_assignment(output, a), plain(output, b), output_to_assignment(output, c));
    let expected = OutputAnswer { number: reading.refusal as u8, line: reading.line as usize, outcome: reading.outcome as u8 };
    if told != expected || found != expected || buffers.windows(2).any(|pair| pair[0] != pair[1]) {
        return Err(format!("an output of {variables} variables: library {told:?}, plain {found:?}, reference {expected:?}"));
    }
    Ok(())
}

/// What is due.
#[derive(Clone, Copy, PartialEq, Eq)]
enum Due {
    Status,
    Values,
    Nothing(u8),
}

/// The values read so far, 2 for a variable that is not named.
struct Values {
    bytes: Vec<u8>,
    left: usize,
}

/// Why a line is refused.
enum Fault {
    Form,
    Variable,
    Unnamed,
}

/// The library's call.
fn plain(output: &[u8], assignment: &mut [u8]) -> OutputAnswer {
    let mut values = Values { bytes: vec![2; assignment.len()], left: assignment.len() };
    let mut due = Due::Status;
    let mut line = 0;
    let mut rest = output;
    while !rest.is_empty() {
        line += 1;
        let end = match rest.iter().position(|byte| *byte == b'\n') {
            Some(end) => end,
            None => return refused(33, line),
        };
        let outcome = judge(&rest[..end], due, &mut values);
        due = match outcome {
            Ok(due) => due,
            Err(Fault::Form) => return refused(33, line),
            Err(Fault::Variable) => return refused(34, line),
            Err(Fault::Unnamed) => return refused(35, line),
        };
        rest = &rest[end + 1..];
    }
    match due {
        Due::Nothing(outcome) => {
            if outcome == SATISFIABLE {
                assignment.copy_from_slice(&values.bytes);
            }
            OutputAnswer { number: 0, line: 0, outcome }
        }
        _ => refused(35, line + 1),
    }
}

fn refused(number: u8, line: usize) -> OutputAnswer {
    OutputAnswer { number, line, outcome: 0 }
}

/// What is due after a line.
fn judge(line: &[u8], due: Due, values: &mut Values) -> Result<Due, Fault> {
    match (due, line) {
        (_, [b'c', b' ', ..]) => Ok(due),
        (Due::Status, b"s SATISFIABLE") => Ok(Due::Values),
        (Due::Status, b"s UNSATISFIABLE") => Ok(Due::Nothing(UNSATISFIABLE)),
        (Due::Values, [b'v', rest @ ..]) if !rest.is_empty() => values.take(rest),
        _ => Err(Fault::Form),
    }
}

impl Values {
    /// Takes the literals of a line, each after a space. A fault of a literal counts
    /// only if the rest of the line has its form.
    fn take(&mut self, line: &[u8]) -> Result<Due, Fault> {
        let mut due = Ok(Due::Values);
        let mut at = 0;
        while at < line.len() {
            let negative = line.get(at + 1) == Some(&b'-');
            let first = at + 1 + usize::from(negative);
            if line[at] != b' ' || !line.get(first).map_or(false, u8::is_ascii_digit) {
                return Err(Fault::Form);
            }
            let mut variable = 0_usize;
            at = first;
            while let Some(digit) = line.get(at).map(|byte| byte.wrapping_sub(b'0')).filter(|digit| *digit < 10) {
                variable = variable.saturating_mul(10).saturating_add(usize::from(digit));
                at += 1;
            }
            if line[first] == b'0' {
                if at != line.len() || at > first + 1 || negative {
                    return Err(Fault::Form);
                }
                return due.and(if self.left == 0 { Ok(Due::Nothing(SATISFIABLE)) } else { Err(Fault::Unnamed) });
            }
            if due.is_ok() {
                due = self.name(variable, !negative).map(|()| Due::Values);
            }
        }
        due
    }

    fn name(&mut self, variable: usize, value: bool) -> Result<(), Fault> {
        match self.bytes.get_mut(variable - 1) {
            Some(byte) if *byte == 2 => {
                *byte = u8::from(value);
                self.left -= 1;
                Ok(())
            }
            _ => Err(Fault::Variable),
        }
    }
}
