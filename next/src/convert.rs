//! `decode` and `encode`: from what a solver printed to a run, and from a run to an assignment, by the proved conversions.

use std::path::Path;

use crate::answer::{self, Refused, Verdict};
use crate::check::decoded;
use crate::command::{accepted, sizes, steps};
use crate::input;
use crate::json::{Fields, Value};
use crate::report::{status, Report, Stop};
use crate::subject::Subject;
use crate::{trace, trace_json, walk};

/// What is read of a solver's output at the most.
const LONGEST_OUTPUT: u64 = 1 << 24;
/// The longest line of an assignment, in characters.
const LINE: usize = 78;

/// The run of what a solver printed for the list of a bound.
pub fn decode(subject: &Subject, bound: usize, output: &Path) -> Result<Report, Stop> {
    let sizes = sizes(&subject.model, bound)?;
    let name = output.display().to_string();
    let verdict = verdict(&read(output)?, sizes.variables).map_err(|refused| Stop {
        status: status::NO_SOLVER,
        message: format!("{}: {}", name, refused.reason),
        refusal: refused.refusal,
    })?;
    match verdict {
        Verdict::Satisfiable(assignment) => {
            let run = decoded(&subject.model, bound, &format!("{}: the assignment", name), &assignment)?;
            let found = format!("a run of {} reaches the target", steps(bound));
            let text = format!("{}\n{}(walked by proved code)\n", found, trace::text(subject, &run));
            Ok(Report { status: status::RUN, text, fields: fields(subject, "run", bound, Some(&run)) })
        }
        Verdict::Unsatisfiable => {
            let none = format!("no run of exactly {}, so none of fewer", steps(bound));
            let text = format!("{}\n(the word of {}, which is not checked)\n", none, name);
            Ok(Report { status: status::NO_RUN, text, fields: fields(subject, "no run", bound, None) })
        }
    }
}

fn fields(subject: &Subject, verdict: &'static str, bound: usize, run: Option<&[u8]>) -> Fields {
    let mut fields = vec![("verdict", verdict.into()), ("bound", bound.into())];
    fields.extend(trace_json::found(subject, run));
    fields
}

fn read(path: &Path) -> Result<Vec<u8>, Stop> {
    let wrong = |reason: String| Stop::new(status::FILE, format!("{} {}", path.display(), reason));
    match input::read(path, LONGEST_OUTPUT) {
        Err(error) => Err(wrong(format!("cannot be read: {}", error))),
        Ok(bytes) if bytes.len() as u64 > LONGEST_OUTPUT => Err(wrong(format!("has more than {} bytes", LONGEST_OUTPUT))),
        Ok(bytes) => Ok(bytes),
    }
}

/// What an output says: in the competitions' form by the proved call; MiniSat's own form begins otherwise.
fn verdict(output: &[u8], variables: usize) -> Result<Verdict, Refused> {
    if output.starts_with(b"SAT\n") || output.starts_with(b"UNSAT\n") {
        return answer::minisat(&String::from_utf8_lossy(output), variables).map_err(Refused::from);
    }
    answer::competition(output, variables)
}

/// The assignment of a run into the target, as a solver prints one.
pub fn encode(subject: &Subject, run: &[u8]) -> Result<Report, Stop> {
    // A run that is too long is refused here, with 21.
    let mut assignment = vec![0; sizes(&subject.model, run.len())?.variables];
    let answer = subject.model.run_to_assignment(run, &mut assignment);
    match answer.number {
        27..=30 => {
            let message = walk::refusal(subject, run, answer);
            return Err(Stop { status: status::NO_RUN, message, refusal: Some((answer.number, answer.place)) });
        }
        number => accepted(&subject.model, number, answer.place)?,
    }
    let fields = vec![
        ("bound", run.len().into()),
        ("run", Value::list(run, |byte| *byte)),
        ("variables", assignment.len().into()),
        ("assignment", Value::list(&assignment, |byte| *byte)),
    ];
    Ok(Report { status: status::DONE, text: format!("s SATISFIABLE\n{}", value_lines(&assignment)), fields })
}

/// Lines of `v` and literals, the last literal 0.
fn value_lines(assignment: &[u8]) -> String {
    let literal = |(place, value): (usize, &u8)| format!("{}{}", if *value == 1 { "" } else { "-" }, place + 1);
    let mut lines = String::from("v");
    let mut length = 1;
    for word in assignment.iter().enumerate().map(literal).chain(["0".to_string()]) {
        if length + 1 + word.len() > LINE {
            lines.push_str("\nv");
            length = 1;
        }
        length += 1 + word.len();
        lines.push(' ');
        lines.push_str(&word);
    }
    lines.push('\n');
    lines
}
