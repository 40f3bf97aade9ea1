//! `check`: looks for a run into the target with a SAT solver.

use std::io::Write;
use std::time::{Duration, Instant};

use crate::args::{Bounds, Check};
use crate::command::{file, sizes};
use crate::explain;
use crate::model::Model;
use crate::outcome::Outcome;
use crate::progress::Progress;
use crate::proving::{self, Checked};
use crate::report::{status, Report, Stop};
use crate::search::{Found, Search};
use crate::solver::Solver;
use crate::subject::Subject;
use crate::system::{is_terminal, STANDARD_ERROR};

/// The empty run is walked first, by the proved walker: what it decides needs no solver.
pub fn check(subject: &Subject, how: &Check, log: &mut dyn Write) -> Result<Report, Stop> {
    let start = Instant::now();
    let last = match how.bounds {
        Bounds::Exactly(bound) | Bounds::UpTo(bound) => bound,
    };
    sizes(&subject.model, last)?;
    let outcome = |solver, found| Outcome { how, solver, found, checked: None, time: start.elapsed() };
    match (subject.model.walk(&[]).number, how.bounds) {
        (29, _) => return Ok(outcome(None, Found::default()).no_run_at_all(subject)),
        (0, Bounds::UpTo(_)) => {
            let found = Found { run: Some(Vec::new()), ..Found::default() };
            return Ok(outcome(None, found).report(subject));
        }
        (_, Bounds::UpTo(0)) => {
            let found = Found { none_up_to: Some(0), ..Found::default() };
            return Ok(outcome(None, found).report(subject));
        }
        _ => {}
    }
    let solver = chosen(how.solver.as_ref())?;
    let found = searched(subject, how, &solver, start, log)?;
    let checked = checked(subject, how, &solver, &found, start, log)?;
    Ok(Outcome { checked, ..outcome(Some(solver.name()), found) }.report(subject))
}

/// When the search must end. Seconds that are too many to be added are as good as endless.
fn deadline(how: &Check, start: Instant) -> Option<Instant> {
    how.timeout.and_then(|seconds| start.checked_add(Duration::from_secs(seconds)))
}

/// Has proved code check a refutation of the greatest bound that has no run, if that is due: it serves all bounds below it. That the
/// empty run is none was seen by the proved walker.
fn checked(
    subject: &Subject,
    how: &Check,
    solver: &Solver,
    found: &Found,
    start: Instant,
    log: &mut dyn Write,
) -> Result<Option<Checked>, Stop> {
    let bound = match (found.none_up_to, found.unfinished) {
        (Some(bound), None) if bound > 0 || how.bounds == Bounds::Exactly(0) => bound,
        _ => return Ok(None),
    };
    if !proving::is_due(&subject.model, how, solver, bound)? {
        return Ok(None);
    }
    let checked = proving::refuted(&subject.model, how, bound, deadline(how, start))?;
    if let Some(line) = proving::told(&checked) {
        // Progress is a courtesy: an answer does not fail with it.
        let _ = writeln!(log, "{}", line);
    }
    Ok(Some(checked))
}

fn chosen(solver: Option<&Solver>) -> Result<Solver, Stop> {
    solver.cloned().or_else(Solver::first_installed).ok_or_else(|| {
        let message = "no solver is on the path: install one of Debian's packages cadical, minisat, picosat";
        Stop::new(status::NO_SOLVER, message.to_string())
    })
}

fn searched(subject: &Subject, how: &Check, solver: &Solver, start: Instant, log: &mut dyn Write) -> Result<Found, Stop> {
    let last = match how.bounds {
        Bounds::Exactly(_) => None,
        Bounds::UpTo(last) => Some(last),
    };
    let mut search = Search {
        model: &subject.model,
        shape: *subject.shape(),
        solver,
        deadline: deadline(how, start),
        progress: Progress::new(log, is_terminal(STANDARD_ERROR), solver.name(), last),
    };
    match how.bounds {
        Bounds::Exactly(bound) => search.exactly(bound),
        Bounds::UpTo(last) => search.up_to(last),
    }
}

/// The run of an assignment for a bound, tested by the proved conversion and walked by the proved walker; `whose` names it in a message.
pub fn decoded(model: &Model, bound: usize, whose: &str, assignment: &[u8]) -> Result<Vec<u8>, Stop> {
    let mut run = vec![0; bound];
    let mut answer = model.assignment_to_run(bound, assignment, &mut run);
    let mut clause = String::new();
    if answer.number == 26 {
        clause = format!("\n    {}", clause_at(&file(model, bound)?, answer.place));
    } else if answer.number == 0 {
        answer = model.walk(&run);
    }
    if answer.number == 0 {
        return Ok(run);
    }
    let reason = explain::refusal(answer.number, answer.place);
    let message = format!("{} at bound {} is wrong: {}{}", whose, bound, reason, clause);
    Err(Stop { status: status::WRONG_ANSWER, message, refusal: Some((answer.number, answer.place)) })
}

/// The literals of a clause of a file, from its index from 0: the line after the first one and so many, less its 0.
fn clause_at(file: &[u8], index: usize) -> String {
    let line = file.split(|byte| *byte == b'\n').nth(index + 1).unwrap_or(&[]);
    String::from_utf8_lossy(line.strip_suffix(b" 0").unwrap_or(line)).to_string()
}
