//! The next command's ways to a shortest run, against the reference program's
//! search: cubes in one process of cadical, doubling and bisecting with another
//! solver, and the search through all states by the proved step call.

use std::io;

use reference::model::MAX_BOUND;
use reference::search::Shortest;
use reference::subject::Subject;
use wirdoku::library;
use wirdoku_next::args::{Bounds, Check, Proof, Reach};
use wirdoku_next::check::check;
use wirdoku_next::json::Value;
use wirdoku_next::model::{Model, Text};
use wirdoku_next::reach::{self, Outcome};
use wirdoku_next::solver::Solver;
use wirdoku_next::subject::Subject as Asked;

use crate::desk::Desk;
use crate::tally::Tally;

/// Most states that the search through all states may meet.
const STATES: usize = 100_000;

/// A list of at most so many words is refuted by proved code, unasked.
const SHORT: usize = 250_000;

/// All three ways for the model at a place of the list, whose shortest run the reference program knows.
pub fn test(desk: &mut Desk, tally: &mut Tally, subject: &Subject, found: Shortest, index: usize) {
    for solver in [&Solver::Cadical, &Solver::ALL[index % Solver::ALL.len()]] {
        desk.calls += 1;
        let outcome = searched(subject, solver).and_then(|told| agreed(told, found));
        tally.about(subject, &format!("search of the next command with {}", solver.name()), outcome);
    }
    let outcome = reached(subject).and_then(|told| agreed(told, found));
    tally.about(subject, "search through all states", outcome);
}

/// The length of a shortest run, or none up to 64 steps.
fn agreed(told: Option<usize>, found: Shortest) -> Result<(), String> {
    match (told, found) {
        (Some(length), Shortest::Steps(steps)) if length == steps => Ok(()),
        (None, Shortest::None) => Ok(()),
        _ => Err(format!("{told:?}, but the reference's search: {found:?}")),
    }
}

fn asked(subject: &Subject) -> Result<Asked, String> {
    let text = Text { path: "-".into(), name: subject.name.clone(), bytes: subject.text.clone() };
    Asked::of(Model::One(text)).map_err(|stop| stop.message)
}

fn searched(subject: &Subject, solver: &Solver) -> Result<Option<usize>, String> {
    let bounds = Bounds::UpTo(MAX_BOUND);
    let how = Check { bounds, solver: Some(solver.clone()), proof: Proof::IfSmall, timeout: None, quiet: true };
    let report = check(&asked(subject)?, &how, &mut io::sink()).map_err(|stop| stop.message)?;
    let field = |name: &str| report.fields.iter().find(|(other, _)| *other == name).map(|(_, value)| value);
    let shortest = match (report.status, field("bound")) {
        (10, Some(Value::Number(bound))) => Some(*bound),
        (20, Some(Value::Null)) => None,
        _ => return Err(format!("status {}: {}", report.status, report.text)),
    };
    let is_short = library::counts(&subject.text, MAX_BOUND).words <= SHORT;
    let unchecked = field("none_checked") == Some(&Value::Bool(false));
    if *solver == Solver::Cadical && is_short && unchecked {
        return Err(format!("no refutation was checked: {}", report.text));
    }
    Ok(shortest)
}

/// A run of more than 64 steps is none for the reference's search.
fn reached(subject: &Subject) -> Result<Option<usize>, String> {
    let how = Reach { states: STATES, timeout: None, quiet: true };
    match reach::search(&asked(subject)?.model, &how, &mut io::sink()).0 {
        Outcome::Run(run) => Ok(Some(run.len()).filter(|length| *length <= MAX_BOUND)),
        Outcome::Never | Outcome::NoStart => Ok(None),
        Outcome::Undecided(_) => Err(format!("not decided with {STATES} states")),
    }
}
