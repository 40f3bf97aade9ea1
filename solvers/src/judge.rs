//! What the reference program says, found by walking states without any clause,
//! and what both programs say of a solver's assignment.

use std::collections::HashSet;

use reference::model::Model;
use reference::search::{next_level, start};
use reference::state::State;
use reference::step;
use reference::subject::Subject;
use wirdoku::library;

/// The locations in which walks of exactly `bound` steps end; none if more than
/// `limit` states are reached.
pub fn ends(model: &Model, bound: usize, limit: usize) -> Option<HashSet<u8>> {
    let mut level: HashSet<State> = start(model).into_iter().collect();
    for _ in 0..bound {
        let next = next_level(model, &level);
        if next.len() > limit {
            return None;
        }
        if next == level {
            break;
        }
        level = next;
    }
    Some(level.iter().map(|state| state.location).collect())
}

/// For each location the least number of steps of a walk that ends there. The
/// search stops where it has more than `limit` states.
pub fn first_reached(model: &Model, limit: usize) -> Vec<Option<usize>> {
    let mut first = vec![None; usize::from(model.locations)];
    let mut level: HashSet<State> = start(model).into_iter().collect();
    let mut seen = level.clone();
    let mut steps = 0;
    while !level.is_empty() && seen.len() <= limit {
        for state in &level {
            first[usize::from(state.location)].get_or_insert(steps);
        }
        level = next_level(model, &level);
        level.retain(|state| seen.insert(*state));
        steps += 1;
    }
    first
}

/// The run of a solver's assignment. The proved conversion must take the
/// assignment, both walkers must take the run, and the conversion back must
/// give the assignment.
pub fn decoded(subject: &Subject, bound: usize, assignment: &[u8]) -> Result<Vec<u8>, String> {
    let mut run = vec![u8::MAX; bound];
    let answer = library::assignment_to_run(&subject.text, bound, assignment, &mut run);
    if (answer.number, answer.place) != (0, 0) {
        return Err(format!("the solver's assignment is refused: {answer:?}; assignment {assignment:?}"));
    }
    let walked = library::walk(&subject.text, &run);
    if (walked.number, walked.place) != (0, 0) {
        return Err(format!("the run {run:?} is refused: {walked:?}"));
    }
    let walked = step::walk(&subject.model, &run);
    if walked != (0, 0) {
        return Err(format!("the reference refuses the run {run:?}: {walked:?}"));
    }
    let mut back = vec![u8::MAX; assignment.len()];
    let answer = library::run_to_assignment(&subject.text, &run, &mut back);
    if (answer.number, answer.place) != (0, 0) || back != assignment {
        return Err(format!("the run {run:?} gives {answer:?} and {back:?}, not {assignment:?}"));
    }
    Ok(run)
}
