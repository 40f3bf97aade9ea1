//! Runs found by walking states, without any clause: the shortest run, the
//! number of runs of k steps, all runs of k steps.

use std::collections::{HashMap, HashSet};
use std::ops::ControlFlow;

use crate::model::{choice_length, test_record, test_record_and_bound, Model, MAX_BOUND};
use crate::refusal::Refusal;
use crate::state::State;
use crate::step::step;

/// What the search for a shortest run found.
#[derive(Clone, Copy, PartialEq, Eq, Debug)]
pub enum Shortest {
    /// The length of a shortest run.
    Steps(usize),
    /// Every run has more than 64 steps, or there is none.
    None,
    /// More states than the search was allowed to keep.
    Unknown,
}

/// The initial state, if it meets its invariant.
pub fn start(model: &Model) -> Option<State> {
    Some(State::initial(model)).filter(|state| state.meets_invariant(model))
}

/// The states one step after a state, with the byte that leads there.
pub fn successors(model: &Model, state: State) -> impl Iterator<Item = (u8, State)> + '_ {
    let bytes = 0..choice_length(model) as u8;
    bytes.filter_map(move |byte| step(model, state, byte).ok().map(|after| (byte, after)))
}

/// The length of a shortest run up to 64, by breadth-first search that keeps at
/// most `state_limit` states.
pub fn shortest(model: &Model, state_limit: usize) -> Result<Shortest, Refusal> {
    test_record(model)?;
    let mut level: HashSet<State> = start(model).into_iter().collect();
    let mut seen = level.clone();
    for steps in 0..=MAX_BOUND {
        if level.iter().any(|state| state.location == model.target) {
            return Ok(Shortest::Steps(steps));
        }
        level = next_level(model, &level);
        level.retain(|state| seen.insert(*state));
        if seen.len() > state_limit {
            return Ok(Shortest::Unknown);
        }
    }
    Ok(Shortest::None)
}

/// The states one step after some states.
pub fn next_level(model: &Model, level: &HashSet<State>) -> HashSet<State> {
    let after = level.iter().flat_map(|state| successors(model, *state));
    after.map(|(_, state)| state).collect()
}

/// The number of runs of exactly `bound` steps. None if it does not fit the
/// number type or if more than `state_limit` states are reached in one step.
pub fn count_runs(model: &Model, bound: usize, state_limit: usize) -> Result<Option<u128>, Refusal> {
    test_record_and_bound(model, bound)?;
    let mut ways: HashMap<State, u128> = start(model).into_iter().map(|state| (state, 1)).collect();
    for _ in 0..bound {
        match next_ways(model, &ways) {
            Some(next) if next.len() <= state_limit => ways = next,
            _ => return Ok(None),
        }
    }
    let at_target = ways.iter().filter(|(state, _)| state.location == model.target);
    Ok(at_target.map(|(_, count)| *count).try_fold(0, u128::checked_add))
}

/// In how many ways each state is reached one step later.
fn next_ways(model: &Model, ways: &HashMap<State, u128>) -> Option<HashMap<State, u128>> {
    let mut next: HashMap<State, u128> = HashMap::new();
    for (state, count) in ways {
        for (_, after) in successors(model, *state) {
            let sum = next.entry(after).or_insert(0);
            *sum = sum.checked_add(*count)?;
        }
    }
    Some(next)
}

/// `Break` stops the enumeration of runs.
pub type Flow = ControlFlow<()>;

/// Shows every run of exactly `bound` steps to `visit`, in rising order of bytes.
pub fn visit_runs(model: &Model, bound: usize, visit: &mut dyn FnMut(&[u8]) -> Flow) -> Result<Flow, Refusal> {
    test_record_and_bound(model, bound)?;
    Ok(match start(model) {
        Some(state) => extend(model, bound, state, &mut Vec::new(), visit),
        None => Flow::Continue(()),
    })
}

/// Goes on from a walk's end with every allowed step, up to `bound` steps.
fn extend(model: &Model, bound: usize, state: State, run: &mut Vec<u8>, visit: &mut dyn FnMut(&[u8]) -> Flow) -> Flow {
    if run.len() == bound {
        return if state.location == model.target { visit(run) } else { Flow::Continue(()) };
    }
    for (byte, after) in successors(model, state) {
        run.push(byte);
        extend(model, bound, after, run, visit)?;
        run.pop();
    }
    Flow::Continue(())
}

/// All runs of exactly `bound` steps, in rising order of bytes.
pub fn all_runs(model: &Model, bound: usize) -> Result<Vec<Vec<u8>>, Refusal> {
    let mut runs = Vec::new();
    let _ = visit_runs(model, bound, &mut |run| {
        runs.push(run.to_vec());
        Flow::Continue(())
    })?;
    Ok(runs)
}
