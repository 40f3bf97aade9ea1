//! Steps and runs ("Steps", "Run"): delay and edge, the step call, the walker.

use crate::model::{ceiling, choice_length, test_record, test_record_and_bound, ClockUpdate, Edge, Model, Update};
use crate::refusal::{number_and_place, Refusal, INITIAL_INVARIANT, NOT_ALLOWED, NOT_TARGET, NO_SUCH_STEP, WRONG_STATE};
use crate::state::State;

/// What a run byte stands for: d for delay d, M+1+e for edge e.
#[derive(Clone, Copy, PartialEq, Eq, Debug)]
pub enum Choice {
    Delay(u32),
    Edge(usize),
}

/// The choice of a run byte; none if the byte is H or more.
pub fn choice(model: &Model, byte: u8) -> Option<Choice> {
    let byte = u32::from(byte);
    let delays = ceiling(model) + 1;
    if byte < delays {
        Some(Choice::Delay(byte))
    } else if byte < choice_length(model) {
        Some(Choice::Edge((byte - delays) as usize))
    } else {
        None
    }
}

/// "Delay d, 0 to M: each clock c becomes the smaller of c+d and M, all else
/// stays, and the invariant must hold afterwards."
pub fn delay(model: &Model, state: State, ticks: u32) -> Option<State> {
    let ceiling = ceiling(model);
    let mut after = state;
    for clock in &mut after.clocks[..usize::from(model.clocks)] {
        *clock = (u32::from(*clock) + ticks).min(ceiling) as u8;
    }
    after.meets_invariant(model).then_some(after)
}

/// "Edge e: the state stands in its source, the guard holds before, every new
/// counter value lies in its range (else the edge can't be taken), and the
/// target's invariant holds afterwards." Updates of counters happen in their
/// listed order; copies of clocks are "all read together", before the edge.
pub fn edge(model: &Model, state: State, edge: &Edge) -> Option<State> {
    if state.location != edge.source || !state.meets(&edge.guard) {
        return None;
    }
    let mut after = state;
    after.location = edge.target;
    for counter in edge.listed() {
        let index = usize::from(*counter);
        let value = updated(&after, index, edge.updates[index]);
        if value < 0 || value > i32::from(model.counter[index].greatest) {
            return None;
        }
        after.counters[index] = value as u8;
    }
    for (clock, update) in after.clocks.iter_mut().zip(edge.clock_updates) {
        match update {
            ClockUpdate::Unchanged => {}
            ClockUpdate::Reset => *clock = 0,
            ClockUpdate::Copy(source) => *clock = state.clocks[usize::from(source)],
        }
    }
    after.meets_invariant(model).then_some(after)
}

/// A counter's value after its update, in range or not, from the values before
/// that update.
fn updated(before: &State, index: usize, update: Update) -> i32 {
    match update {
        Update::Keep => i32::from(before.counters[index]),
        Update::Constant(constant) => i32::from(constant),
        Update::Sum { source, offset } => i32::from(before.counters[usize::from(source)]) + i32::from(offset),
    }
}

/// One step of a well-formed model from a state in its groups: the new state,
/// or 27 or 28.
pub fn step(model: &Model, state: State, byte: u8) -> Result<State, u32> {
    let after = match choice(model, byte) {
        None => return Err(NO_SUCH_STEP),
        Some(Choice::Delay(ticks)) => delay(model, state, ticks),
        Some(Choice::Edge(number)) => edge(model, state, &model.edge[number]),
    };
    after.ok_or(NOT_ALLOWED)
}

/// The call "one step byte from a given state": 20, 10, 27, 28 or 0, and the
/// new state; after a refusal the given state is handed back.
pub fn step_call(model: &Model, state: State, byte: u8) -> (u32, State) {
    match tested_step(model, state, byte) {
        Ok(after) => (0, after),
        Err(number) => (number, state),
    }
}

fn tested_step(model: &Model, state: State, byte: u8) -> Result<State, u32> {
    test_record(model).map_err(|refusal| refusal.number)?;
    if !state.in_groups(model) {
        return Err(WRONG_STATE);
    }
    step(model, state, byte)
}

/// The states 0 to k that a run passes, or the walker's refusal: 20, 21, 29,
/// per step 27 or 28 with the step from 1, and 30.
pub fn states_of_run(model: &Model, run: &[u8]) -> Result<Vec<State>, Refusal> {
    test_record_and_bound(model, run.len())?;
    let states = states_of_prefix(model, run)?;
    match states.last() {
        Some(last) if last.location == model.target => Ok(states),
        _ => Err(Refusal::plain(NOT_TARGET)),
    }
}

/// Like [`states_of_run`] for a well-formed model, but ending anywhere.
pub fn states_of_prefix(model: &Model, run: &[u8]) -> Result<Vec<State>, Refusal> {
    let mut state = State::initial(model);
    if !state.meets_invariant(model) {
        return Err(Refusal::plain(INITIAL_INVARIANT));
    }
    let mut states = vec![state];
    for (index, byte) in run.iter().enumerate() {
        let number_of_step = index as u32 + 1;
        state = step(model, state, *byte).map_err(|number| Refusal::at(number, number_of_step))?;
        states.push(state);
    }
    Ok(states)
}

/// The walker: refusal number and place, both 0 for a run.
pub fn walk(model: &Model, run: &[u8]) -> (u32, u32) {
    number_and_place(&states_of_run(model, run))
}
