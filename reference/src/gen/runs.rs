//! Random runs and assignments, valid and damaged.

use super::models::any_model;
use super::rng::Rng;
use crate::assign::assignment_of;
use crate::model::{choice_length, variables, Model, MAX_BOUND};
use crate::search::successors;
use crate::state::State;

/// The bytes of a random walk of up to `steps` steps from the initial state of
/// a well-formed model, and the state at its end. It stops early in a state
/// that allows no step (which is one that breaks its invariant).
pub fn walk(rng: &mut Rng, model: &Model, steps: usize) -> (Vec<u8>, State) {
    let mut state = State::initial(model);
    let mut run = Vec::new();
    while run.len() < steps {
        let (byte, after) = match allowed_step(rng, model, state) {
            Some(step) => step,
            None => break,
        };
        run.push(byte);
        state = after;
    }
    (run, state)
}

/// A random allowed step, edges preferred to delays.
fn allowed_step(rng: &mut Rng, model: &Model, state: State) -> Option<(u8, State)> {
    let allowed: Vec<(u8, State)> = successors(model, state).collect();
    let delays = (choice_length(model) - u32::from(model.edges)) as u8;
    let edges: Vec<(u8, State)> = allowed.iter().copied().filter(|(byte, _)| *byte >= delays).collect();
    if !edges.is_empty() && rng.one_in(2) {
        return Some(rng.pick(&edges));
    }
    if allowed.is_empty() {
        return None;
    }
    Some(rng.pick(&allowed))
}

/// A number of steps, most often small, sometimes the greatest bound.
pub fn steps(rng: &mut Rng) -> usize {
    match rng.below(8) {
        0 => 0,
        1 => MAX_BOUND,
        2 => rng.below(MAX_BOUND + 1),
        _ => rng.below(7),
    }
}

/// A step byte: most often below H, else anything.
pub fn step_byte(rng: &mut Rng, model: &Model) -> u8 {
    let choices = choice_length(model);
    match rng.below(8) {
        0 => rng.byte(),
        1 => choices as u8,
        _ => rng.below(choices as usize) as u8,
    }
}

/// A model and a random walk of it, whose end is made the target three times in
/// four, so that the walk is a run of the model if the start is allowed.
pub fn model_and_walk(rng: &mut Rng, longest: usize) -> (Model, Vec<u8>) {
    let mut model = any_model(rng);
    let steps = steps(rng).min(longest);
    let (run, end) = walk(rng, &model, steps);
    if !rng.one_in(4) {
        model.target = end.location;
    }
    (model, run)
}

/// A model and a run, once in two damaged.
pub fn model_and_run(rng: &mut Rng) -> (Model, Vec<u8>) {
    let (model, mut run) = model_and_walk(rng, MAX_BOUND);
    if rng.one_in(2) {
        damage_run(rng, &model, &mut run);
    }
    (model, run)
}

fn damage_run(rng: &mut Rng, model: &Model, run: &mut Vec<u8>) {
    let place = rng.below(run.len());
    let choices = choice_length(model) as u8;
    match rng.below(6) {
        0 if !run.is_empty() => run[place] = rng.below(usize::from(choices)) as u8,
        1 if !run.is_empty() => run[place] = choices,
        2 if !run.is_empty() => run[place] = rng.byte(),
        3 => run.truncate(place),
        4 => run.resize(MAX_BOUND + rng.below(3), 0),
        _ => run.insert(place, rng.below(usize::from(choices)) as u8),
    }
}

/// A model, a bound and an assignment: from a run if there is one, else random;
/// two times in three damaged. Walks have at most `longest` steps.
pub fn model_and_assignment(rng: &mut Rng, longest: usize) -> (Model, usize, Vec<u8>) {
    let (model, run) = model_and_walk(rng, longest);
    let mut bound = run.len();
    let length = variables(&model, bound) as usize;
    let mut assignment = assignment_of(&model, &run).unwrap_or_else(|_| truth_values(rng, length));
    if !rng.one_in(3) {
        damage_assignment(rng, &mut assignment);
    }
    match rng.below(32) {
        0 => bound += 1,
        1 => bound = MAX_BOUND + 1,
        _ => {}
    }
    (model, bound, assignment)
}

/// Random truth values.
pub fn truth_values(rng: &mut Rng, length: usize) -> Vec<u8> {
    (0..length).map(|_| rng.below(2) as u8).collect()
}

fn damage_assignment(rng: &mut Rng, assignment: &mut Vec<u8>) {
    let (place, other) = (rng.below(assignment.len()), rng.below(assignment.len()));
    match rng.below(6) {
        0 | 1 if !assignment.is_empty() => assignment[place] ^= 1,
        2 => assignment.swap(place, other),
        3 if !assignment.is_empty() => assignment[place] = rng.pick(&[2, 48, 49, 128, 255]),
        4 => {
            assignment.pop();
        }
        _ => assignment.push(rng.below(2) as u8),
    }
}
