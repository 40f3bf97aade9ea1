//! Assignments and runs: from one to the other, with the refusals of both.

use crate::list::{visit_clauses, Flow};
use crate::model::{test_record_and_bound, variables, Model};
use crate::numbering::{Group, Numbering};
use crate::refusal::{number_and_place, Refusal, ASSIGNMENT_SHORT, FALSE_CLAUSE, RUN_SHORT, WRONG_BYTE, WRONG_LENGTH};
use crate::state::State;
use crate::step::states_of_run;

/// Assignment to run, into a lent buffer: 20, 21, 23, 24 with the byte's index,
/// 25, 26 with the clause's index. Number and place are 0 if accepted. Writes
/// exactly k bytes from the start, or nothing after a refusal.
pub fn decode(model: &Model, bound: usize, assignment: &[u8], run: &mut [u8]) -> (u32, u32) {
    let outcome = tested_run(model, bound, assignment, run.len());
    if let Ok(bytes) = &outcome {
        run[..bytes.len()].copy_from_slice(bytes);
    }
    number_and_place(&outcome)
}

/// The run of a satisfying assignment, with a run buffer that is long enough.
pub fn run_of(model: &Model, bound: usize, assignment: &[u8]) -> Result<Vec<u8>, Refusal> {
    tested_run(model, bound, assignment, bound)
}

fn tested_run(model: &Model, bound: usize, assignment: &[u8], room: usize) -> Result<Vec<u8>, Refusal> {
    test_record_and_bound(model, bound)?;
    if assignment.len() != variables(model, bound) as usize {
        return Err(Refusal::plain(WRONG_LENGTH));
    }
    if let Some(index) = assignment.iter().position(|byte| *byte > 1) {
        return Err(Refusal::at(WRONG_BYTE, index as u32));
    }
    if room < bound {
        return Err(Refusal::plain(RUN_SHORT));
    }
    if let Some(index) = first_false_clause(model, bound, assignment)? {
        return Err(Refusal::at(FALSE_CLAUSE, index));
    }
    let numbering = Numbering::of(model);
    let steps = 1..=bound as u32;
    Ok(steps.map(|t| true_member(numbering.choices(t), assignment)).collect())
}

/// The index from 0 of the first clause without a true literal.
fn first_false_clause(model: &Model, bound: usize, assignment: &[u8]) -> Result<Option<u32>, Refusal> {
    let mut index = 0;
    let flow = visit_clauses(model, bound, &mut |clause| {
        if !clause.iter().any(|literal| is_true(*literal, assignment)) {
            return Flow::Break(());
        }
        index += 1;
        Flow::Continue(())
    })?;
    Ok(flow.is_break().then_some(index))
}

/// Whether a literal is true; byte 0 of the assignment is variable 1.
pub fn is_true(literal: i32, assignment: &[u8]) -> bool {
    let value = assignment[literal.unsigned_abs() as usize - 1] == 1;
    value == (literal > 0)
}

/// The place from 0 of the true member of a group.
fn true_member(group: Group, assignment: &[u8]) -> u8 {
    let place = group.members().take_while(|member| !is_true(*member, assignment)).count();
    place as u8
}

/// Run to assignment, into a lent buffer: the walker's refusals, then 31.
/// Writes exactly N bytes from the start, or nothing after a refusal.
pub fn encode(model: &Model, run: &[u8], assignment: &mut [u8]) -> (u32, u32) {
    let outcome = tested_assignment(model, run, assignment.len());
    if let Ok(bytes) = &outcome {
        assignment[..bytes.len()].copy_from_slice(bytes);
    }
    number_and_place(&outcome)
}

fn tested_assignment(model: &Model, run: &[u8], room: usize) -> Result<Vec<u8>, Refusal> {
    let assignment = assignment_of(model, run)?;
    if room < assignment.len() {
        return Err(Refusal::plain(ASSIGNMENT_SHORT));
    }
    Ok(assignment)
}

/// The one satisfying assignment of a run.
pub fn assignment_of(model: &Model, run: &[u8]) -> Result<Vec<u8>, Refusal> {
    let states = states_of_run(model, run)?;
    let numbering = Numbering::of(model);
    let mut assignment = vec![0; variables(model, run.len()) as usize];
    for (t, state) in states.iter().enumerate() {
        set_state(model, &numbering, t as u32, state, &mut assignment);
    }
    for (index, byte) in run.iter().enumerate() {
        set(numbering.choices(index as u32 + 1), *byte, &mut assignment);
    }
    Ok(assignment)
}

fn set_state(model: &Model, numbering: &Numbering, t: u32, state: &State, assignment: &mut [u8]) {
    set(numbering.locations(t), state.location, assignment);
    for index in 0..usize::from(model.counters) {
        set(numbering.counter(t, index), state.counters[index], assignment);
    }
    for index in 0..usize::from(model.clocks) {
        set(numbering.clock(t, index), state.clocks[index], assignment);
    }
}

/// Makes the member of one value true.
fn set(group: Group, value: u8, assignment: &mut [u8]) {
    assignment[group.member(u32::from(value)) as usize - 1] = 1;
}
