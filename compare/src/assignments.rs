//! Assignments: satisfying ones, damaged ones, random ones; and back to the assignment.

use reference::assign::assignment_of;
use reference::gen::rng::Rng;
use reference::gen::runs::{model_and_walk, truth_values};
use reference::model::{variables, Model, MAX_BOUND};
use wirdoku::library;

use crate::lent::Lent;
use crate::part::Seeds;
use crate::tally::{Due, Tally};
use crate::texts::written;
use crate::{calls, show};

pub const DUE: Due = &[("assignment_to_run", &[0, 21, 23, 24, 25, 26]), ("run_to_assignment", &[0]), ("walk", &[0])];

pub fn assignments(tally: &mut Tally, seeds: Seeds) {
    for seed in seeds.each() {
        let mut rng = Rng::new(seed);
        let (model, bound, assignment) = asked(&mut rng, seed);
        let text = written(&model).into_boxed_slice();
        let steps = bound.min(MAX_BOUND + 1);
        let rooms = [steps, steps.saturating_sub(1), steps + 1 + rng.below(9), rng.below(steps + 1)];
        for (turn, room) in rooms.iter().enumerate() {
            let question = (bound, &assignment[..]);
            calls::decode(tally, seed + turn as u64, &text, question, *room);
        }
        and_back(tally, seed, &text, bound, &assignment);
        tally.case(|| {
            let (text, assignment) = (show::text(&text), show::assignment(&assignment));
            format!("seed {seed} text {text} bound {bound} rooms {rooms:?} assignment {assignment}")
        });
        if tally.stopped() {
            return;
        }
    }
}

/// A model, a bound and an assignment, of eight sorts in turn.
fn asked(rng: &mut Rng, seed: u64) -> (Model, usize, Box<[u8]>) {
    let (model, run) = model_and_walk(rng, MAX_BOUND);
    let mut bound = run.len();
    let length = variables(&model, bound) as usize;
    let mut assignment = assignment_of(&model, &run).unwrap_or_else(|_| truth_values(rng, length));
    let (place, other) = (rng.below(length), rng.below(length));
    match seed % 8 {
        0 | 1 => {}
        2 => assignment[place] ^= 1,
        3 => {
            assignment[place] = rng.between(2, 255);
            assignment[other] ^= rng.byte();
        }
        4 => assignment.resize(other_length(rng, &model, bound), 0),
        5 => assignment = truth_values(rng, length),
        6 => bound = other_bound(rng, &model, bound, &mut assignment),
        _ => assignment.swap(place, other),
    }
    (model, bound, assignment.into_boxed_slice())
}

/// A bound that is not the assignment's own; half of the time the assignment gets its length.
fn other_bound(rng: &mut Rng, model: &Model, bound: usize, assignment: &mut Vec<u8>) -> usize {
    let near = [bound + 1, bound.saturating_sub(1), 65, 320];
    let bound = rng.pick(&near);
    if rng.one_in(2) {
        assignment.resize(variables(model, bound) as usize, 0);
        return bound;
    }
    rng.pick(&[bound, bound, 1 << 32, usize::MAX])
}

/// A length that is not N.
fn other_length(rng: &mut Rng, model: &Model, bound: usize) -> usize {
    let length = variables(model, bound) as usize;
    let longer = variables(model, bound + 1) as usize;
    rng.pick(&[0, length - 1, length + 1, longer, 2 * length, length + 256])
}

/// If the assignment is accepted: its run walks, and the run's assignment is the one given.
fn and_back(tally: &mut Tally, seed: u64, text: &[u8], bound: usize, assignment: &[u8]) {
    let mut run = vec![0; bound.min(MAX_BOUND)];
    if library::assignment_to_run(text, bound, assignment, &mut run).number != 0 {
        return;
    }
    calls::walk(tally, text, &run);
    tally.same("walk of its run", 0, library::walk(text, &run).number);
    let mut lent = Lent::new(seed, assignment.len());
    let back = library::run_to_assignment(text, &run, lent.slice());
    tally.same("run back to assignment", 0, back.number);
    tally.buffer("run back to assignment", &lent, assignment);
    calls::encode(tally, seed + 1, text, &run, assignment.len());
}
