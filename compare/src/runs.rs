//! Runs: accepted, damaged, too long, random bytes; and single steps from states, in order or not.

use reference::gen::rng::Rng;
use reference::gen::{models, records, runs as generator};
use reference::model::{choice_length, variables, Atom, Model, Relation, MAX_BOUND};
use reference::step::states_of_prefix;
use wirdoku::library;

use crate::expected::library_state;
use crate::part::Seeds;
use crate::tally::{Due, Tally};
use crate::texts::written;
use crate::{calls, show};

pub const DUE: Due =
    &[("walk", &[0, 21, 27, 28, 29, 30]), ("step", &[0, 10, 27, 28]), ("run_to_assignment", &[0, 21, 27, 28, 29, 30, 31])];

pub fn runs(tally: &mut Tally, seeds: Seeds) {
    for seed in seeds.each() {
        let mut rng = Rng::new(seed);
        let (model, run) = model_and_run(&mut rng);
        let (text, run) = (written(&model).into_boxed_slice(), run.into_boxed_slice());
        calls::walk(tally, &text, &run);
        let exact = variables(&model, run.len().min(MAX_BOUND)) as usize;
        let rooms = [exact, exact + 1 + rng.below(40), exact - 1, rng.below(exact)];
        for (turn, room) in rooms.iter().enumerate() {
            calls::encode(tally, seed + turn as u64, &text, &run, *room);
        }
        along(tally, &model, &text, &run);
        single_steps(tally, &mut rng, &model, &text);
        tally.case(|| {
            let (text, run) = (show::text(&text), show::run(&run));
            format!("seed {seed} text {text} run {run} rooms {rooms:?}")
        });
        if tally.stopped() {
            return;
        }
    }
}

/// A run of one of four sorts: random bytes; a walk made longer than 64 steps; choices at random; a
/// walk, half of the time damaged, of a model that may have no run at all.
fn model_and_run(rng: &mut Rng) -> (Model, Vec<u8>) {
    match rng.below(7) {
        0 => {
            let length = rng.below(12);
            (models::any_model(rng), (0..length).map(|_| rng.byte()).collect())
        }
        1 => {
            let (model, mut run) = generator::model_and_walk(rng, MAX_BOUND);
            let length = rng.pick(&[65, 66, 127, 128, 255, 256, 257, 300, 65_536, 65_537]);
            run.resize(length, rng.below(2) as u8);
            (model, run)
        }
        2 => {
            let model = models::any_model(rng);
            let choices = choice_length(&model) as usize;
            let length = generator::steps(rng);
            (model, (0..length).map(|_| rng.below(choices) as u8).collect())
        }
        3 => {
            let (model, run) = generator::model_and_run(rng);
            (with_failing_start(rng, model), run)
        }
        _ => generator::model_and_run(rng),
    }
}

/// Half of the time gives the initial location an invariant that fails at the start.
fn with_failing_start(rng: &mut Rng, mut model: Model) -> Model {
    if model.clocks > 0 && rng.one_in(2) {
        let clock = rng.below(usize::from(model.clocks)) as u8;
        let failing = rng.pick(&[Relation::Greater, Relation::GreaterEqual, Relation::Equal]);
        let atom = Atom::clock(clock, failing, 1);
        model.invariant[usize::from(model.init)] = [atom, Atom::Blank, Atom::Blank, Atom::Blank];
    }
    model
}

/// Takes each step of a run by itself: the states are those that the reference passes.
fn along(tally: &mut Tally, model: &Model, text: &[u8], run: &[u8]) {
    let states = match states_of_prefix(model, run) {
        Ok(states) if run.len() <= MAX_BOUND => states,
        _ => return,
    };
    let mut state = library::initial(text).state;
    tally.same("state 0", library_state(states[0]), state);
    for (index, byte) in run.iter().enumerate() {
        state = calls::step(tally, text, state, *byte);
        tally.same("state of a run", library_state(states[index + 1]), state);
    }
}

/// Four steps from states of the model, of which some have a number out of order.
fn single_steps(tally: &mut Tally, rng: &mut Rng, model: &Model, text: &[u8]) {
    for _ in 0..4 {
        let state = library_state(records::state(rng, model));
        let byte = generator::step_byte(rng, model);
        calls::step(tally, text, state, byte);
    }
}
