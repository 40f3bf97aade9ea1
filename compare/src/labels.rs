//! Texts that differ in labels alone: every call answers alike to both and leaves the same in its lent buffers. To the first of
//! them it answers as the reference does.

use reference::gen::models::relabelled;
use reference::gen::records;
use reference::gen::rng::Rng;
use reference::gen::runs::{model_and_assignment, model_and_run, step_byte};
use reference::model::{variables, Model, MAX_BOUND};
use wirdoku::library;

use crate::expected::{library_state, List};
use crate::lent::{Cell, Lent};
use crate::part::Seeds;
use crate::tally::{Due, Numbered, Tally};
use crate::texts::written;
use crate::{calls, show};

pub const DUE: Due = &[
    ("read, alike", &[0]),
    ("shape, alike", &[0]),
    ("initial, alike", &[0]),
    ("counts, alike", &[0]),
    ("emit, alike", &[0, 22]),
    ("dimacs, alike", &[0, 32]),
    ("step, alike", &[0, 10, 27, 28]),
    ("walk, alike", &[0, 21, 27, 28, 30]),
    ("run_to_assignment, alike", &[0, 21, 27, 28, 30, 31]),
    ("assignment_to_run, alike", &[0, 23, 24, 25, 26]),
];

/// Two texts that differ in labels alone.
type Texts = [Vec<u8>; 2];

pub fn labels(tally: &mut Tally, seeds: Seeds) {
    for seed in seeds.each() {
        of_a_run(tally, seed);
        of_an_assignment(tally, seed);
        if tally.stopped() {
            return;
        }
    }
}

/// The text of a model and the text with other labels; none where these came out the same.
fn both(rng: &mut Rng, model: &Model) -> Option<Texts> {
    let other = relabelled(rng, model);
    (other != *model).then(|| [written(model), written(&other)])
}

fn of_a_run(tally: &mut Tally, seed: u64) {
    let mut rng = Rng::new(seed);
    let (model, run) = model_and_run(&mut rng);
    if let Some(texts) = both(&mut rng, &model) {
        lists(tally, seed, &texts, rng.below(4));
        runs(tally, &mut rng, &model, &texts, &run);
        tally.case(|| {
            let [text, other] = texts.map(|text| show::text(&text));
            format!("seed {seed} text {text} other {other} run {}", show::run(&run))
        });
    }
}

fn of_an_assignment(tally: &mut Tally, seed: u64) {
    let mut rng = Rng::new(seed);
    let (model, bound, assignment) = model_and_assignment(&mut rng, 8);
    if let Some(texts) = both(&mut rng, &model) {
        calls::decode(tally, seed, &texts[0], (bound, &assignment), bound);
        for room in [bound, bound.saturating_sub(1)] {
            let call = |text: &[u8], out: &mut [u8]| library::assignment_to_run(text, bound, &assignment, out);
            lent_alike(tally, "assignment_to_run, alike", &texts, room, call);
        }
        tally.case(|| {
            let [text, other] = texts.map(|text| show::text(&text));
            format!("seed {seed} text {text} other {other} bound {bound} assignment {}", show::assignment(&assignment))
        });
    }
}

/// The answers of a call without a buffer.
fn alike<A: Numbered>(tally: &mut Tally, name: &'static str, texts: &Texts, call: impl Fn(&[u8]) -> A) {
    tally.answer(name, call(&texts[0]), call(&texts[1]));
}

/// The answers of a call with a lent buffer of some length, and what the buffer holds afterwards.
fn lent_alike<T: Cell, A: Numbered>(
    tally: &mut Tally,
    name: &'static str,
    texts: &Texts,
    room: usize,
    call: impl Fn(&[u8], &mut [T]) -> A,
) {
    let (mut one, mut other) = (Lent::new(2, room), Lent::new(2, room));
    tally.answer(name, call(&texts[0], one.slice()), call(&texts[1], other.slice()));
    tally.buffer(name, &other, one.slice());
}

fn lists(tally: &mut Tally, seed: u64, texts: &Texts, bound: usize) {
    calls::reading(tally, seed, &texts[0]);
    alike(tally, "read, alike", texts, library::read);
    alike(tally, "shape, alike", texts, library::shape);
    alike(tally, "initial, alike", texts, library::initial);
    alike(tally, "counts, alike", texts, |text| library::counts(text, bound));
    let list = List::of_text(&texts[0], bound);
    let (words, bytes) = (list.counts.words, list.file().len());
    for room in [words, words - 1] {
        lent_alike(tally, "emit, alike", texts, room, |text, out| library::emit(text, bound, out));
    }
    for room in [bytes, bytes - 1] {
        lent_alike(tally, "dimacs, alike", texts, room, |text, out| library::dimacs(text, bound, out));
    }
}

fn runs(tally: &mut Tally, rng: &mut Rng, model: &Model, texts: &Texts, run: &[u8]) {
    calls::walk(tally, &texts[0], run);
    alike(tally, "walk, alike", texts, |text| library::walk(text, run));
    let exact = variables(model, run.len().min(MAX_BOUND)) as usize;
    for room in [exact, exact - 1] {
        lent_alike(tally, "run_to_assignment, alike", texts, room, |text, out| library::run_to_assignment(text, run, out));
    }
    for _ in 0..4 {
        let (state, byte) = (library_state(records::state(rng, model)), step_byte(rng, model));
        alike(tally, "step, alike", texts, |text| library::step(text, state, byte));
    }
}
