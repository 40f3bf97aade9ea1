//! Model texts, right and damaged: every call with each of them. A refused text is refused alike by
//! every call, whatever else the call is given.

use reference::gen::models::{any_model, model_a, model_b, saving};
use reference::gen::records;
use reference::gen::rng::Rng;
use reference::gen::texts::{size_input, text};
use reference::model::Model;
use reference::text::{read_whole, write};
use wirdoku::library::State;

use crate::expected::{library_state, List};
use crate::part::Seeds;
use crate::tally::{Due, Tally};
use crate::{calls, show, values};

pub const DUE: Due = &[
    ("read", &[0, 1, 2, 3, 4, 5, 6, 7, 8]),
    ("read, label due", &[2, 3, 4]),
    ("read, labelled", &[0]),
    ("shape", &[0, 1, 2, 3, 4, 5, 6, 7, 8]),
    ("initial", &[0, 1, 2, 3, 4, 5, 6, 7, 8]),
    ("counts", &[0, 1, 2, 3, 4, 5, 6, 7, 8, 21]),
    ("emit", &[0, 1, 2, 3, 4, 5, 6, 7, 8, 21, 22]),
    ("dimacs", &[0, 1, 2, 3, 4, 5, 6, 7, 8, 21, 32]),
    ("step", &[0, 1, 2, 3, 4, 5, 6, 7, 8, 10, 27, 28]),
    ("walk", &[0, 1, 2, 3, 4, 5, 6, 7, 8, 21, 27, 28, 30]),
    ("assignment_to_run", &[1, 2, 3, 4, 5, 6, 7, 8, 21, 23]),
    ("run_to_assignment", &[1, 2, 3, 4, 5, 6, 7, 8, 21, 27, 28, 30, 31]),
];

pub const VALUES_DUE: Due = &[("read", &[0, 3, 4, 5, 6, 7]), ("read, label due", &[3, 4]), ("read, labelled", &[0])];

pub const INPUTS_DUE: Due = &[("size", &[0, 1, 2, 3, 4, 5, 6, 7, 8, 9, 21, 22])];

/// Texts damaged in one to three places, once in eight random bytes.
pub fn damaged(tally: &mut Tally, seeds: Seeds) {
    for seed in seeds.each() {
        let mut rng = Rng::new(seed);
        let text = if rng.one_in(8) { random_bytes(&mut rng) } else { text(&mut rng) };
        every_call(tally, &mut rng, seed, &text.into_boxed_slice());
        if tally.stopped() {
            return;
        }
    }
}

/// Texts in which one line or two have a value of their form or near it.
pub fn other_values(tally: &mut Tally, seeds: Seeds) {
    for seed in seeds.each() {
        let mut rng = Rng::new(seed);
        let text = values::text(&mut rng).into_boxed_slice();
        every_call(tally, &mut rng, seed, &text);
        if tally.stopped() {
            return;
        }
    }
}

/// Up to a hundred bytes, half of the time after a first part of a right text.
fn random_bytes(rng: &mut Rng) -> Vec<u8> {
    let mut text = Vec::new();
    if rng.one_in(2) {
        text = written(&any_model(rng));
        text.truncate(rng.below(text.len()));
    }
    text.extend((0..rng.below(100)).map(|_| rng.byte()));
    text
}

/// The text of a well-formed model.
pub fn written(model: &Model) -> Vec<u8> {
    write(model).map(String::into_bytes).unwrap_or_default()
}

/// Each call once, with arguments that fit the text's model, if it has one, more often than not.
fn every_call(tally: &mut Tally, rng: &mut Rng, seed: u64, text: &[u8]) {
    let model = read_whole(text).ok();
    let bound = if rng.one_in(8) { 65 } else { rng.below(4) };
    let (state, byte) = state_and_byte(rng, model.as_ref());
    let run = bytes(rng, bound, 70);
    let assignment = bytes(rng, 20, 2);
    let room = rng.pick(&[0, 9, 40, 100, 2000]);
    calls::reading(tally, seed + 1, text);
    calls::list(tally, seed, text, bound, &[10 * room]);
    calls::step(tally, text, state, byte);
    calls::walk(tally, text, &run);
    calls::encode(tally, seed, text, &run, room);
    calls::decode(tally, seed, text, (bound, &assignment), room);
    tally.case(|| {
        let run = show::run(&run);
        let text = show::text(text);
        format!("seed {seed} text {text} bound {bound} room {room} state {state:?} byte {byte} run {run}")
    });
}

fn bytes(rng: &mut Rng, length: usize, limit: usize) -> Box<[u8]> {
    (0..length).map(|_| rng.below(limit) as u8).collect()
}

fn state_and_byte(rng: &mut Rng, model: Option<&Model>) -> (State, u8) {
    match model {
        Some(model) => (library_state(records::state(rng, model)), rng.below(70) as u8),
        None => {
            let mut numbers = || [rng.byte(), rng.byte(), rng.byte(), rng.byte()];
            let (counters, clocks) = (numbers(), numbers());
            (State { location: rng.byte(), counters, clocks }, rng.byte())
        }
    }
}

/// Inputs of the size program with 16,384 words lent, with exactly those needed, with one less, and
/// with some other number.
pub fn inputs(tally: &mut Tally, seeds: Seeds) {
    for seed in seeds.each() {
        let mut rng = Rng::new(seed);
        let input = size_input(&mut rng).into_boxed_slice();
        let list = List::of_input(&input);
        let needed = list.counts.words;
        let room = match rng.below(6) {
            0 => needed.min(200_000),
            1 => needed.saturating_sub(1),
            2 => rng.below(3000),
            _ => 16_384,
        };
        calls::size(tally, seed, &input, &list, room);
        tally.case(|| format!("seed {seed} input {} room {room}", show::text(&input)));
        if tally.stopped() {
            return;
        }
    }
}

/// The texts of models A and B, B with labels of one and of two digits, and of one that copies a clock.
fn right_texts() -> [Vec<u8>; 3] {
    let mut b = model_b();
    (b.edge[0].label, b.edge[2].label) = (15, 9);
    [model_a(), b, saving()].map(|model| written(&model))
}

/// Places in and after those texts, counted one after the other.
pub const PLACES: u64 = 453;

/// Every text that differs from one of these in one byte at a place (replaced by each of the 256,
/// inserted or removed) or that is cut off there. The seeds are the places.
pub fn near(tally: &mut Tally, places: Seeds) {
    let all: Vec<(Vec<u8>, usize)> =
        right_texts().into_iter().flat_map(|text| (0..=text.len()).map(move |place| (text.clone(), place))).collect();
    for seed in places.each() {
        let (right, place) = &all[seed as usize % all.len()];
        for text in neighbours(right, *place) {
            calls::reading(tally, seed, &text);
            tally.case(|| format!("place {seed} text {}", show::text(&text)));
        }
        if tally.stopped() {
            return;
        }
    }
}

/// The texts that differ from a right one at a place: cut off there, one byte inserted, replaced or removed.
pub fn neighbours(right: &[u8], place: usize) -> Vec<Box<[u8]>> {
    let (before, after) = right.split_at(place);
    let rest = after.get(1..);
    let mut texts = vec![before.to_vec()];
    for byte in 0..=255 {
        texts.push([before, &[byte], after].concat());
        texts.extend(rest.map(|rest| [before, &[byte], rest].concat()));
    }
    texts.extend(rest.map(|rest| [before, rest].concat()));
    texts.into_iter().map(Vec::into_boxed_slice).collect()
}

#[cfg(test)]
mod tests {
    use super::{right_texts, PLACES};

    #[test]
    fn all_places_are_counted() {
        let places: usize = right_texts().iter().map(|text| text.len() + 1).sum();
        assert_eq!(PLACES, places as u64);
    }
}
