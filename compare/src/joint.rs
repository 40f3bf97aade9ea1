//! The law of steps: from every joint state that meets its invariant every step of two composed models is held to what the parts do by
//! themselves, from the joint state's parts with each part's clocks cut to that part's own ceiling.

use std::collections::HashMap;

use reference::compose::{compose, Composed, Move};
use reference::gen::pairs::small_pair;
use reference::gen::rng::Rng;
use reference::model::{ceiling, choice_length, Model};
use reference::state::{all_states, number_of_states};
use wirdoku::library::{self, Answer, Shape, State, StateAnswer, STAYS};

use crate::expected::library_state;
use crate::part::Seeds;
use crate::show;
use crate::tally::{Due, Tally};
use crate::texts::written;

pub const DUE: Due = &[
    ("delay", &[0, 28]),
    ("delay beyond a ceiling", &[0, 28]),
    ("edge of the first", &[0, 28]),
    ("edge of the second", &[0, 28]),
    ("pair of edges", &[0, 28]),
];

/// Most states of a pair times its step bytes.
const MOST: usize = 12_000;

pub fn joint(tally: &mut Tally, seeds: Seeds) {
    let (mut pairs, mut states, mut steps) = (0, 0, 0);
    for seed in seeds.each() {
        let (first, second) = small_pair(&mut Rng::new(seed));
        let composed = match compose(&first, &second) {
            Ok(composed) if number_of_states(&composed.model) * choice_length(&composed.model) as usize <= MOST => composed,
            _ => continue,
        };
        let product = Product::of(composed);
        let (of_pair, taken) = product.every_step(tally);
        pairs += 1;
        states += of_pair;
        steps += taken;
        tally.case(|| {
            let [first, second] = [&product.first, &product.second].map(|part| show::text(&part.text));
            format!("seed {seed} first {first} second {second}")
        });
        if tally.stopped() {
            return;
        }
    }
    println!("    {pairs} pairs, {states} joint states that meet their invariants, {steps} steps");
}

/// A model of the pair by itself: its text, and what it declares, with the place of its counters and clocks in a joint state.
struct Part {
    text: Box<[u8]>,
    shape: Shape,
    counters: usize,
    clocks: usize,
}

impl Part {
    fn of(model: &Model, counters: u8, clocks: u8) -> Part {
        let text = written(model).into_boxed_slice();
        let shape = library::shape(&text);
        Part { text, shape, counters: usize::from(counters), clocks: usize::from(clocks) }
    }

    /// The part of a joint state, in a location of its own, its clocks cut to its own ceiling.
    fn state(&self, joint: State, location: u8) -> State {
        let mut state = State { location, ..State::default() };
        for slot in 0..usize::from(self.shape.counters) {
            state.counters[slot] = joint.counters[self.counters + slot];
        }
        for slot in 0..usize::from(self.shape.clocks) {
            state.clocks[slot] = joint.clocks[self.clocks + slot].min(self.shape.ceiling as u8);
        }
        state
    }
}

/// What a part answers to a step byte from a state, asked once.
#[derive(Default)]
struct Asked(HashMap<[u8; 10], StateAnswer>);

impl Asked {
    /// One step of a part, or none if it stands still.
    fn step(&mut self, part: &Part, state: State, byte: u8) -> StateAnswer {
        if byte == STAYS {
            return StateAnswer { number: 0, line: 0, state };
        }
        let ([v0, v1, v2, v3], [x0, x1, x2, x3]) = (state.counters, state.clocks);
        let key = [state.location, v0, v1, v2, v3, x0, x1, x2, x3, byte];
        *self.0.entry(key).or_insert_with(|| library::step(&part.text, state, byte))
    }
}

struct Product {
    composed: Composed,
    first: Part,
    second: Part,
}

impl Product {
    fn of(composed: Composed) -> Product {
        let first = Part::of(&composed.first, 0, 0);
        let second = Part::of(&composed.second, composed.first.counters, composed.first.clocks);
        Product { composed, first, second }
    }

    fn parts(&self, state: State) -> (State, State) {
        let count = self.second.shape.locations;
        (self.first.state(state, state.location / count), self.second.state(state, state.location % count))
    }

    /// Every step from every state that meets its invariant; how many states and steps these are.
    fn every_step(&self, tally: &mut Tally) -> (usize, usize) {
        let model = &self.composed.model;
        let (mut states, mut steps) = (0, 0);
        let mut asked = (Asked::default(), Asked::default());
        let meeting = all_states(model).into_iter().filter(|state| state.meets_invariant(model));
        for state in meeting.map(library_state) {
            states += 1;
            for byte in 0..choice_length(model) as u8 {
                self.step(tally, &mut asked, state, byte);
                steps += 1;
            }
        }
        (states, steps)
    }

    /// The joint step, allowed exactly if the parts allow theirs; the new parts are the parts' new states, and a refused step hands the state back.
    fn step(&self, tally: &mut Tally, asked: &mut (Asked, Asked), state: State, byte: u8) {
        let got = library::pair_step(&self.first.text, &self.second.text, state, byte);
        let steps = library::pair_parts(&self.first.text, &self.second.text, byte);
        let (one, other) = self.parts(state);
        let (name, in_place) = self.kind(byte, one.location, other.location);
        let first = asked.0.step(&self.first, one, steps.first);
        let second = asked.1.step(&self.second, other, steps.second);
        let allowed = in_place && first.number == 0 && second.number == 0;
        let expected = Answer { number: if allowed { 0 } else { 28 }, place: 0 };
        tally.same("parts of the step", 0, steps.number);
        tally.answer(name, expected, Answer { number: got.number, place: got.line });
        if allowed {
            tally.same("new parts", (first.state, second.state), self.parts(got.state));
        } else {
            tally.same("state handed back", state, got.state);
        }
    }

    /// What a step byte is, and whether a part that stands still is in the location beside which the edge is taken.
    fn kind(&self, byte: u8, i: u8, j: u8) -> (&'static str, bool) {
        let delays = ceiling(&self.composed.model) as usize + 1;
        let least = self.first.shape.ceiling.min(self.second.shape.ceiling);
        match usize::from(byte).checked_sub(delays) {
            None if usize::from(byte) > least => ("delay beyond a ceiling", true),
            None => ("delay", true),
            Some(edge) => match self.composed.moves[edge] {
                Move::First { beside, .. } => ("edge of the first", usize::from(j) == beside),
                Move::Second { beside, .. } => ("edge of the second", usize::from(i) == beside),
                Move::Both { .. } => ("pair of edges", true),
            },
        }
    }
}
