//! One call on two texts each: asked of the library with lent buffers, and compared with the reference.

use reference::compose::{read_pair, Composed};
use reference::model::Model;
use reference::refusal::Refusal;
use wirdoku::library::{self, PairAnswer, State};

use crate::expected::{self, Given, List};
use crate::lent::Lent;
use crate::tally::Tally;
use crate::texts::written;

/// Two texts, each a block of its own, and what the reference makes of them.
pub struct Pair {
    pub first: Box<[u8]>,
    pub second: Box<[u8]>,
    pub told: PairAnswer,
    pub composed: Result<Composed, Refusal>,
    given: Given,
}

impl Pair {
    pub fn of(first: &[u8], second: &[u8]) -> Pair {
        let read = read_pair(first, second);
        let told = match &read {
            Ok(_) => PairAnswer::default(),
            Err(pair) => {
                PairAnswer { number: pair.refusal.number as u8, text: pair.text as u8, line: pair.refusal.place as usize }
            }
        };
        let composed = read.map_err(|pair| pair.refusal);
        let given = composed.as_ref().map(|composed| composed.model.clone()).map_err(|refusal| *refusal);
        Pair { first: first.into(), second: second.into(), told, composed, given }
    }

    pub fn of_models(first: &Model, second: &Model) -> Pair {
        Pair::of(&written(first), &written(second))
    }

    /// The composed model, if there is one.
    pub fn model(&self) -> Option<&Model> {
        self.given.as_ref().ok()
    }

    pub fn list(&self, bound: usize) -> List {
        List::of(self.given.clone(), bound)
    }

    /// What a failed case shows.
    pub fn shown(&self) -> String {
        format!("first {} second {}", crate::show::text(&self.first), crate::show::text(&self.second))
    }
}

/// Read, shape and initial state; and the list at bound 1, in which the whole composed record is seen but for its labels. A refusal of a
/// text is counted by that text.
pub fn reading(tally: &mut Tally, seed: u64, pair: &Pair) {
    let call = match pair.told.text {
        1 => "pair_read, first text",
        2 => "pair_read, second text",
        _ => "pair_read",
    };
    tally.answer(call, pair.told, library::pair_read(&pair.first, &pair.second));
    tally.answer("pair_shape", expected::shape_of(&pair.given), library::pair_shape(&pair.first, &pair.second));
    tally.answer("pair_initial", expected::initial_of(&pair.given), library::pair_initial(&pair.first, &pair.second));
    if pair.told.number == 0 {
        list(tally, seed, pair, 1, &[pair.list(1).counts.words]);
    }
}

/// The totals, and an emission into each number of words. The file is written to as many bytes more or less than it has as the
/// words are more or less than the list's, and to none where there are no words.
pub fn list(tally: &mut Tally, seed: u64, pair: &Pair, bound: usize, rooms: &[usize]) {
    let list = pair.list(bound);
    tally.answer("pair_counts", list.counts, library::pair_counts(&pair.first, &pair.second, bound));
    let (words, bytes) = (list.words(), list.file());
    for (turn, room) in rooms.iter().enumerate() {
        let seed = seed + turn as u64;
        let mut lent = Lent::new(seed, *room);
        let got = library::pair_emit(&pair.first, &pair.second, bound, lent.slice());
        let expected = list.emitted(*room);
        tally.answer("pair_emit", expected, got);
        tally.buffer("pair_emit", &lent, &words[..if expected.number == 0 { words.len() } else { 0 }]);
        let room = if *room == 0 { 0 } else { (bytes.len() + room).saturating_sub(words.len()) };
        let mut lent = Lent::new(seed, room);
        let got = library::pair_dimacs(&pair.first, &pair.second, bound, lent.slice());
        let expected = list.filed(bytes.len(), room);
        tally.answer("pair_dimacs", expected, got);
        tally.buffer("pair_dimacs", &lent, &bytes[..if expected.number == 0 { bytes.len() } else { 0 }]);
    }
}

pub fn step(tally: &mut Tally, pair: &Pair, state: State, byte: u8) {
    let got = library::pair_step(&pair.first, &pair.second, state, byte);
    tally.answer("pair_step", expected::step_of(&pair.given, state, byte), got);
}

pub fn walk(tally: &mut Tally, pair: &Pair, run: &[u8]) {
    tally.answer("pair_walk", expected::walk_of(&pair.given, run), library::pair_walk(&pair.first, &pair.second, run));
}

/// An assignment into a run buffer of some length.
pub fn decode(tally: &mut Tally, seed: u64, pair: &Pair, (bound, assignment): (usize, &[u8]), room: usize) {
    let mut lent = Lent::new(seed, room);
    let got = library::pair_assignment_to_run(&pair.first, &pair.second, bound, assignment, lent.slice());
    let (expected, written) = expected::assignment_to_run_of(&pair.given, bound, assignment, room);
    tally.answer("pair_assignment_to_run", expected, got);
    tally.buffer("pair_assignment_to_run", &lent, &written);
}

/// A run into an assignment buffer of some length.
pub fn encode(tally: &mut Tally, seed: u64, pair: &Pair, run: &[u8], room: usize) {
    let mut lent = Lent::new(seed, room);
    let got = library::pair_run_to_assignment(&pair.first, &pair.second, run, lent.slice());
    let (expected, written) = expected::run_to_assignment_of(&pair.given, run, room);
    tally.answer("pair_run_to_assignment", expected, got);
    tally.buffer("pair_run_to_assignment", &lent, &written);
}

pub fn parts(tally: &mut Tally, pair: &Pair, byte: u8) {
    let got = library::pair_parts(&pair.first, &pair.second, byte);
    tally.answer("pair_parts", expected::part_steps(&pair.composed, byte), got);
}
