//! One call each: asked of the library with lent buffers, and compared with the reference.

use wirdoku::library::{self, Answer, State, UNSATISFIABLE};

use crate::expected::{self, List};
use crate::lent::Lent;
use crate::tally::Tally;

/// Read, shape and initial state; and the list at bound 1, in which the whole record of an accepted
/// text is seen but for its labels.
pub fn reading(tally: &mut Tally, seed: u64, text: &[u8]) {
    let expected = expected::read(text);
    tally.answer(reading_of(text, expected), expected, library::read(text));
    tally.answer("shape", expected::shape(text), library::shape(text));
    tally.answer("initial", expected::initial(text), library::initial(text));
    if expected.number == 0 {
        let needed = List::of_text(text, 1).counts.words;
        list(tally, seed, text, 1, &[needed]);
    }
}

/// What a reading is counted as: a refusal where a label is due, and a text accepted with a label other than 0, are counted by
/// themselves.
fn reading_of(text: &[u8], expected: Answer) -> &'static str {
    let mut lines = text.split(|byte| *byte == b'\n');
    if expected.number == 0 {
        let labelled = lines.any(|line| line.starts_with(b"label=") && line != b"label=0");
        return if labelled { "read, labelled" } else { "read" };
    }
    let before = expected.place.checked_sub(2).and_then(|place| lines.nth(place));
    match before {
        Some(line) if line.starts_with(b"to=") => "read, label due",
        _ => "read",
    }
}

/// The totals, and an emission into each number of words. The file is written to as many bytes more or less than it has as the
/// words are more or less than the list's, and to none where there are no words.
pub fn list(tally: &mut Tally, seed: u64, text: &[u8], bound: usize, rooms: &[usize]) {
    let list = List::of_text(text, bound);
    tally.answer("counts", list.counts, library::counts(text, bound));
    let (words, bytes) = (list.words(), list.file());
    for (turn, room) in rooms.iter().enumerate() {
        let seed = seed + turn as u64;
        let mut lent = Lent::new(seed, *room);
        let got = library::emit(text, bound, lent.slice());
        let expected = list.emitted(*room);
        let written = if expected.number == 0 { words.len() } else { 0 };
        tally.answer("emit", expected, got);
        tally.buffer("emit", &lent, &words[..written]);
        let room = if *room == 0 { 0 } else { (bytes.len() + room).saturating_sub(words.len()) };
        file(tally, seed, text, bound, (&list, &bytes), room);
    }
}

/// The file of a list, whose bytes are known, into a buffer of some length.
pub fn file(tally: &mut Tally, seed: u64, text: &[u8], bound: usize, (list, bytes): (&List, &[u8]), room: usize) {
    let mut lent = Lent::new(seed, room);
    let got = library::dimacs(text, bound, lent.slice());
    let expected = list.filed(bytes.len(), room);
    let written = if expected.number == 0 { bytes.len() } else { 0 };
    tally.answer("dimacs", expected, got);
    tally.buffer("dimacs", &lent, &bytes[..written]);
}

/// The size program's question with some words lent.
pub fn size(tally: &mut Tally, seed: u64, input: &[u8], list: &List, room: usize) {
    let mut lent = Lent::new(seed, room);
    let got = library::size(input, lent.slice());
    tally.answer("size", list.emitted(room), got);
    tally.buffer("size", &lent, &list.written(room));
}

/// One step; gives the state that the library hands back.
pub fn step(tally: &mut Tally, text: &[u8], state: State, byte: u8) -> State {
    let got = library::step(text, state, byte);
    tally.answer("step", expected::step(text, state, byte), got);
    got.state
}

pub fn walk(tally: &mut Tally, text: &[u8], run: &[u8]) {
    tally.answer("walk", expected::walk(text, run), library::walk(text, run));
}

/// An assignment into a run buffer of some length.
pub fn decode(tally: &mut Tally, seed: u64, text: &[u8], (bound, assignment): (usize, &[u8]), room: usize) {
    let mut lent = Lent::new(seed, room);
    let got = library::assignment_to_run(text, bound, assignment, lent.slice());
    let (expected, written) = expected::assignment_to_run(text, bound, assignment, room);
    tally.answer("assignment_to_run", expected, got);
    tally.buffer("assignment_to_run", &lent, &written);
}

/// A run into an assignment buffer of some length.
pub fn encode(tally: &mut Tally, seed: u64, text: &[u8], run: &[u8], room: usize) {
    let mut lent = Lent::new(seed, room);
    let got = library::run_to_assignment(text, run, lent.slice());
    let (expected, written) = expected::run_to_assignment(text, run, room);
    tally.answer("run_to_assignment", expected, got);
    tally.buffer("run_to_assignment", &lent, &written);
}

/// A solver's output with an assignment buffer of some length. The outcome unsatisfiable is counted by itself.
pub fn output(tally: &mut Tally, seed: u64, output: &[u8], room: usize) {
    let mut lent = Lent::new(seed, room);
    let got = library::output_to_assignment(output, lent.slice());
    let (expected, written) = expected::output(output, room);
    let call = if expected.outcome == UNSATISFIABLE { "output, unsatisfiable" } else { "output_to_assignment" };
    tally.answer(call, expected, got);
    tally.buffer("output_to_assignment", &lent, &written);
}
