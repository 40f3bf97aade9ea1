//! The calls as C sees them: an empty slice may be a null pointer and 0.

use std::ptr::{null, null_mut};

use reference::gen::models::model_a;
use wirdoku::library::foreign::*;
use wirdoku::library::{Answer, PairAnswer, PartSteps, State};

use crate::expected::{self, List};
use crate::pair_calls::Pair;
use crate::tally::Tally;
use crate::texts::written;

pub fn nulls(tally: &mut Tally) {
    null_text(tally);
    null_buffers(tally);
    null_output(tally);
    null_pairs(tally);
    null_buffers_of_a_pair(tally);
}

/// No text at all is the empty text: 2 in line 1.
fn null_text(tally: &mut Tally) {
    let state = State { location: 7, counters: [1, 2, 3, 4], clocks: [5, 6, 7, 8] };
    let empty = expected::read(b"");
    let no_file = List::of_text(b"", 1);
    let list = no_file.counts;
    let no_input = List::of_input(b"").counts;
    // SAFETY: each slice is a null pointer and 0, which the header allows.
    unsafe {
        tally.answer("read", empty, wirdoku_read(null(), 0));
        tally.answer("shape", expected::shape(b""), wirdoku_shape(null(), 0));
        tally.answer("counts", list, wirdoku_counts(null(), 0, 1));
        tally.answer("emit", list, wirdoku_emit(null(), 0, 1, null_mut(), 0));
        tally.answer("dimacs", no_file.filed(0, 0), wirdoku_dimacs(null(), 0, 1, null_mut(), 0));
        tally.answer("size", no_input, wirdoku_size(null(), 0, null_mut(), 0));
        tally.answer("initial", expected::initial(b""), wirdoku_initial(null(), 0));
        tally.answer("step", expected::step(b"", state, 3), wirdoku_step(null(), 0, state, 3));
        tally.answer("walk", empty, wirdoku_walk(null(), 0, null(), 0));
        let run = wirdoku_assignment_to_run(null(), 0, 1, null(), 0, null_mut(), 0);
        tally.answer("assignment_to_run", empty, run);
        let assignment = wirdoku_run_to_assignment(null(), 0, null(), 0, null_mut(), 0);
        tally.answer("run_to_assignment", empty, assignment);
    }
    tally.case(|| "null text".to_string());
}

/// A text, and nothing else.
fn null_buffers(tally: &mut Tally) {
    let mut model = model_a();
    model.target = 0;
    let text = written(&model);
    let (start, length) = (text.as_ptr(), text.len());
    let asked = List::of_text(&text, 0);
    let list = asked.emitted(0);
    let file = asked.filed(asked.file().len(), 0);
    let (short, _) = expected::run_to_assignment(&text, &[], 0);
    let (wrong_length, _) = expected::assignment_to_run(&text, 0, &[], 0);
    let (accepted, _) = expected::assignment_to_run(&text, 0, &[1, 0], 0);
    // SAFETY: the text is a slice; the others are null pointers and 0, or a slice that lives.
    unsafe {
        tally.answer("emit", list, wirdoku_emit(start, length, 0, null_mut(), 0));
        tally.answer("dimacs", file, wirdoku_dimacs(start, length, 0, null_mut(), 0));
        tally.answer("walk", expected::walk(&text, &[]), wirdoku_walk(start, length, null(), 0));
        let assignment = wirdoku_run_to_assignment(start, length, null(), 0, null_mut(), 0);
        tally.answer("run_to_assignment", short, assignment);
        let run = wirdoku_assignment_to_run(start, length, 0, null(), 0, null_mut(), 0);
        tally.answer("assignment_to_run", wrong_length, run);
        let run = wirdoku_assignment_to_run(start, length, 0, [1, 0].as_ptr(), 2, null_mut(), 0);
        tally.answer("assignment_to_run", accepted, run);
    }
    tally.case(|| "null buffers".to_string());
}

/// No output, no buffer, neither.
fn null_output(tally: &mut Tally) {
    let (none, held) = (b"s SATISFIABLE\nv 0\n", [7; 2]);
    let mut buffer = held;
    // SAFETY: each slice is a null pointer and 0, or a slice that lives.
    unsafe {
        let got = wirdoku_output_to_assignment(null(), 0, null_mut(), 0);
        tally.answer("output_to_assignment", expected::output(b"", 0).0, got);
        let got = wirdoku_output_to_assignment(none.as_ptr(), none.len(), null_mut(), 0);
        tally.answer("output_to_assignment", expected::output(none, 0).0, got);
        let got = wirdoku_output_to_assignment(null(), 0, buffer.as_mut_ptr(), buffer.len());
        tally.answer("output_to_assignment", expected::output(b"", 2).0, got);
    }
    tally.same("buffer", held, buffer);
    tally.case(|| "null output".to_string());
}

/// No text in either place, or in one of them: 2 in line 1 of the first that is missing.
fn null_pairs(tally: &mut Tally) {
    let text = written(&model_a());
    let (start, length) = (text.as_ptr(), text.len());
    let state = State { location: 7, counters: [1, 2, 3, 4], clocks: [5, 6, 7, 8] };
    let empty = expected::read(b"");
    let list = List::of_text(b"", 1);
    // SAFETY: each slice is a null pointer and 0, which the header allows, or the text, which lives.
    unsafe {
        for ((first, second), text) in [((null(), null()), 1), ((null(), start), 1), ((start, null()), 2)] {
            let lengths = [first, second].map(|pointer: *const u8| if pointer.is_null() { 0 } else { length });
            let [n, m] = lengths;
            let told = PairAnswer { number: empty.number, text, line: empty.place };
            tally.answer("pair_read", told, wirdoku_pair_read(first, n, second, m));
            tally.answer("pair_shape", expected::shape(b""), wirdoku_pair_shape(first, n, second, m));
            tally.answer("pair_counts", list.counts, wirdoku_pair_counts(first, n, second, m, 1));
            tally.answer("pair_emit", list.counts, wirdoku_pair_emit(first, n, second, m, 1, null_mut(), 0));
            tally.answer("pair_dimacs", list.filed(0, 0), wirdoku_pair_dimacs(first, n, second, m, 1, null_mut(), 0));
            tally.answer("pair_initial", expected::initial(b""), wirdoku_pair_initial(first, n, second, m));
            tally.answer("pair_step", expected::step(b"", state, 3), wirdoku_pair_step(first, n, second, m, state, 3));
            tally.answer("pair_walk", empty, wirdoku_pair_walk(first, n, second, m, null(), 0));
            let run = wirdoku_pair_assignment_to_run(first, n, second, m, 1, null(), 0, null_mut(), 0);
            tally.answer("pair_assignment_to_run", empty, run);
            let assignment = wirdoku_pair_run_to_assignment(first, n, second, m, null(), 0, null_mut(), 0);
            tally.answer("pair_run_to_assignment", empty, assignment);
            let steps = PartSteps { number: empty.number, line: empty.place, first: 0, second: 0 };
            tally.answer("pair_parts", steps, wirdoku_pair_parts(first, n, second, m, 0));
        }
    }
    tally.case(|| "null texts of a pair".to_string());
}

/// Two texts, and nothing else.
fn null_buffers_of_a_pair(tally: &mut Tally) {
    let mut model = model_a();
    model.target = 0;
    let pair = Pair::of_models(&model, &model);
    let text = &pair.first;
    let (start, length) = (text.as_ptr(), text.len());
    let list = pair.list(0);
    let bytes = list.file().len();
    let told = |number| Answer { number, place: 0 };
    // SAFETY: the text is a slice, lent twice to be read; the others are null pointers and 0, or a slice that lives.
    unsafe {
        tally.answer("pair_emit", list.emitted(0), wirdoku_pair_emit(start, length, start, length, 0, null_mut(), 0));
        tally.answer("pair_dimacs", list.filed(bytes, 0), wirdoku_pair_dimacs(start, length, start, length, 0, null_mut(), 0));
        tally.answer("pair_walk", told(0), wirdoku_pair_walk(start, length, start, length, null(), 0));
        let assignment = wirdoku_pair_run_to_assignment(start, length, start, length, null(), 0, null_mut(), 0);
        tally.answer("pair_run_to_assignment", told(31), assignment);
        let run = wirdoku_pair_assignment_to_run(start, length, start, length, 0, null(), 0, null_mut(), 0);
        tally.answer("pair_assignment_to_run", told(23), run);
        let first = [1, 0, 0, 0];
        let run = wirdoku_pair_assignment_to_run(start, length, start, length, 0, first.as_ptr(), 4, null_mut(), 0);
        tally.answer("pair_assignment_to_run", told(0), run);
    }
    tally.case(|| "null buffers of a pair".to_string());
}
