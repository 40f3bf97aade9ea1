//! Stack use: every call on models at every limit, alone and composed with the blank one on either side, and with null pointers, in a
//! thread of a given stack. A thread that overflows its stack ends its process, so each size is tried in a process of its own.

use std::process::{Command, Stdio};
use std::ptr::{null, null_mut};
use std::thread::Builder;

use reference::gen::models;
use reference::model::{Model, MAX_BOUND};
use wirdoku::library::foreign::*;
use wirdoku::library::{self, State};

use crate::largest::model_and_run;
use crate::part::Seeds;
use crate::tally::Tally;
use crate::texts::written;
use crate::windows;

/// The name under which the program calls itself.
pub const ON_STACK: &str = "on-stack";
/// The stack of a thread in KiB that the header promises to suffice, the thread's own needs included (scripts/c-calls compares).
const PROMISED: usize = 128;
/// The stack in KiB that must suffice here: a quarter is left to threads that need more themselves.
const SUFFICIENT: usize = PROMISED * 3 / 4;
/// Variables of the solver's output.
const VARIABLES: usize = 100_000;
/// The least stack that a thread can be given.
const LEAST: usize = 16;

/// Tries three quarters of the promised stack, and finds the least one, in steps of 4 KiB, that suffices.
pub fn stack(tally: &mut Tally, _: Seeds) {
    let suffice = suffices(SUFFICIENT);
    tally.same("every call comes back", true, suffice);
    tally.case(|| format!("a stack of {SUFFICIENT} KiB, where {PROMISED} are promised"));
    if suffice {
        println!("    least stack of a thread that suffices, of {LEAST} KiB and more: {} KiB", least());
    }
}

fn least() -> usize {
    let (mut too_small, mut enough) = (LEAST - 4, SUFFICIENT);
    while enough - too_small > 4 {
        let middle = (too_small + enough) / 8 * 4;
        if suffices(middle) {
            enough = middle;
        } else {
            too_small = middle;
        }
    }
    enough
}

/// Whether every call comes back in a thread of so many KiB.
fn suffices(kib: usize) -> bool {
    let program = match std::env::current_exe() {
        Ok(program) => program,
        Err(_) => return false,
    };
    let status = Command::new(program).args([ON_STACK, &kib.to_string()]).stdout(Stdio::null()).stderr(Stdio::null()).status();
    matches!(status, Ok(status) if status.success())
}

/// Makes every call in a thread of so many KiB; tells whether all answered as they should.
pub fn on_stack(kib: usize) -> bool {
    let blank = written(&Model::blank());
    let (model, run) = model_and_run(7_000_000);
    let busy = written(&model);
    alone(kib, question())
        && alone(kib, pair_question(busy.clone(), blank.clone(), run.clone()))
        && alone(kib, pair_question(blank, busy, run))
        && alone(kib, nulls)
}

/// Asks a question in a thread of its own of so many KiB.
fn alone(kib: usize, question: impl FnOnce() -> bool + Send + 'static) -> bool {
    let thread = Builder::new().stack_size(kib << 10).spawn(question);
    matches!(thread.map(|thread| thread.join()), Ok(Ok(true)))
}

/// Every call on two texts that compose to a model at every limit, accepted, and some refused late, by 38 too.
fn pair_question(first: Vec<u8>, second: Vec<u8>, run: Vec<u8>) -> impl FnOnce() -> bool + Send {
    let counts = library::pair_counts(&first, &second, MAX_BOUND);
    let mut words = vec![0; counts.words];
    let mut file = vec![0; library::pair_dimacs(&first, &second, MAX_BOUND, &mut []).bytes];
    let mut assignment = vec![0; counts.variables];
    let mut lemmas = vec![0; counts.words + 1];
    let largest = written(&models::largest());
    move || {
        let start = library::pair_initial(&first, &second);
        let mut back = [0; MAX_BOUND];
        let accepted = [
            start.number,
            library::pair_read(&first, &second).number,
            library::pair_shape(&first, &second).number,
            library::pair_counts(&first, &second, MAX_BOUND).number,
            library::pair_emit(&first, &second, MAX_BOUND, &mut words).number,
            library::pair_dimacs(&first, &second, MAX_BOUND, &mut file).number,
            library::pair_step(&first, &second, start.state, run[0]).number,
            library::pair_parts(&first, &second, run[0]).number,
            library::pair_walk(&first, &second, &run).number,
            library::pair_run_to_assignment(&first, &second, &run, &mut assignment).number,
            library::pair_assignment_to_run(&first, &second, MAX_BOUND, &assignment, &mut back).number,
            library::pair_refute(&first, &second, MAX_BOUND, &mut lemmas, &[0]).number,
        ];
        let last = assignment.len() - 1;
        assignment[last] ^= 1;
        let refused = [
            library::pair_read(&first, &second[..second.len() - 1]).number,
            library::pair_read(&largest, &largest).number,
            library::pair_parts(&largest, &largest, 0).number,
            library::pair_emit(&first, &second, MAX_BOUND, &mut words[1..]).number,
            library::pair_dimacs(&first, &second, MAX_BOUND, &mut file[1..]).number,
            library::pair_parts(&first, &second, 255).number,
            library::pair_walk(&first, &second, &[run[0], 255]).number,
            library::pair_assignment_to_run(&first, &second, MAX_BOUND, &assignment, &mut back).number,
            library::pair_run_to_assignment(&first, &second, &run, &mut assignment[1..]).number,
        ];
        accepted == [0; 12] && refused == [2, 38, 38, 22, 32, 27, 27, 26, 31] && back[..] == run[..]
    }
}

/// Every call with null pointers alone: the empty text, twice, or the empty output.
fn nulls() -> bool {
    let state = State::default();
    // SAFETY: each slice is a null pointer and 0, which the header allows.
    let told = unsafe {
        [
            wirdoku_read(null(), 0).number,
            wirdoku_shape(null(), 0).number,
            wirdoku_counts(null(), 0, 1).number,
            wirdoku_emit(null(), 0, 1, null_mut(), 0).number,
            wirdoku_dimacs(null(), 0, 1, null_mut(), 0).number,
            wirdoku_initial(null(), 0).number,
            wirdoku_step(null(), 0, state, 0).number,
            wirdoku_walk(null(), 0, null(), 0).number,
            wirdoku_assignment_to_run(null(), 0, 1, null(), 0, null_mut(), 0).number,
            wirdoku_run_to_assignment(null(), 0, null(), 0, null_mut(), 0).number,
            wirdoku_refute(null(), 0, 1, null_mut(), 0, null(), 0).number,
            wirdoku_size(null(), 0, null_mut(), 0).number,
            wirdoku_output_to_assignment(null(), 0, null_mut(), 0).number,
        ]
    };
    told[..11] == [2; 11] && told[11..] == [9, 35] && null_pairs(state)
}

fn null_pairs(state: State) -> bool {
    // SAFETY: each slice is a null pointer and 0, which the header allows.
    let told = unsafe {
        [
            wirdoku_pair_read(null(), 0, null(), 0).number,
            wirdoku_pair_shape(null(), 0, null(), 0).number,
            wirdoku_pair_counts(null(), 0, null(), 0, 1).number,
            wirdoku_pair_emit(null(), 0, null(), 0, 1, null_mut(), 0).number,
            wirdoku_pair_dimacs(null(), 0, null(), 0, 1, null_mut(), 0).number,
            wirdoku_pair_initial(null(), 0, null(), 0).number,
            wirdoku_pair_step(null(), 0, null(), 0, state, 0).number,
            wirdoku_pair_walk(null(), 0, null(), 0, null(), 0).number,
            wirdoku_pair_assignment_to_run(null(), 0, null(), 0, 1, null(), 0, null_mut(), 0).number,
            wirdoku_pair_run_to_assignment(null(), 0, null(), 0, null(), 0, null_mut(), 0).number,
            wirdoku_pair_parts(null(), 0, null(), 0, 0).number,
            wirdoku_pair_refute(null(), 0, null(), 0, 1, null_mut(), 0, null(), 0).number,
        ]
    };
    told == [2; 12]
}

/// Every call at the limits, accepted, and some refused late.
fn question() -> impl FnOnce() -> bool + Send {
    let largest = written(&models::largest());
    let mut words = vec![0; library::counts(&largest, MAX_BOUND).words];
    let mut lemmas = vec![0; words.len() + 1];
    let longest = written(&models::longest_file());
    let mut file = vec![0; library::dimacs(&longest, MAX_BOUND, &mut []).bytes];
    let (model, run) = model_and_run(7_000_000);
    let text = written(&model);
    let input = [b"bound=64\n", &text[..]].concat();
    let mut assignment = vec![0; library::counts(&text, MAX_BOUND).variables];
    let output = windows::written(&windows::rising(VARIABLES));
    let mut values = vec![0; VARIABLES + 1];
    move || {
        let start = library::initial(&text);
        let mut back = [0; MAX_BOUND];
        let accepted = [
            start.number,
            library::read(&text).number,
            library::shape(&text).number,
            library::counts(&text, MAX_BOUND).number,
            library::emit(&largest, MAX_BOUND, &mut words).number,
            library::dimacs(&longest, MAX_BOUND, &mut file).number,
            library::size(&input, &mut words).number,
            library::step(&text, start.state, run[0]).number,
            library::walk(&text, &run).number,
            library::run_to_assignment(&text, &run, &mut assignment).number,
            library::assignment_to_run(&text, MAX_BOUND, &assignment, &mut back).number,
            library::output_to_assignment(&output, &mut values[1..]).number,
            library::refute(&largest, MAX_BOUND, &mut lemmas, &[0]).number,
        ];
        let last = assignment.len() - 1;
        assignment[last] ^= 1;
        let refused = [
            library::read(&text[..text.len() - 1]).number,
            library::emit(&largest, MAX_BOUND, &mut words[1..]).number,
            library::dimacs(&longest, MAX_BOUND, &mut file[1..]).number,
            library::walk(&text, &[run[0], 255]).number,
            library::assignment_to_run(&text, MAX_BOUND, &assignment, &mut back).number,
            library::run_to_assignment(&text, &run, &mut assignment[1..]).number,
            library::output_to_assignment(&output[..output.len() - 1], &mut values[1..]).number,
            library::output_to_assignment(&output, &mut values[2..]).number,
            library::output_to_assignment(&output, &mut values).number,
        ];
        accepted == [0; 13] && refused == [2, 22, 32, 27, 26, 31, 33, 34, 35] && back[..] == run[..]
    }
}
