//! Every call on a thread with a small stack: one that needs more ends the
//! program.

use std::thread;

use reference::model::MAX_BOUND;
use reference::subject::Subject;
use wirdoku::library;

use crate::input;

/// Bytes of the thread's stack, the thread's own needs included.
pub const STACK: usize = 96 * 1024;

/// Makes all calls on a model at the greatest bound.
pub fn on_a_small_stack(input: &Subject) -> Result<(), String> {
    let text = input.text.clone();
    let (run, assignment) = input::run(input, MAX_BOUND).unwrap_or_default();
    let mut lent = vec![0; library::counts(&text, MAX_BOUND).words];
    let mut file = vec![0; library::dimacs(&text, MAX_BOUND, &mut []).bytes];
    let mut numbered = b"bound=64\n".to_vec();
    numbered.extend(&text);
    let mut written = assignment.clone();
    let calls = move || {
        library::read(&text);
        library::shape(&text);
        library::counts(&text, MAX_BOUND);
        library::emit(&text, MAX_BOUND, &mut lent);
        library::dimacs(&text, MAX_BOUND, &mut file);
        library::size(&numbered, &mut lent);
        let state = library::initial(&text).state;
        library::step(&text, state, 0);
        library::walk(&text, &run);
        library::run_to_assignment(&text, &run, &mut written);
        library::assignment_to_run(&text, MAX_BOUND, &assignment, &mut [0; MAX_BOUND]);
    };
    let thread = thread::Builder::new().stack_size(STACK).spawn(calls);
    let thread = thread.map_err(|error| error.to_string())?;
    thread.join().map_err(|_| "a call failed".to_string())
}
