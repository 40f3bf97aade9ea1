//! The calls of the proved library (crates/wirdoku/include/wirdoku.h), one safe function each.
//!
//! `number` is 0 or the number of a refusal; `line` is the line of the text, from 1, for refusals 2 to 8, and of a solver's output
//! for 33 to 35. After a refusal a lent buffer holds what it held. What the header asks of a caller is seen to here: a slice's length is handed over with its pointer,
//! and Rust's rules of borrowing keep lent buffers apart. So these functions have no precondition.

/// `place`: the line for 2 to 8, the byte's index for 24, the clause's index for 26, the step for 27 and 28, else 0.
#[repr(C)]
#[derive(Clone, Copy, Debug, Default, PartialEq, Eq)]
pub struct Answer {
    pub number: u8,
    pub place: usize,
}

/// The totals of a clause list. After 22 `words` is the number needed.
#[repr(C)]
#[derive(Clone, Copy, Debug, Default, PartialEq, Eq)]
pub struct Sizes {
    pub number: u8,
    pub line: usize,
    pub variables: usize,
    pub clauses: usize,
    pub words: usize,
}

/// `bytes`: the file's length, for 0 and for 32; else 0.
#[repr(C)]
#[derive(Clone, Copy, Debug, Default, PartialEq, Eq)]
pub struct FileAnswer {
    pub number: u8,
    pub line: usize,
    pub bytes: usize,
}

/// What a model declares, its ceiling M, and the lengths S and H of a state block and of a choice block.
#[repr(C)]
#[derive(Clone, Copy, Debug, Default, PartialEq, Eq)]
pub struct Shape {
    pub number: u8,
    pub line: usize,
    pub locations: u8,
    pub initial: u8,
    pub target: u8,
    pub clocks: u8,
    pub counters: u8,
    pub edges: u8,
    pub ceiling: usize,
    pub state: usize,
    pub choices: usize,
}

/// The location, and what each counter and each clock shows. A slot that is not declared shows 0.
#[repr(C)]
#[derive(Clone, Copy, Debug, Default, PartialEq, Eq, Hash)]
pub struct State {
    pub location: u8,
    pub counters: [u8; 4],
    pub clocks: [u8; 4],
}

#[repr(C)]
#[derive(Clone, Copy, Debug, Default, PartialEq, Eq)]
pub struct StateAnswer {
    pub number: u8,
    pub line: usize,
    pub state: State,
}

/// What a solver's output says, by the exit statuses of solvers.
pub const SATISFIABLE: u8 = 10;
pub const UNSATISFIABLE: u8 = 20;

/// `line`: for 35 the line of the closing 0, or the line that is missing. `outcome`: `SATISFIABLE`, `UNSATISFIABLE`, or 0 after a
/// refusal.
#[repr(C)]
#[derive(Clone, Copy, Debug, Default, PartialEq, Eq)]
pub struct OutputAnswer {
    pub number: u8,
    pub line: usize,
    pub outcome: u8,
}

/// What became of a refutation.
pub const REFUTED: u8 = 1;
pub const NOT_REFUTED: u8 = 2;

/// `words`: the words of the list, where the lemmas begin, also after 22. `outcome`: `REFUTED`, `NOT_REFUTED`, or 0 after a refusal.
#[repr(C)]
#[derive(Clone, Copy, Debug, Default, PartialEq, Eq)]
pub struct RefutationAnswer {
    pub number: u8,
    pub line: usize,
    pub words: usize,
    pub outcome: u8,
}

/// Two texts read and composed. `text`: 1 or 2, the text that is refused with 1 to 8, else 0; `line`: its line for 2 to 8, else 0.
#[repr(C)]
#[derive(Clone, Copy, Debug, Default, PartialEq, Eq)]
pub struct PairAnswer {
    pub number: u8,
    pub text: u8,
    pub line: usize,
}

/// The step byte of a part that stands still.
pub const STAYS: u8 = 255;

/// What a step byte of a composed model is for each part: the part's own step byte, or `STAYS`.
#[repr(C)]
#[derive(Clone, Copy, Debug, Default, PartialEq, Eq)]
pub struct PartSteps {
    pub number: u8,
    pub line: usize,
    pub first: u8,
    pub second: u8,
}

/// The functions as C declares them. The header says what a caller must see to.
pub mod foreign {
    use super::{Answer, FileAnswer, OutputAnswer, PairAnswer, PartSteps, RefutationAnswer, Shape, Sizes, State, StateAnswer};

    extern "C" {
        pub fn wirdoku_read(text: *const u8, text_len: usize) -> Answer;
        pub fn wirdoku_shape(text: *const u8, text_len: usize) -> Shape;
        pub fn wirdoku_counts(text: *const u8, text_len: usize, bound: usize) -> Sizes;
        pub fn wirdoku_emit(text: *const u8, text_len: usize, bound: usize, out: *mut i32, out_len: usize) -> Sizes;
        pub fn wirdoku_dimacs(text: *const u8, text_len: usize, bound: usize, out: *mut u8, out_len: usize) -> FileAnswer;
        pub fn wirdoku_size(input: *const u8, input_len: usize, out: *mut i32, out_len: usize) -> Sizes;
        pub fn wirdoku_initial(text: *const u8, text_len: usize) -> StateAnswer;
        pub fn wirdoku_step(text: *const u8, text_len: usize, state: State, byte: u8) -> StateAnswer;
        pub fn wirdoku_walk(text: *const u8, text_len: usize, run: *const u8, run_len: usize) -> Answer;
        pub fn wirdoku_assignment_to_run(
            text: *const u8,
            text_len: usize,
            bound: usize,
            assignment: *const u8,
            assignment_len: usize,
            run: *mut u8,
            run_len: usize,
        ) -> Answer;
        pub fn wirdoku_run_to_assignment(
            text: *const u8,
            text_len: usize,
            run: *const u8,
            run_len: usize,
            assignment: *mut u8,
            assignment_len: usize,
        ) -> Answer;
        pub fn wirdoku_output_to_assignment(
            output: *const u8,
            output_len: usize,
            assignment: *mut u8,
            assignment_len: usize,
        ) -> OutputAnswer;
        pub fn wirdoku_refute(
            text: *const u8,
            text_len: usize,
            bound: usize,
            words: *mut i32,
            words_len: usize,
            hints: *const u32,
            hints_len: usize,
        ) -> RefutationAnswer;
        pub fn wirdoku_pair_read(first: *const u8, first_len: usize, second: *const u8, second_len: usize) -> PairAnswer;
        pub fn wirdoku_pair_shape(first: *const u8, first_len: usize, second: *const u8, second_len: usize) -> Shape;
        pub fn wirdoku_pair_counts(
            first: *const u8,
            first_len: usize,
            second: *const u8,
            second_len: usize,
            bound: usize,
        ) -> Sizes;
        pub fn wirdoku_pair_emit(
            first: *const u8,
            first_len: usize,
            second: *const u8,
            second_len: usize,
            bound: usize,
            out: *mut i32,
            out_len: usize,
        ) -> Sizes;
        pub fn wirdoku_pair_dimacs(
            first: *const u8,
            first_len: usize,
            second: *const u8,
            second_len: usize,
            bound: usize,
            out: *mut u8,
            out_len: usize,
        ) -> FileAnswer;
        pub fn wirdoku_pair_initial(first: *const u8, first_len: usize, second: *const u8, second_len: usize) -> StateAnswer;
        pub fn wirdoku_pair_step(
            first: *const u8,
            first_len: usize,
            second: *const u8,
            second_len: usize,
            state: State,
            byte: u8,
        ) -> StateAnswer;
        pub fn wirdoku_pair_walk(
            first: *const u8,
            first_len: usize,
            second: *const u8,
            second_len: usize,
            run: *const u8,
            run_len: usize,
        ) -> Answer;
        pub fn wirdoku_pair_assignment_to_run(
            first: *const u8,
            first_len: usize,
            second: *const u8,
            second_len: usize,
            bound: usize,
            assignment: *const u8,
            assignment_len: usize,
            run: *mut u8,
            run_len: usize,
        ) -> Answer;
        pub fn wirdoku_pair_run_to_assignment(
            first: *const u8,
            first_len: usize,
            second: *const u8,
            second_len: usize,
            run: *const u8,
            run_len: usize,
            assignment: *mut u8,
            assignment_len: usize,
        ) -> Answer;
        pub fn wirdoku_pair_refute(
            first: *const u8,
            first_len: usize,
            second: *const u8,
            second_len: usize,
            bound: usize,
            words: *mut i32,
            words_len: usize,
            hints: *const u32,
            hints_len: usize,
        ) -> RefutationAnswer;
        pub fn wirdoku_pair_parts(
            first: *const u8,
            first_len: usize,
            second: *const u8,
            second_len: usize,
            byte: u8,
        ) -> PartSteps;
    }
}

// SAFETY of every call below: each pointer comes from a slice together with that slice's length, lives through the call, and a
// lent buffer is borrowed mutably, so that nothing overlaps it. The library keeps no pointer.

/// Reads the text: 1 to 8.
pub fn read(text: &[u8]) -> Answer {
    unsafe { foreign::wirdoku_read(text.as_ptr(), text.len()) }
}

/// What the model declares: 1 to 8.
pub fn shape(text: &[u8]) -> Shape {
    unsafe { foreign::wirdoku_shape(text.as_ptr(), text.len()) }
}

/// The totals of the list for a bound, by formula: 1 to 8, 21.
pub fn counts(text: &[u8], bound: usize) -> Sizes {
    unsafe { foreign::wirdoku_counts(text.as_ptr(), text.len(), bound) }
}

/// Writes the list for a bound from the start of `out`: 1 to 8, 21, 22.
pub fn emit(text: &[u8], bound: usize, out: &mut [i32]) -> Sizes {
    unsafe { foreign::wirdoku_emit(text.as_ptr(), text.len(), bound, out.as_mut_ptr(), out.len()) }
}

/// Writes the list for a bound as a DIMACS file from the start of `out`: 1 to 8, 21, 32.
pub fn dimacs(text: &[u8], bound: usize, out: &mut [u8]) -> FileAnswer {
    unsafe { foreign::wirdoku_dimacs(text.as_ptr(), text.len(), bound, out.as_mut_ptr(), out.len()) }
}

/// The size program's question, a bound line and a model text: 9, 1 to 8, 21, 22.
pub fn size(input: &[u8], out: &mut [i32]) -> Sizes {
    unsafe { foreign::wirdoku_size(input.as_ptr(), input.len(), out.as_mut_ptr(), out.len()) }
}

/// The initial state, whether or not its invariant holds: 1 to 8, and then a state of zeros.
pub fn initial(text: &[u8]) -> StateAnswer {
    unsafe { foreign::wirdoku_initial(text.as_ptr(), text.len()) }
}

/// One step byte from a state: 1 to 8, 10, 27, 28, and then the given state; else the new one.
pub fn step(text: &[u8], state: State, byte: u8) -> StateAnswer {
    unsafe { foreign::wirdoku_step(text.as_ptr(), text.len(), state, byte) }
}

/// Walks a run, a byte for each step: 1 to 8, 21, 29, 27, 28, 30.
pub fn walk(text: &[u8], run: &[u8]) -> Answer {
    unsafe { foreign::wirdoku_walk(text.as_ptr(), text.len(), run.as_ptr(), run.len()) }
}

/// Writes the run of an assignment (a byte 0 or 1 for each variable) from the start of `run`: 1 to 8, 21, 23, 24, 25, 26.
pub fn assignment_to_run(text: &[u8], bound: usize, assignment: &[u8], run: &mut [u8]) -> Answer {
    unsafe {
        foreign::wirdoku_assignment_to_run(
            text.as_ptr(),
            text.len(),
            bound,
            assignment.as_ptr(),
            assignment.len(),
            run.as_mut_ptr(),
            run.len(),
        )
    }
}

/// Writes the assignment of a run from the start of `assignment`: 1 to 8, 21, 29, 27, 28, 30, 31.
pub fn run_to_assignment(text: &[u8], run: &[u8], assignment: &mut [u8]) -> Answer {
    unsafe {
        foreign::wirdoku_run_to_assignment(
            text.as_ptr(),
            text.len(),
            run.as_ptr(),
            run.len(),
            assignment.as_mut_ptr(),
            assignment.len(),
        )
    }
}

/// Reads what a solver prints, in the form of the competitions, for a buffer with a byte for each variable: 33, 34, 35. The buffer
/// is written whole if the outcome is `SATISFIABLE`, else not at all.
pub fn output_to_assignment(output: &[u8], assignment: &mut [u8]) -> OutputAnswer {
    unsafe { foreign::wirdoku_output_to_assignment(output.as_ptr(), output.len(), assignment.as_mut_ptr(), assignment.len()) }
}

/// Writes the list for a bound in front of the lemmas that `words` holds behind it, and checks by the hints whether they refute it:
/// 1 to 8, 21, 22. Refuted or not, the list stands in `words` then and the lemmas are as they were.
pub fn refute(text: &[u8], bound: usize, words: &mut [i32], hints: &[u32]) -> RefutationAnswer {
    unsafe {
        foreign::wirdoku_refute(text.as_ptr(), text.len(), bound, words.as_mut_ptr(), words.len(), hints.as_ptr(), hints.len())
    }
}

/// Reads both texts and composes them: 1 to 8, 38.
pub fn pair_read(first: &[u8], second: &[u8]) -> PairAnswer {
    unsafe { foreign::wirdoku_pair_read(first.as_ptr(), first.len(), second.as_ptr(), second.len()) }
}

/// What the composed model declares: 1 to 8, 38.
pub fn pair_shape(first: &[u8], second: &[u8]) -> Shape {
    unsafe { foreign::wirdoku_pair_shape(first.as_ptr(), first.len(), second.as_ptr(), second.len()) }
}

/// The totals of its list for a bound: 1 to 8, 38, 21.
pub fn pair_counts(first: &[u8], second: &[u8], bound: usize) -> Sizes {
    unsafe { foreign::wirdoku_pair_counts(first.as_ptr(), first.len(), second.as_ptr(), second.len(), bound) }
}

/// Writes its list for a bound from the start of `out`: 1 to 8, 38, 21, 22.
pub fn pair_emit(first: &[u8], second: &[u8], bound: usize, out: &mut [i32]) -> Sizes {
    unsafe {
        foreign::wirdoku_pair_emit(first.as_ptr(), first.len(), second.as_ptr(), second.len(), bound, out.as_mut_ptr(), out.len())
    }
}

/// Writes its list for a bound as a DIMACS file from the start of `out`: 1 to 8, 38, 21, 32.
pub fn pair_dimacs(first: &[u8], second: &[u8], bound: usize, out: &mut [u8]) -> FileAnswer {
    unsafe {
        foreign::wirdoku_pair_dimacs(
            first.as_ptr(),
            first.len(),
            second.as_ptr(),
            second.len(),
            bound,
            out.as_mut_ptr(),
            out.len(),
        )
    }
}

/// Its initial state, whether or not its invariant holds: 1 to 8, 38, and then a state of zeros.
pub fn pair_initial(first: &[u8], second: &[u8]) -> StateAnswer {
    unsafe { foreign::wirdoku_pair_initial(first.as_ptr(), first.len(), second.as_ptr(), second.len()) }
}

/// One step byte from a state of it: 1 to 8, 38, 10, 27, 28, and then the given state; else the new one.
pub fn pair_step(first: &[u8], second: &[u8], state: State, byte: u8) -> StateAnswer {
    unsafe { foreign::wirdoku_pair_step(first.as_ptr(), first.len(), second.as_ptr(), second.len(), state, byte) }
}

/// Walks a run of it: 1 to 8, 38, 21, 29, 27, 28, 30.
pub fn pair_walk(first: &[u8], second: &[u8], run: &[u8]) -> Answer {
    unsafe { foreign::wirdoku_pair_walk(first.as_ptr(), first.len(), second.as_ptr(), second.len(), run.as_ptr(), run.len()) }
}

/// Writes the run of an assignment from the start of `run`: 1 to 8, 38, 21, 23, 24, 25, 26.
pub fn pair_assignment_to_run(first: &[u8], second: &[u8], bound: usize, assignment: &[u8], run: &mut [u8]) -> Answer {
    unsafe {
        foreign::wirdoku_pair_assignment_to_run(
            first.as_ptr(),
            first.len(),
            second.as_ptr(),
            second.len(),
            bound,
            assignment.as_ptr(),
            assignment.len(),
            run.as_mut_ptr(),
            run.len(),
        )
    }
}

/// Writes the assignment of a run from the start of `assignment`: 1 to 8, 38, 21, 29, 27, 28, 30, 31.
pub fn pair_run_to_assignment(first: &[u8], second: &[u8], run: &[u8], assignment: &mut [u8]) -> Answer {
    unsafe {
        foreign::wirdoku_pair_run_to_assignment(
            first.as_ptr(),
            first.len(),
            second.as_ptr(),
            second.len(),
            run.as_ptr(),
            run.len(),
            assignment.as_mut_ptr(),
            assignment.len(),
        )
    }
}

/// Writes its list for a bound in front of the lemmas and checks by the hints whether they refute it: 1 to 8, 38, 21, 22.
pub fn pair_refute(first: &[u8], second: &[u8], bound: usize, words: &mut [i32], hints: &[u32]) -> RefutationAnswer {
    unsafe {
        foreign::wirdoku_pair_refute(
            first.as_ptr(),
            first.len(),
            second.as_ptr(),
            second.len(),
            bound,
            words.as_mut_ptr(),
            words.len(),
            hints.as_ptr(),
            hints.len(),
        )
    }
}

/// What a step byte of the composed model is for each part: 1 to 8, 38, 27, and then 0 and 0.
pub fn pair_parts(first: &[u8], second: &[u8], byte: u8) -> PartSteps {
    unsafe { foreign::wirdoku_pair_parts(first.as_ptr(), first.len(), second.as_ptr(), second.len(), byte) }
}
