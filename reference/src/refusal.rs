//! The refusal numbers ("Where each refusal is found").

/// Text of more than 8,192 bytes.
pub const TEXT_TOO_LONG: u32 = 1;
/// No LF, or not the due key and `=`.
pub const WRONG_LINE: u32 = 2;
/// Value not of its form.
pub const WRONG_FORM: u32 = 3;
/// Number outside its range.
pub const OUT_OF_RANGE: u32 = 4;
/// Location, clock or counter not declared.
pub const NOT_DECLARED: u32 = 5;
/// A counter is set twice in one edge, or `reset` is not strictly rising.
pub const SET_TWICE_OR_NOT_RISING: u32 = 6;
/// More than four items in `inv` or `when`.
pub const TOO_MANY_ITEMS: u32 = 7;
/// Bytes left after the last line.
pub const BYTES_LEFT: u32 = 8;
/// First line of the program's input is not `bound=` and a number.
pub const WRONG_BOUND_LINE: u32 = 9;
/// A number of the state outside its group, or an unused slot not 0.
pub const WRONG_STATE: u32 = 10;
/// Record not well formed.
pub const NOT_WELL_FORMED: u32 = 20;
/// Bound or run above 64.
pub const ABOVE_BOUND: u32 = 21;
/// Word buffer shorter than the list.
pub const WORDS_SHORT: u32 = 22;
/// Assignment whose length is not N.
pub const WRONG_LENGTH: u32 = 23;
/// Assignment byte that is not 0 or 1.
pub const WRONG_BYTE: u32 = 24;
/// Run buffer shorter than k.
pub const RUN_SHORT: u32 = 25;
/// A clause is false.
pub const FALSE_CLAUSE: u32 = 26;
/// Run byte is H or more.
pub const NO_SUCH_STEP: u32 = 27;
/// Step not allowed.
pub const NOT_ALLOWED: u32 = 28;
/// Initial invariant fails.
pub const INITIAL_INVARIANT: u32 = 29;
/// The run's end is not the target.
pub const NOT_TARGET: u32 = 30;
/// Assignment buffer shorter than N.
pub const ASSIGNMENT_SHORT: u32 = 31;
/// Byte buffer shorter than the file.
pub const BYTES_SHORT: u32 = 32;
/// A line of a solver's output of no form, or out of place.
pub const WRONG_OUTPUT_LINE: u32 = 33;
/// A literal's variable above the buffer's length, or named before.
pub const WRONG_VARIABLE: u32 = 34;
/// The closing 0 with a variable unnamed, or an end without it or without `s`.
pub const NOT_ALL_NAMED: u32 = 35;
/// The composed model has more locations, clocks, counters, edges or atoms than a
/// record may hold.
pub const TOO_LARGE_TOGETHER: u32 = 38;

/// A refusal: its number in the table, and its place (a line, a step or an
/// index), which is 0 where the table names none.
#[derive(Clone, Copy, PartialEq, Eq, Debug)]
pub struct Refusal {
    pub number: u32,
    pub place: u32,
}

impl Refusal {
    /// A refusal with a place.
    pub const fn at(number: u32, place: u32) -> Refusal {
        Refusal { number, place }
    }

    /// A refusal without a place.
    pub const fn plain(number: u32) -> Refusal {
        Refusal { number, place: 0 }
    }
}

/// What a call returns: number and place, both 0 for an accepted call.
pub fn number_and_place<T>(outcome: &Result<T, Refusal>) -> (u32, u32) {
    match outcome {
        Ok(_) => (0, 0),
        Err(refusal) => (refusal.number, refusal.place),
    }
}
