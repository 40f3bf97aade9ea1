//! What solvers print: outputs that are right, split over lines and with comments, and damaged ones; the document's worked cases.

use reference::gen::outputs::output;
use reference::gen::rng::Rng;
use wirdoku::library::{self, OutputAnswer, SATISFIABLE, UNSATISFIABLE};

use crate::lent::Lent;
use crate::part::Seeds;
use crate::tally::{Due, Tally};
use crate::texts::neighbours;
use crate::{calls, show};

pub const DUE: Due = &[("output_to_assignment", &[0, 33, 34, 35]), ("output, unsatisfiable", &[0])];

/// Each output with a buffer of the length that it was made for, or of one more or less, and of another length.
pub fn outputs(tally: &mut Tally, seeds: Seeds) {
    for seed in seeds.each() {
        let mut rng = Rng::new(seed);
        let (output, variables) = output(&mut rng);
        let output = output.into_boxed_slice();
        let rooms = [variables, rng.below(2 * variables + 3)];
        for (turn, room) in rooms.iter().enumerate() {
            calls::output(tally, seed + turn as u64, &output, *room);
        }
        tally.case(|| format!("seed {seed} output {} rooms {rooms:?}", show::text(&output)));
        if tally.stopped() {
            return;
        }
    }
}

pub const ACCEPTED: OutputAnswer = OutputAnswer { number: 0, line: 0, outcome: SATISFIABLE };
pub const DENIED: OutputAnswer = OutputAnswer { number: 0, line: 0, outcome: UNSATISFIABLE };

const WHOLE: &[u8] = b"s SATISFIABLE\nv 1 -2 -3 -4 5 -6 7 0\n";
const SPLIT: &[u8] = b"c x\ns SATISFIABLE\nc \nv 7 -6\nv 5 -4 -3\nc y\nv -2 1\nv 0\nc z\n";
const NONE: &[u8] = b"c \ns UNSATISFIABLE\nc x\n";
/// Its literals have two digits.
const TENS: &[u8] = b"s SATISFIABLE\nv -10 9 8 -7 6\nv 5 4 -3 -2 1 0\n";

/// The outputs whose neighbours are tried, with the variables that they name.
const NEAR: [(&[u8], usize); 4] = [(WHOLE, 7), (SPLIT, 7), (NONE, 7), (TENS, 10)];

/// Places in and after these outputs, counted one after the other.
pub const PLACES: u64 = (WHOLE.len() + SPLIT.len() + NONE.len() + TENS.len() + NEAR.len()) as u64;

/// Every text that differs from one of these outputs in one byte at a place, or that is cut off there. The seeds are the places.
pub fn near(tally: &mut Tally, places: Seeds) {
    let all: Vec<(&[u8], usize, usize)> =
        NEAR.iter().flat_map(|(text, variables)| (0..=text.len()).map(|place| (*text, *variables, place))).collect();
    for seed in places.each() {
        let (text, variables, place) = all[seed as usize % all.len()];
        for text in neighbours(text, place) {
            calls::output(tally, seed, &text, variables);
            tally.case(|| format!("place {seed} output {}", show::text(&text)));
        }
        if tally.stopped() {
            return;
        }
    }
}

/// What is refused after `s SATISFIABLE` in line 1: variables, number, line, and the other lines.
const REFUSED_AFTER: [(usize, u8, usize, &str); 33] = [
    (2, 35, 2, ""),
    (2, 35, 3, "v 1 2\n"),
    (2, 35, 4, "v 1 2\nc x\n"),
    (2, 35, 2, "v 1 0\n"),
    (2, 35, 2, "v 2 0\n"),
    (2, 35, 2, "v 1 0\nx\n"),
    (2, 35, 2, "v 1 0\nv 2 0\n"),
    (2, 34, 2, "v 1 1\nx\n"),
    (2, 34, 2, "v 1 -1 2 0\n"),
    (2, 34, 2, "v 3 0\n"),
    (2, 34, 2, "v 4294967297 2 0\n"),
    (2, 34, 2, "v 18446744073709551617 2 0\n"),
    (2, 34, 2, "v -340282366920938463463374607431768211457 2 0\n"),
    (2, 34, 3, "v 1 2\nv 1 0\n"),
    (2, 33, 2, "v 1 2 0"),
    (2, 33, 3, "v 1 2 0\nv 0\n"),
    (2, 33, 3, "v 1 2 0\nc x"),
    (2, 33, 2, "v 1 1 x\n"),
    (2, 33, 2, "v 3 x\n"),
    (2, 33, 2, "s SATISFIABLE\nv 1 2 0\n"),
    (2, 33, 2, "v -0\n"),
    (2, 33, 2, "v 01\n"),
    (2, 33, 2, "v +1\n"),
    (2, 33, 2, "v 0 1 2\n"),
    (2, 33, 2, "v 1  2 0\n"),
    (2, 33, 2, "v 1 2 0 \n"),
    (2, 33, 2, "v\n"),
    (2, 33, 2, "v \n"),
    (2, 33, 2, "v 0 0\n"),
    (2, 33, 2, "\nv 1 2 0\n"),
    (2, 33, 2, "v 1 2 0\r\n"),
    (0, 35, 2, ""),
    (0, 34, 2, "v 1 0\n"),
];

/// Whole outputs that are refused: variables, number, line, and the output.
const REFUSED: [(usize, u8, usize, &str); 8] = [
    (2, 35, 1, ""),
    (0, 35, 1, ""),
    (2, 35, 4, "c x\nc y\nc z\n"),
    (2, 33, 1, "v 1 2 0\ns SATISFIABLE\n"),
    (2, 33, 2, "s UNSATISFIABLE\nv 1 0\n"),
    (2, 33, 1, "s UNKNOWN\n"),
    (2, 33, 1, "s SATISFIABLE\r\nv 1 2 0\n"),
    (2, 33, 1, "c\ns SATISFIABLE\nv 1 2 0\n"),
];

/// The worked cases, the answers as they stand in the document.
pub fn worked(tally: &mut Tally) {
    let satisfied: [(&[u8], &[u8]); 3] =
        [(WHOLE, &[1, 0, 0, 0, 1, 0, 1]), (SPLIT, &[1, 0, 0, 0, 1, 0, 1]), (b"s SATISFIABLE\nv 0\n", &[])];
    for (output, written) in satisfied {
        answered(tally, output, written.len(), ACCEPTED, written);
    }
    for output in [b"s UNSATISFIABLE\n", NONE] {
        answered(tally, output, 7, DENIED, &[]);
    }
    for (variables, number, line, lines) in REFUSED_AFTER {
        let output = format!("s SATISFIABLE\n{lines}");
        answered(tally, output.as_bytes(), variables, refused(number, line), &[]);
    }
    for (variables, number, line, output) in REFUSED {
        answered(tally, output.as_bytes(), variables, refused(number, line), &[]);
    }
}

pub fn refused(number: u8, line: usize) -> OutputAnswer {
    OutputAnswer { number, line, outcome: 0 }
}

/// One case: the answer and what was written are these, and the reference's.
pub fn answered(tally: &mut Tally, output: &[u8], variables: usize, expected: OutputAnswer, written: &[u8]) {
    let mut lent = Lent::new(variables as u64, variables);
    tally.answer("output_to_assignment", expected, library::output_to_assignment(output, lent.slice()));
    tally.buffer("output_to_assignment", &lent, written);
    calls::output(tally, 3, output, variables);
    tally.case(|| format!("output {} for {variables} variables", show::beginning(output)));
}
