//! What several test files need.
#![allow(dead_code)]

use reference::model::{ClockUpdate, Edge, Model};
use reference::state::State;
use reference::text::read;

/// Model A, 14 lines. Line 11 is `label`.
pub const MODEL_A: &str = "\
locations=2
init=0
target=1
clocks=0
vars=0
inv=-
inv=-
edges=1
from=0
to=1
label=0
when=-
set=-
reset=-
";

/// Logger model B, 29 lines. Lines 14, 20 and 26 are `label`.
pub const MODEL_B: &str = "\
locations=4
init=0
target=3
clocks=1
vars=1
var=1,0
inv=-
inv=x0<=3
inv=-
inv=-
edges=3
from=0
to=1
label=0
when=-
set=-
reset=x0
from=1
to=2
label=0
when=x0<=2
set=v0:=v0+1
reset=-
from=1
to=3
label=0
when=x0>=3
set=-
reset=-
";

/// A light switch: pressed twice within three ticks it shines brightly.
pub const LIGHT: &str = "\
locations=3
init=0
target=2
clocks=1
vars=0
inv=-
inv=-
inv=-
edges=4
from=0
to=1
label=0
when=-
set=-
reset=x0
from=1
to=0
label=0
when=x0>3
set=-
reset=-
from=1
to=2
label=0
when=x0<=3
set=-
reset=-
from=2
to=0
label=0
when=-
set=-
reset=-
";

/// Two of everything, for tests of references and orders. Lines: 4 clocks,
/// 5 vars, 6 and 7 var, 8 and 9 inv, 10 edges, 11 from, 12 to, 13 label, 14 when,
/// 15 set, 16 reset.
pub const PAIR: &str = "\
locations=2
init=0
target=1
clocks=2
vars=2
var=3,0
var=3,0
inv=-
inv=-
edges=1
from=0
to=1
label=0
when=-
set=-
reset=-
";

/// Model A with two counters, of which the edge raises the first and then copies it.
/// Line 15 is `set`.
pub const C2: &str = "\
locations=2
init=0
target=1
clocks=0
vars=2
var=1,0
var=1,0
inv=-
inv=-
edges=1
from=0
to=1
label=0
when=-
set=v0:=v0+1,v1:=v0+0
reset=-
";

/// Model A with two clocks, of which the edge resets the first and saves its value
/// in the second. Line 12 is `when`, line 14 `reset`.
pub const SAVES: &str = "\
locations=2
init=0
target=1
clocks=2
vars=0
inv=-
inv=-
edges=1
from=0
to=1
label=0
when=x0>=1
set=-
reset=x0,x1:=x0
";

/// The clocks after an edge, each from the clocks before it.
pub fn clocks_after(edge: &Edge, before: &State) -> [u8; 4] {
    [0, 1, 2, 3].map(|clock| match edge.clock_updates[clock] {
        ClockUpdate::Unchanged => before.clocks[clock],
        ClockUpdate::Reset => 0,
        ClockUpdate::Copy(source) => before.clocks[usize::from(source)],
    })
}

/// The model of a text that must be accepted.
pub fn model(text: &str) -> Model {
    let reading = read(text.as_bytes());
    assert_eq!((reading.refusal, reading.line), (0, 0), "{text}");
    reading.model
}

/// A text with one line (from 1) replaced; the replacement has no LF.
pub fn with_line(text: &str, line: usize, replacement: &str) -> String {
    let mut lines: Vec<&str> = text.lines().collect();
    lines[line - 1] = replacement;
    lines.iter().map(|line| format!("{line}\n")).collect()
}

/// The number and line of a reading; a refused one gives the blank model.
pub fn refusal(text: &[u8]) -> (u32, u32) {
    let reading = read(text);
    if reading.refusal != 0 {
        assert_eq!(reading.model, Model::blank());
    }
    (reading.refusal, reading.line)
}

/// Puts each replacement into a line and compares the refusal numbers. The line
/// is the one replaced, or 0 for an accepted text.
pub fn check(base: &str, line: usize, rows: &[(&str, u32)]) {
    for (replacement, number) in rows {
        let expected = if *number == 0 { (0, 0) } else { (*number, line as u32) };
        let text = with_line(base, line, replacement);
        assert_eq!(refusal(text.as_bytes()), expected, "line {line}: {replacement:?}");
    }
}

/// 64-bit FNV-1a of some words, four bytes each, the lowest first.
pub fn fnv(words: &[i32]) -> u64 {
    fnv_of_bytes(words.iter().flat_map(|word| word.to_le_bytes()))
}

/// 64-bit FNV-1a of some bytes.
pub fn fnv_of_bytes(bytes: impl Iterator<Item = u8>) -> u64 {
    bytes.fold(14695981039346656037, |digest: u64, byte| (digest ^ u64::from(byte)).wrapping_mul(1099511628211))
}
