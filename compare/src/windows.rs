//! Outputs of many variables, of which the library marks 32,768 at a time: whatever stands in which of these windows, the first
//! line that is wrong is the one that is told. And long outputs.

use reference::gen::rng::Rng;

use crate::calls;
use crate::outputs::{answered, refused, ACCEPTED, DENIED};
use crate::part::Seeds;
use crate::tally::{Due, Tally};

pub const DUE: Due = &[("output_to_assignment", &[0, 33, 34, 35])];

/// The variables that the library marks at a time.
const WINDOW: usize = 32_768;
/// Numbers of variables of the worked cases.
const COUNTS: [usize; 7] = [WINDOW - 1, WINDOW, WINDOW + 1, 40_000, 2 * WINDOW, 2 * WINDOW + 1, 100_000];
/// Literals in a line `v`.
const WIDTH: usize = 10;
/// Bytes of a long output.
const LONG: usize = 10_000_000;

/// Each number of variables in every order and with every fault, and long outputs.
pub fn windows(tally: &mut Tally, _: Seeds) {
    for variables in COUNTS {
        orders(tally, variables);
        repetitions(tally, variables);
        two_faults(tally, variables);
    }
    long_outputs(tally);
}

/// Outputs of any number of variables, right and wrong.
pub fn many(tally: &mut Tally, seeds: Seeds) {
    for seed in seeds.each() {
        let mut rng = Rng::new(seed);
        let variables = 30_000 + rng.below(80_000);
        let output = any(&mut rng, seed, variables);
        calls::output(tally, seed, &output, variables);
        tally.case(|| format!("seed {seed}, {variables} variables"));
        if tally.stopped() {
            return;
        }
    }
}

/// A literal of each variable, in rising order.
pub fn rising(variables: usize) -> Vec<i64> {
    (1..=variables as i64).map(|variable| if value(variable) == 1 { variable } else { -variable }).collect()
}

/// What the variable is to be.
fn value(variable: i64) -> u8 {
    (variable.wrapping_mul(0x9e37_79b9) >> 16 & 1) as u8
}

/// The assignment of variables 1 to a number.
fn values(variables: usize) -> Vec<u8> {
    (1..=variables as i64).map(value).collect()
}

/// An output with these literals and 0.
pub fn written(literals: &[i64]) -> Vec<u8> {
    [&unclosed(literals)[..], b"v 0\n"].concat()
}

/// An output with these literals, ten a line; the literal at an index stands in line `line_of` of it.
fn unclosed(literals: &[i64]) -> Vec<u8> {
    let mut output = b"s SATISFIABLE\n".to_vec();
    for line in literals.chunks(WIDTH) {
        let words: Vec<String> = line.iter().map(i64::to_string).collect();
        output.extend(format!("v {}\n", words.join(" ")).bytes());
    }
    output
}

fn line_of(index: usize) -> usize {
    2 + index / WIDTH
}

fn shuffled(rng: &mut Rng, mut literals: Vec<i64>) -> Vec<i64> {
    for last in (1..literals.len()).rev() {
        literals.swap(last, rng.below(last + 1));
    }
    literals
}

/// Rising, falling and any order; a buffer with a byte less or more.
fn orders(tally: &mut Tally, variables: usize) {
    let rising = rising(variables);
    let falling: Vec<i64> = rising.iter().rev().copied().collect();
    let shuffled = shuffled(&mut Rng::new(variables as u64), rising.clone());
    for literals in [&rising, &falling, &shuffled] {
        answered(tally, &written(literals), variables, ACCEPTED, &values(variables));
    }
    let closing = line_of(variables - 1) + 1;
    answered(tally, &written(&rising), variables - 1, refused(34, line_of(variables - 1)), &[]);
    answered(tally, &written(&falling), variables - 1, refused(34, 2), &[]);
    answered(tally, &written(&rising), variables + 1, refused(35, closing), &[]);
    answered(tally, &unclosed(&rising), variables, refused(35, closing), &[]);
    let output = [&written(&rising)[..], b"v 0\n"].concat();
    answered(tally, &output, variables, refused(33, closing + 1), &[]);
}

/// The variables on both sides of each window's edge, and the last.
fn edges(variables: usize) -> Vec<usize> {
    let edges = [1, 2, WINDOW - 1, WINDOW, WINDOW + 1, 2 * WINDOW, 2 * WINDOW + 1, 3 * WINDOW, 3 * WINDOW + 1, variables];
    edges.into_iter().filter(|variable| *variable <= variables).collect()
}

/// A variable that is named twice in place of another, or that is not named.
fn repetitions(tally: &mut Tally, variables: usize) {
    for variable in edges(variables) {
        let again = if variable > variables / 2 { 30 } else { variables - 30 };
        let mut literals = rising(variables);
        literals[again] = -literals[variable - 1];
        answered(tally, &written(&literals), variables, refused(34, line_of(again.max(variable - 1))), &[]);
        let mut literals = rising(variables);
        literals.remove(variable - 1);
        answered(tally, &written(&literals), variables, refused(35, line_of(variables - 2) + 1), &[]);
    }
}

/// Two faults in lines of their own: the first of the text is told, also where it is of a later window.
fn two_faults(tally: &mut Tally, variables: usize) {
    let all = unclosed(&rising(variables));
    let line = line_of(variables - 1) + 1;
    let (low, high, above) = (5, variables - 5, variables + 1);
    let faults = [
        (format!("v {high}\nv {low}\nv 0\n"), 34, line),
        (format!("v {low}\nv {high}\nv 0\n"), 34, line),
        (format!("c x\nv -{high}\nv -{low}\n"), 34, line + 1),
        (format!("v {high}\nx\n"), 34, line),
        (format!("x\nv {high}\n"), 33, line),
        (format!("v {high} x\nv {low}\n"), 33, line),
        (format!("v {high}\nv {above}\nv {low}\n"), 34, line),
        (format!("v {above}\nv {low}\n"), 34, line),
        (format!("v {high} 0\nv {low}\n"), 34, line),
        (format!("v {high}\nc x"), 34, line),
        (format!("v {high}"), 33, line),
        (format!("v 0\nv {high}\n"), 33, line + 1),
    ];
    for (end, number, line) in faults {
        answered(tally, &[&all[..], end.as_bytes()].concat(), variables, refused(number, line), &[]);
    }
    // A high variable in lines 2 and 3, a low one in line 2 and at the end.
    let mut literals = rising(variables);
    let moved = literals.remove(high - 1);
    literals.insert(0, moved);
    answered(tally, &written(&literals), variables, ACCEPTED, &values(variables));
    literals.insert(WIDTH, -moved);
    literals.push(low as i64);
    answered(tally, &written(&literals), variables, refused(34, 3), &[]);
}

/// Millions of bytes: comments, one comment, one line of literals, one number; and a buffer of millions of bytes.
fn long_outputs(tally: &mut Tally) {
    let line = b"c 0123456789 s SATISFIABLE v 1 2 0\n";
    let lines = LONG / line.len();
    let comments = line.repeat(lines);
    let after = |end: &[u8]| [&comments[..], end].concat();
    answered(tally, &comments, 2, refused(35, lines + 1), &[]);
    answered(tally, &after(b"s SATISFIABLE\nv 1 -2 0\n"), 2, ACCEPTED, &[1, 0]);
    answered(tally, &after(b"s SATISFIABLE\nv 1 -2 0"), 2, refused(33, lines + 2), &[]);
    answered(tally, &after(b"s UNSATISFIABLE\n"), 2, DENIED, &[]);
    answered(tally, &[&b"s UNSATISFIABLE\n"[..], &comments].concat(), 2, DENIED, &[]);
    let many = unclosed(&rising(40_000));
    let split = [&many[..], &comments, b"v 0\n"].concat();
    answered(tally, &split, 40_000, ACCEPTED, &values(40_000));
    let repeated = [&many[..], &comments, b"v 39999\nv 3\nv 0\n"].concat();
    answered(tally, &repeated, 40_000, refused(34, line_of(39_999) + lines + 1), &[]);
    let one = [b"c ", &vec![b'0'; LONG][..], b"\ns SATISFIABLE\nv 1 -2 0\n"].concat();
    answered(tally, &one, 2, ACCEPTED, &[1, 0]);
    let literals = |end: &str| format!("s SATISFIABLE\nv{}{end}\n", " 1".repeat(LONG / 2)).into_bytes();
    answered(tally, &literals(""), 2, refused(34, 2), &[]);
    answered(tally, &literals(" x"), 2, refused(33, 2), &[]);
    let number = |end: &str| format!("s SATISFIABLE\nv 1 2{}{end}\n", "0".repeat(LONG)).into_bytes();
    answered(tally, &number(" 0"), 2, refused(34, 2), &[]);
    answered(tally, &number(" -0"), 2, refused(33, 2), &[]);
    answered(tally, b"s UNSATISFIABLE\n", LONG, DENIED, &[]);
    answered(tally, b"s SATISFIABLE\nv 1 10000000 0\n", LONG, refused(35, 2), &[]);
    answered(tally, b"s SATISFIABLE\nv 1 10000001 0\n", LONG, refused(34, 2), &[]);
    answered(tally, b"s SATISFIABLE\nv 9999999 -9999999 1 1 0\n", LONG, refused(34, 2), &[]);
}

/// An output in any order, of four sorts in turn: right; two variables named again; a line of no form, half of the time with a
/// variable named again; a variable left out.
fn any(rng: &mut Rng, seed: u64, variables: usize) -> Vec<u8> {
    let mut literals = rising(variables);
    if rng.one_in(2) {
        literals = shuffled(rng, literals);
    }
    let sort = seed % 4;
    let repeated = match sort {
        1 => 2,
        2 => rng.below(2),
        _ => 0,
    };
    for _ in 0..repeated {
        let (one, other) = (rng.below(variables), rng.below(variables));
        literals.insert(one, -literals[other]);
    }
    if sort == 3 {
        literals.remove(rng.below(variables));
    }
    let mut output = written(&literals);
    if sort == 2 {
        let feeds: Vec<usize> = (0..output.len()).filter(|place| output[*place] == b'\n').collect();
        output.insert(rng.pick(&feeds), b' ');
    }
    output
}
