//! Outputs of a solver, right and damaged, and the number of variables that they
//! are read for.

use super::lines::{moved_line, with_lines, Lines};
use super::rng::Rng;

/// Bytes that stand in outputs, and some that never do.
const BYTES: &[u8] = b"0123456789-+ csvSATUN\n\r\tx\0\xff";

/// Words in place of a literal, right and wrong.
const WORDS: [&str; 14] = ["0", "-0", "00", "01", "-01", "+1", "-", "--1", "", "1x", "1", "-1", "2", "1\r"];

/// Lines of every sort.
const LINES: [&str; 20] = [
    "c",
    "c ",
    "c x",
    "cx",
    "c\tx",
    " c",
    "",
    "\r",
    "v",
    "v ",
    "v 0",
    "v 0 0",
    "V 0",
    "x",
    "s SATISFIABLE",
    "s UNSATISFIABLE",
    "s UNKNOWN",
    "s SATISFIABLE ",
    "s  SATISFIABLE",
    "s",
];

/// Texts of comments.
const COMMENTS: [&str; 6] = ["", " ", "x", "s SATISFIABLE", "v 1 2 0", "\r\0\u{e9}"];

/// An output and the variables asked for: untouched once in four, else damaged
/// one to three times; once in four the number of variables is off by one.
pub fn output(rng: &mut Rng) -> (Vec<u8>, usize) {
    let variables = variables(rng);
    let mut output = right(rng, variables);
    if !rng.one_in(4) {
        for _ in 0..=rng.below(3) {
            output = damaged(rng, output);
        }
    }
    let asked = match rng.below(8) {
        0 => variables + 1,
        1 => variables.saturating_sub(1),
        _ => variables,
    };
    (output, asked)
}

fn variables(rng: &mut Rng) -> usize {
    match rng.below(8) {
        0 => 0,
        1..=3 => rng.below(4),
        4 | 5 => rng.below(14),
        6 => rng.below(120),
        _ => 990 + rng.below(20),
    }
}

/// An output that is accepted, with comments or without.
pub fn right(rng: &mut Rng, variables: usize) -> Vec<u8> {
    let mut lines = if rng.one_in(6) { vec![b"s UNSATISFIABLE\n".to_vec()] } else { satisfiable(rng, variables) };
    if rng.one_in(2) {
        for _ in 0..=rng.below(4) {
            let place = rng.below(lines.len() + 1);
            lines.insert(place, comment(rng));
        }
    }
    lines.concat()
}

fn comment(rng: &mut Rng) -> Vec<u8> {
    format!("c {}\n", rng.pick(&COMMENTS)).into_bytes()
}

fn satisfiable(rng: &mut Rng, variables: usize) -> Lines {
    let literals = literals(rng, variables);
    let widest = rng.pick(&[1, 2, 5, 16, usize::MAX]);
    let mut lines = vec![b"s SATISFIABLE\n".to_vec()];
    let mut rest = &literals[..];
    while !rest.is_empty() {
        let (line, after) = rest.split_at((1 + rng.below(widest)).min(rest.len()));
        lines.push(format!("v {}\n", line.join(" ")).into_bytes());
        rest = after;
    }
    lines
}

/// A literal of each variable, in rising, falling or any order, and 0.
fn literals(rng: &mut Rng, variables: usize) -> Vec<String> {
    let signs = ["", "-"];
    let mut literals: Vec<String> = (1..=variables).map(|variable| format!("{}{variable}", rng.pick(&signs))).collect();
    match rng.below(3) {
        0 => literals.reverse(),
        1 => shuffle(rng, &mut literals),
        _ => {}
    }
    literals.push("0".to_string());
    literals
}

fn shuffle<T>(rng: &mut Rng, items: &mut [T]) {
    for last in (1..items.len()).rev() {
        items.swap(last, rng.below(last + 1));
    }
}

/// One random damage.
pub fn damaged(rng: &mut Rng, mut output: Vec<u8>) -> Vec<u8> {
    let place = rng.below(output.len());
    match rng.below(16) {
        0 if !output.is_empty() => output[place] = rng.pick(BYTES),
        1 => output.insert(place, rng.pick(BYTES)),
        2 if !output.is_empty() => {
            output.remove(place);
        }
        3 => output.truncate(place),
        4 => output.truncate(output.len().saturating_sub(1)),
        5 | 6 => output = with_lines(rng, &output, moved_line),
        7 => output = with_lines(rng, &output, other_line),
        8..=13 => output = with_lines(rng, &output, other_literal),
        14 => output = with_lines(rng, &output, other_space),
        _ => output = with_lines(rng, &output, |rng, lines| inserted(rng, lines, comment)),
    }
    output
}

fn inserted(rng: &mut Rng, mut lines: Lines, line: fn(&mut Rng) -> Vec<u8>) -> Lines {
    let place = rng.below(lines.len() + 1);
    lines.insert(place, line(rng));
    lines
}

fn other_line(rng: &mut Rng, lines: Lines) -> Lines {
    inserted(rng, lines, |rng| format!("{}\n", rng.pick(&LINES)).into_bytes())
}

/// Changes the literals of a line `v`: another number, a literal of this line or of
/// another one, a word of some form, or one literal less.
fn other_literal(rng: &mut Rng, mut lines: Lines) -> Lines {
    let places: Vec<usize> = (0..lines.len()).filter(|place| lines[*place].starts_with(b"v ")).collect();
    if places.is_empty() {
        return lines;
    }
    let (one, other) = (rng.pick(&places), rng.pick(&places));
    let others = words(&lines[other]);
    let mut words = words(&lines[one]);
    let place = rng.below(words.len());
    match rng.below(7) {
        0 | 1 => words[place] = number(rng),
        2 => words[place] = rng.pick(&WORDS).to_string(),
        3 => words[place] = others[rng.below(others.len())].clone(),
        4 => words.insert(place, others[rng.below(others.len())].clone()),
        5 => words.insert(place, rng.pick(&WORDS).to_string()),
        _ => drop(words.remove(place)),
    }
    lines[one] = format!("v {}\n", words.join(" ")).into_bytes();
    lines
}

/// The words after `v`; bytes that are no text are replaced.
fn words(line: &[u8]) -> Vec<String> {
    let text = String::from_utf8_lossy(line);
    text.trim_end_matches('\n').split(' ').skip(1).map(str::to_string).collect()
}

/// A number of 1 to 25 digits, half of the time with a minus. Some lie above
/// 2 to the 32 or 2 to the 64 by a small number.
fn number(rng: &mut Rng) -> String {
    let sign = rng.pick(&["", "-"]);
    let low = rng.below(12) as u128;
    let number = match rng.below(4) {
        0 => (1_u128 << rng.pick(&[8, 15, 16, 31, 32, 63, 64])) + low,
        1 => low,
        _ => {
            let digits = 1 + rng.below(25);
            let all: String = (0..digits).map(|_| char::from(rng.between(b'0', b'9'))).collect();
            return format!("{sign}{all}");
        }
    };
    format!("{sign}{number}")
}

/// Doubles a space, or takes it away, or puts one at the end of a line.
fn other_space(rng: &mut Rng, mut lines: Lines) -> Lines {
    let place = rng.below(lines.len());
    let line = &mut lines[place];
    let spaces: Vec<usize> = (0..line.len()).filter(|place| line[*place] == b' ').collect();
    match rng.below(3) {
        0 if !spaces.is_empty() => line.insert(rng.pick(&spaces), b' '),
        1 if !spaces.is_empty() => {
            line.remove(rng.pick(&spaces));
        }
        _ => line.insert(line.len().saturating_sub(1), b' '),
    }
    lines
}
