//! Texts with other values: lines that keep their key and get a value of the key's form, with numbers
//! at and beyond the limits, labels too, too many items, counters set in any order and twice, resets and copies of clocks
//! that do not rise, and signs that are wrong. Several faults can stand in one line, so that the order in which a line is
//! tried is seen.

use reference::gen::models::any_model;
use reference::gen::rng::Rng;
use reference::model::Model;

use crate::texts::written;

const NUMBERS: [&str; 16] = ["0", "1", "2", "3", "4", "5", "15", "16", "17", "30", "31", "32", "33", "100", "256", "999"];
const NO_NUMBERS: [&str; 8] = ["", "00", "01", "1000", "-1", "+1", "a", "1 "];
const SIGNS: [&str; 6] = ["<", "<=", "=", ">=", ">", "!="];
const NO_SIGNS: [&str; 9] = ["", "!=", "=<", "==", "<>", "!", ":=", "=>", " ="];

/// A right text of which one line, once in four two lines, got another value.
pub fn text(rng: &mut Rng) -> Vec<u8> {
    let model = any_model(rng);
    let text = written(&model);
    let mut lines: Vec<Vec<u8>> = text.split_inclusive(|byte| *byte == b'\n').map(<[u8]>::to_vec).collect();
    let times = if rng.one_in(4) { 2 } else { 1 };
    for _ in 0..times {
        let place = place(rng, &lines);
        lines[place] = other_line(rng, &model, &lines[place]);
    }
    lines.concat()
}

/// The place of a line, half of the time of one with items or a label.
fn place(rng: &mut Rng, lines: &[Vec<u8>]) -> usize {
    let keys = [&b"inv="[..], b"when=", b"set=", b"set=", b"reset=", b"reset=", b"label="];
    let key = rng.pick(&keys);
    let places: Vec<usize> = (0..lines.len()).filter(|place| lines[*place].starts_with(key)).collect();
    if places.is_empty() || rng.one_in(2) {
        return rng.below(lines.len());
    }
    rng.pick(&places)
}

fn other_line(rng: &mut Rng, model: &Model, line: &[u8]) -> Vec<u8> {
    let key = line.split(|byte| *byte == b'=').next().unwrap_or(b"");
    let value = match key {
        b"inv" | b"when" => items(rng, |rng| atom(rng, model, key)),
        b"set" => items(rng, |rng| update(rng, model)),
        b"reset" => items(rng, |rng| reset(rng, model)),
        b"var" => format!("{},{}", number(rng), number(rng)),
        _ => number(rng),
    };
    let mut line = [key, b"=", value.as_bytes(), b"\n"].concat();
    if rng.one_in(12) {
        let place = rng.below(line.len());
        line[place] = rng.byte();
    }
    line
}

/// A number, once in 16 one that is not of the form.
fn number(rng: &mut Rng) -> String {
    let choices: &[&str] = if rng.one_in(16) { &NO_NUMBERS } else { &NUMBERS };
    rng.pick(choices).to_string()
}

/// The index of a clock or counter: most often one that is declared, if any is.
fn index(rng: &mut Rng, declared: u8) -> String {
    match rng.below(12) {
        0 => number(rng),
        _ => rng.below(usize::from(declared)).to_string(),
    }
}

/// A constant or an offset: most often one in its range.
fn constant(rng: &mut Rng) -> String {
    match rng.below(8) {
        0 => number(rng),
        _ => rng.below(31).to_string(),
    }
}

/// No item, or up to six, half of the time sorted.
fn items(rng: &mut Rng, mut item: impl FnMut(&mut Rng) -> String) -> String {
    let mut items: Vec<String> = (0..rng.below(7)).map(|_| item(rng)).collect();
    if items.is_empty() {
        return rng.pick(&["-", "-", "", "--", "-,-"]).to_string();
    }
    if rng.one_in(2) {
        items.sort();
    }
    if rng.one_in(24) {
        items.push("-".to_string());
    }
    items.join(",")
}

/// The usual sign, or once in 32 one of some others.
fn sign<'a>(rng: &mut Rng, usual: &'a str, others: &[&'a str]) -> &'a str {
    if rng.one_in(32) {
        rng.pick(others)
    } else {
        usual
    }
}

fn atom(rng: &mut Rng, model: &Model, key: &[u8]) -> String {
    let on_clock = key == b"inv" || rng.one_in(2);
    let name = sign(rng, if on_clock { "x" } else { "v" }, &["", "y", "X", "v", "xx"]);
    let declared = if on_clock { model.clocks } else { model.counters };
    let usual = rng.pick(&SIGNS[..if on_clock { 5 } else { 6 }]);
    let sign = sign(rng, usual, &NO_SIGNS);
    format!("{name}{}{sign}{}", index(rng, declared), constant(rng))
}

fn update(rng: &mut Rng, model: &Model) -> String {
    let target = index(rng, model.counters);
    let set = sign(rng, ":=", &["=", ":", "", "=:"]);
    if rng.one_in(2) {
        return format!("v{target}{set}{}", constant(rng));
    }
    let name = sign(rng, "v", &["", "x", "vv"]);
    let usual = rng.pick(&["+", "-"]);
    let add = sign(rng, usual, &["", "*", "+-", "--"]);
    format!("v{target}{set}{name}{}{add}{}", index(rng, model.counters), constant(rng))
}

/// A clock, half of the time with a clock that is copied to it.
fn reset(rng: &mut Rng, model: &Model) -> String {
    let set = clock(rng, model);
    if rng.one_in(2) {
        return set;
    }
    let copy = sign(rng, ":=", &["=", ":", "", "=:"]);
    let rest = sign(rng, "", &["+0", "-1", ":=x0", ":="]);
    format!("{set}{copy}{}{rest}", clock(rng, model))
}

fn clock(rng: &mut Rng, model: &Model) -> String {
    let name = sign(rng, "x", &["", "v", "xx"]);
    format!("{name}{}", index(rng, model.clocks))
}
