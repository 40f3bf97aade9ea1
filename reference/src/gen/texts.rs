//! Damaged model texts and inputs of the size program, which are the cnf program's too.

use super::lines::{moved_line, with_lines, Lines};
use super::models::any_model;
use super::rng::Rng;
use crate::text::{write, MAX_TEXT};

/// Numbers at and beside the limits, and malformed ones.
const NUMBERS: [&str; 22] = [
    "0", "1", "2", "3", "4", "5", "15", "16", "17", "29", "30", "31", "32", "33", "64", "65", "255", "256", "999", "1000", "00",
    "007",
];

/// Items of every sort, right and wrong.
const ITEMS: [&str; 32] = [
    "x0<=3",
    "x1>2",
    "x3=30",
    "x0<31",
    "x4>=1",
    "x0!=1",
    "v0=0",
    "v0!=1",
    "v3>=31",
    "v9<40",
    "v0<32",
    "x0",
    "x1",
    "x3",
    "x9",
    "x0:=x0",
    "x0:=x1",
    "x1:=x0",
    "x1:=x9",
    "x0:=0",
    "x0:=x1+0",
    "v0:=1",
    "v1:=v0+0",
    "v0:=v0-0",
    "v2:=v1-3",
    "v3:=32",
    "v0:=v0+32",
    "v0:=31",
    "-",
    "",
    "y0",
    "x00",
];

/// What may stand in a label line's place, right and wrong.
const LABELS: [&str; 16] = [
    "label=0",
    "label=15",
    "label=16",
    "label=17",
    "label=999",
    "label=1000",
    "label=00",
    "label=015",
    "label=-",
    "label=",
    "label=x1",
    "label=1,2",
    "label",
    "Label=1",
    "labels=1",
    "when=-",
];

/// Bytes that stand in texts, and some that never do.
const BYTES: &[u8] = b"0123456789xv<>=!:+-,\n\r afilnotw\0\xff";

/// A text for the reader: untouched once in six, else damaged one to three times.
pub fn text(rng: &mut Rng) -> Vec<u8> {
    let model = any_model(rng);
    let mut text = write(&model).map(String::into_bytes).unwrap_or_default();
    if rng.one_in(6) {
        return text;
    }
    for _ in 0..=rng.below(3) {
        text = damaged(rng, text);
    }
    text
}

/// An input of the size program: bound line and text, either one damaged or not.
pub fn size_input(rng: &mut Rng) -> Vec<u8> {
    let mut input = bound_line(rng);
    let text = if rng.one_in(2) { write(&any_model(rng)).map(String::into_bytes).unwrap_or_default() } else { text(rng) };
    input.extend(text);
    input
}

fn bound_line(rng: &mut Rng) -> Vec<u8> {
    let number = match rng.below(4) {
        0 => rng.pick(&NUMBERS).to_string(),
        1 => rng.below(70).to_string(),
        _ => rng.below(6).to_string(),
    };
    let line = format!("bound={number}\n").into_bytes();
    if rng.one_in(10) {
        return damaged(rng, line);
    }
    line
}

/// One random damage.
fn damaged(rng: &mut Rng, mut text: Vec<u8>) -> Vec<u8> {
    let place = rng.below(text.len());
    match rng.below(17) {
        0 if !text.is_empty() => {
            text.remove(place);
        }
        1 => text.insert(place, rng.pick(BYTES)),
        2 if !text.is_empty() => text[place] = rng.pick(BYTES),
        3 => text.truncate(place),
        4 => text.extend((0..=rng.below(3)).map(|_| rng.pick(BYTES))),
        5 => pad(rng, &mut text),
        6 | 7 => text = with_number(rng, &text),
        8..=11 => text = with_lines(rng, &text, more_items),
        12 => text = with_lines(rng, &text, other_value),
        13 | 14 => text = with_lines(rng, &text, moved_item),
        15 => text = with_lines(rng, &text, other_label),
        _ => text = with_lines(rng, &text, moved_line),
    }
    text
}

/// Fills up to the longest text, or one byte beyond it.
fn pad(rng: &mut Rng, text: &mut Vec<u8>) {
    let length = MAX_TEXT + rng.below(2);
    if text.len() < length {
        text.resize(length, b'\n');
    }
}

/// Replaces one run of digits by another number.
fn with_number(rng: &mut Rng, text: &[u8]) -> Vec<u8> {
    let is_start = |i: &usize| text[*i].is_ascii_digit() && (*i == 0 || !text[*i - 1].is_ascii_digit());
    let starts: Vec<usize> = (0..text.len()).filter(is_start).collect();
    if starts.is_empty() {
        return text.to_vec();
    }
    let start = rng.pick(&starts);
    let length = text[start..].iter().take_while(|byte| byte.is_ascii_digit()).count();
    let number = rng.pick(&NUMBERS);
    [&text[..start], number.as_bytes(), &text[start + length..]].concat()
}

/// The keys of the lines that hold items, with items of that line.
const ITEM_LINES: [(&str, &[&str]); 4] =
    [("inv=", &["x0<=2"]), ("when=", &["x0>=1"]), ("set=", &["v0:=v0+1"]), ("reset=", &["x0", "x0:=x1", "x1:=x0", "x0:=x0"])];

/// Adds one to five items to a line that holds items: either one item that fits
/// the line, again and again, or any items.
fn more_items(rng: &mut Rng, mut lines: Lines) -> Lines {
    let fitting = |line: &[u8]| {
        let key_of = |(key, _): &&(&str, &[&'static str])| line.starts_with(key.as_bytes());
        ITEM_LINES.iter().find(key_of).map(|(_, items)| *items)
    };
    let places: Vec<(usize, &[&str])> =
        (0..lines.len()).filter_map(|place| fitting(&lines[place]).map(|items| (place, items))).collect();
    if places.is_empty() {
        return lines;
    }
    let (place, items) = rng.pick(&places);
    let item = rng.pick(items);
    let same = !rng.one_in(3);
    for _ in 0..=rng.below(5) {
        let added = if same { item } else { rng.pick(&ITEMS) };
        add_item(&mut lines[place], added);
    }
    lines
}

/// Adds one item before the LF; the first one takes the place of a hyphen alone.
fn add_item(line: &mut Vec<u8>, item: &str) {
    let ended = line.ends_with(b"\n");
    if ended {
        line.pop();
    }
    if line.ends_with(b"=-") {
        line.pop();
    } else {
        line.push(b',');
    }
    line.extend(item.bytes());
    if ended {
        line.push(b'\n');
    }
}

/// Swaps two items of a line with several, or puts one in another's place or
/// before all.
fn moved_item(rng: &mut Rng, mut lines: Lines) -> Lines {
    let several = |line: &[u8]| line.contains(&b',') && !line.starts_with(b"var=");
    let places: Vec<usize> = (0..lines.len()).filter(|place| several(&lines[*place])).collect();
    if places.is_empty() {
        return lines;
    }
    let line = &mut lines[rng.pick(&places)];
    let text = String::from_utf8_lossy(line).into_owned();
    let (key, value) = text.trim_end_matches('\n').split_once('=').unwrap_or_default();
    let mut items: Vec<&str> = value.split(',').collect();
    let (one, other) = (rng.below(items.len()), rng.below(items.len()));
    match rng.below(4) {
        0 => items[one] = items[other],
        1 => items.insert(0, items[other]),
        _ => items.swap(one, other),
    }
    *line = format!("{key}={}\n", items.join(",")).into_bytes();
    lines
}

/// Gives a line another value.
fn other_value(rng: &mut Rng, mut lines: Lines) -> Lines {
    let place = rng.below(lines.len());
    let key_length = lines[place].iter().take_while(|byte| **byte != b'=').count();
    let mut line = lines[place][..key_length].to_vec();
    let value = if rng.one_in(2) { rng.pick(&ITEMS) } else { rng.pick(&NUMBERS) };
    line.push(b'=');
    line.extend(value.bytes());
    line.push(b'\n');
    lines[place] = line;
    lines
}

/// Puts something else in the place of a label line, once in four nothing.
fn other_label(rng: &mut Rng, mut lines: Lines) -> Lines {
    let places: Vec<usize> = (0..lines.len()).filter(|place| lines[*place].starts_with(b"label=")).collect();
    if places.is_empty() {
        return lines;
    }
    let place = rng.pick(&places);
    if rng.one_in(4) {
        lines.remove(place);
    } else {
        lines[place] = format!("{}\n", rng.pick(&LABELS)).into_bytes();
    }
    lines
}
