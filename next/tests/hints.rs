//! What is said of refusals 3 to 7 of a text, beside the proved reader: changed lines of generated texts. What an item is said to be guilty
//! of is what the reader refuses, and what the reader tests before it is not said.

mod common;

use common::generated::{text, Random};
use wirdoku_next::{faulty, library};

/// The order in which a line is tested, after its key.
const ORDER: [u8; 5] = [3, 7, 4, 5, 6];

/// The text with one line changed after its `=`, and that line's number.
fn changed(random: &mut Random) -> (Vec<u8>, usize) {
    let text = text(random);
    let mut lines: Vec<Vec<u8>> = text.lines().map(|line| line.as_bytes().to_vec()).collect();
    let place = random.below(lines.len());
    let line = &mut lines[place];
    let start = line.iter().position(|byte| *byte == b'=').unwrap() + 1;
    let mut value = line.split_off(start);
    for _ in 0..=random.below(3) {
        value = match random.below(4) {
            0 => edited(random, value),
            1 => renumbered(random, value),
            2 => longer(random, value),
            _ => shuffled(random, value),
        };
    }
    line.extend(value);
    let mut text = lines.join(&b'\n');
    text.push(b'\n');
    (text, place + 1)
}

/// A byte put in, taken out or changed.
fn edited(random: &mut Random, mut value: Vec<u8>) -> Vec<u8> {
    let byte = random.pick(b"0123456789xv<>=!:+-, a\xff");
    let place = random.below(value.len() + 1);
    match random.below(3) {
        0 => value.insert(place, byte),
        1 if place < value.len() => drop(value.remove(place)),
        _ if place < value.len() => value[place] = byte,
        _ => value.push(byte),
    }
    value
}

/// A digit in place of which another number stands.
fn renumbered(random: &mut Random, mut value: Vec<u8>) -> Vec<u8> {
    let digits: Vec<usize> = (0..value.len()).filter(|place| value[*place].is_ascii_digit()).collect();
    if !digits.is_empty() {
        let place = random.pick(&digits);
        let number = random.pick(&[0, 1, 2, 4, 5, 15, 16, 17, 30, 31, 32, 33, 100, 999]).to_string();
        value.splice(place..=place, number.into_bytes());
    }
    value
}

/// Some item more, which is right for some key.
fn longer(random: &mut Random, mut value: Vec<u8>) -> Vec<u8> {
    let item =
        random.pick(&["x0<=3", "x1>1", "x2=0", "v0!=1", "v3<2", "v0:=1", "v1:=v0+1", "v0:=v2-3", "x0", "x1", "x1:=x0", "x0:=x3"]);
    match value == b"-" {
        true => value = item.as_bytes().to_vec(),
        false => value.extend(format!(",{}", item).into_bytes()),
    }
    value
}

/// The items from right to left, or each several times.
fn shuffled(random: &mut Random, value: Vec<u8>) -> Vec<u8> {
    let items: Vec<&[u8]> = value.split(|byte| *byte == b',').collect();
    match random.below(3) {
        0 => vec![&items[..]; 2 + random.below(4)].concat().join(&b','),
        1 => items.iter().rev().copied().chain([items[0]]).collect::<Vec<_>>().join(&b','),
        _ => items.iter().rev().copied().collect::<Vec<_>>().join(&b','),
    }
}

#[test]
fn hints_are_given_for_what_the_reader_refuses() {
    let mut random = Random::new(6);
    let mut met = [0; 8];
    for _ in 0..60_000 {
        let (text, line) = changed(&mut random);
        let answer = library::read(&text);
        let found = text.split(|byte| *byte == b'\n').nth(line - 1).unwrap();
        let told = |number| faulty::hints(&text, found, number);
        // A changed number of locations, counters or edges may show in a later line.
        if answer.number != 0 && answer.place != line {
            continue;
        }
        let place = ORDER.iter().position(|number| *number == answer.number).unwrap_or(ORDER.len());
        for earlier in &ORDER[..place] {
            assert_eq!(told(*earlier), Vec::<String>::new(), "{:?}: {}", answer, String::from_utf8_lossy(&text));
        }
        if place < ORDER.len() {
            let hints = told(answer.number);
            assert!((1..=5).contains(&hints.len()), "{:?}: {:?}: {}", answer, hints, String::from_utf8_lossy(&text));
        }
        met[usize::from(answer.number)] += 1;
    }
    assert!([0, 3, 4, 5, 6, 7].iter().all(|number| met[*number] > 300), "{:?}", met);
}
