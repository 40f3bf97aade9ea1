//! What refusals 3 to 7 are about: the items of the refused line that are not of their form, out of range, not declared or set twice.
//! That a text is refused, and by which number, is the library's answer; what is said here of it is read from the text.

use crate::drawing::{Atom, Reset, Term, Value};
use crate::items;
use crate::limits::{ATOMS, CLOCKS, CLOCK_CONSTANT, COUNTERS, COUNTER_VALUE, EDGES, LABEL, LOCATIONS};
use crate::refused::{shown, value_of};

/// The most items of a line that are told.
const TOLD: usize = 4;
/// The longest part of an item that is shown, in bytes.
const SHOWN: usize = 40;

/// A sentence for each item of a line that a refusal 3 to 7 of the text is about.
pub fn hints(text: &[u8], line: &[u8], number: u8) -> Vec<String> {
    let line = line.strip_suffix(b"\r").unwrap_or(line);
    let (key, value) = match line.iter().position(|byte| *byte == b'=') {
        Some(place) => (String::from_utf8_lossy(&line[..place]), &line[place + 1..]),
        None => return Vec::new(),
    };
    // A value of the right form, as it is for all numbers but 3, is plain text.
    let plain = String::from_utf8_lossy(value);
    let mut found = match number {
        3 => malformed(&key, value),
        4 => out_of_range(&key, &plain),
        5 => undeclared(&key, &plain, text),
        6 => repeated(&key, &plain),
        7 => too_many(&key, &plain),
        _ => Vec::new(),
    };
    found.dedup();
    let more = found.len().saturating_sub(TOLD);
    found.truncate(TOLD);
    if more > 0 {
        found.push(format!("and {} more", more));
    }
    found
}

/// 3: items that are not of the form that their key asks for.
fn malformed(key: &str, value: &[u8]) -> Vec<String> {
    let list: Vec<&[u8]> = if value == b"-" { Vec::new() } else { value.split(|byte| *byte == b',').collect() };
    match key {
        "inv" => wrong(&list, |item| items::clock_atom(item).is_some(), "is not an atom of a clock, such as x0<=3"),
        "when" => wrong(&list, |item| items::atom(item).is_some(), "is not an atom, such as x0<=3 or v0!=1"),
        "set" => wrong(&list, |item| items::update(item).is_some(), "is not an update, such as v0:=1 or v0:=v1+0"),
        "reset" => {
            wrong(&list, |item| items::reset(item).is_some(), "is neither a clock, such as x0, nor a copy, such as x0:=x1")
        }
        "var" => wrong(&[value], |item| items::counter(item).is_some(), "is not a greatest and an initial value, such as 3,0"),
        _ => wrong(&[value], |item| items::number(item).is_some(), "is not a number of 1 to 3 digits without a leading zero"),
    }
}

fn wrong(items: &[&[u8]], is_right: impl Fn(&str) -> bool, told: &str) -> Vec<String> {
    let wrong = items.iter().filter(|item| !std::str::from_utf8(item).map_or(false, &is_right));
    let quoted = |item: &[u8]| match item {
        b"" => "an empty item".to_string(),
        _ => format!("`{}`", shown(item, SHOWN)),
    };
    wrong.map(|item| format!("{} {}", quoted(item), told)).collect()
}

/// 4: numbers above or below their range.
fn out_of_range(key: &str, value: &str) -> Vec<String> {
    let number = items::number(value).unwrap_or(0);
    let most = |what: &str, most: usize| match number > most {
        true => vec![format!("{} {}, and a model has at most {}", number, what, most)],
        false => Vec::new(),
    };
    match key {
        "locations" if number == 0 => vec!["0 locations, and a model has at least 1".to_string()],
        "locations" => most("locations", LOCATIONS),
        "clocks" => most("clocks", CLOCKS),
        "vars" => most("counters", COUNTERS),
        "edges" => most("edges", EDGES),
        "label" => above("", number, LABEL, "label").into_iter().collect(),
        "var" => counter_range(value),
        "inv" | "when" => each(value, |item| constant(&items::atom(item)?, item)),
        "set" => each(value, |item| summand(&items::update(item)?.1, item)),
        _ => Vec::new(),
    }
}

fn each(value: &str, told: impl Fn(&str) -> Option<String>) -> Vec<String> {
    value.split(',').filter_map(told).collect()
}

/// A number above the greatest of its kind, after the item that it stands in.
fn above(item: &str, number: usize, greatest: usize, kind: &str) -> Option<String> {
    let place = if item.is_empty() { String::new() } else { format!("{}: ", item) };
    (number > greatest).then(|| format!("{}{} is above {}, the greatest {}", place, number, greatest, kind))
}

fn counter_range(value: &str) -> Vec<String> {
    let counter = match items::counter(value) {
        Some(counter) => counter,
        None => return Vec::new(),
    };
    let initial = (counter.initial > counter.greatest)
        .then(|| format!("the initial value {} is above the greatest value {}", counter.initial, counter.greatest));
    above("", counter.greatest, COUNTER_VALUE, "value that a counter may have").into_iter().chain(initial).collect()
}

fn constant(atom: &Atom, item: &str) -> Option<String> {
    match atom.term {
        Term::Clock(_) => above(item, atom.constant, CLOCK_CONSTANT, "clock constant"),
        Term::Counter(_) => above(item, atom.constant, COUNTER_VALUE, "counter constant"),
    }
}

fn summand(value: &Value, item: &str) -> Option<String> {
    match value {
        Value::Constant(constant) => above(item, *constant, COUNTER_VALUE, "counter constant"),
        Value::Sum(_, offset) => above(item, offset.unsigned_abs(), COUNTER_VALUE, "offset"),
    }
}

/// 5: what is named and not declared, each once.
fn undeclared(key: &str, value: &str, text: &[u8]) -> Vec<String> {
    let declared = |line, key| value_of(text, line, key).unwrap_or(0);
    let (locations, clocks, counters) = (declared(1, "locations="), declared(4, "clocks="), declared(5, "vars="));
    if ["init", "target", "from", "to"].contains(&key) {
        let wrong = items::number(value).filter(|number| *number >= locations);
        let told = |number| format!("location {} is not declared: {}", number, told_locations(locations));
        return wrong.map(told).into_iter().collect();
    }
    let mut terms = Vec::new();
    for term in named(key, value) {
        let is_declared = match term {
            Term::Clock(index) => index < clocks,
            Term::Counter(index) => index < counters,
        };
        if !is_declared && !terms.contains(&term) {
            terms.push(term);
        }
    }
    let told = |term: &Term| match term {
        Term::Clock(_) => format!("{} is not declared: {}", term, told_terms(clocks, "clock", Term::Clock)),
        Term::Counter(_) => format!("{} is not declared: {}", term, told_terms(counters, "counter", Term::Counter)),
    };
    terms.iter().map(told).collect()
}

/// The clocks and counters that a line names, from left to right.
fn named(key: &str, value: &str) -> Vec<Term> {
    let of = |item: &str| -> Option<Vec<Term>> {
        Some(match key {
            "set" => match items::update(item)? {
                (counter, Value::Constant(_)) => vec![Term::Counter(counter)],
                (counter, Value::Sum(source, _)) => vec![Term::Counter(counter), Term::Counter(source)],
            },
            "reset" => match items::reset(item)? {
                (clock, Reset::Zero) => vec![Term::Clock(clock)],
                (clock, Reset::Copy(source)) => vec![Term::Clock(clock), Term::Clock(source)],
            },
            _ => vec![items::atom(item)?.term],
        })
    };
    value.split(',').filter_map(of).flatten().collect()
}

fn told_locations(count: usize) -> String {
    match count {
        1 => "the one location is 0".to_string(),
        _ => format!("the locations are 0 to {}", count.saturating_sub(1)),
    }
}

fn told_terms(count: usize, kind: &str, term: fn(usize) -> Term) -> String {
    match count {
        0 => format!("the model has no {}", kind),
        1 => format!("the model has 1 {}, {}", kind, term(0)),
        2 => format!("the model has 2 {}s, {} and {}", kind, term(0), term(1)),
        _ => format!("the model has {} {}s, {} to {}", count, kind, term(0), term(count - 1)),
    }
}

/// 6: counters that are set more than once, and clocks that do not rise.
fn repeated(key: &str, value: &str) -> Vec<String> {
    let again = |term: Term| format!("{} is set more than once", term);
    match key {
        "set" => {
            let updates = items::list(value, items::update).unwrap_or_default();
            let mut counters: Vec<usize> = updates.iter().map(|update| update.0).collect();
            counters.sort_unstable();
            let repeated = counters.windows(2).filter(|pair| pair[0] == pair[1]);
            repeated.map(|pair| again(Term::Counter(pair[0]))).collect()
        }
        "reset" => {
            let resets = items::list(value, items::reset).unwrap_or_default();
            let falling = resets.windows(2).map(|pair| (pair[0].0, pair[1].0)).filter(|(left, right)| left >= right);
            let told = |(left, right)| match left == right {
                true => again(Term::Clock(left)),
                false => format!("x{} stands after x{}, and the clocks that are set rise", right, left),
            };
            falling.map(told).collect()
        }
        _ => Vec::new(),
    }
}

/// 7: how many atoms there are.
fn too_many(key: &str, value: &str) -> Vec<String> {
    let whole = match key {
        "inv" => "an invariant",
        "when" => "a guard",
        _ => return Vec::new(),
    };
    let count = value.split(',').count();
    let told = (count > ATOMS).then(|| format!("{} atoms, and {} has at most {}", count, whole, ATOMS));
    told.into_iter().collect()
}

#[cfg(test)]
mod tests {
    use super::hints;

    /// What is said of a line with undeclared items, of a model that declares so many locations, clocks and counters.
    fn undeclared(line: &str, locations: usize, clocks: usize, counters: usize) -> Vec<String> {
        let text = format!("locations={locations}\ninit=0\ntarget=0\nclocks={clocks}\nvars={counters}\n");
        hints(text.as_bytes(), line.as_bytes(), 5)
    }

    #[test]
    fn what_is_declared_is_told_by_its_number() {
        assert_eq!(undeclared("to=1", 1, 0, 0), ["location 1 is not declared: the one location is 0"]);
        assert_eq!(undeclared("to=2", 2, 0, 0), ["location 2 is not declared: the locations are 0 to 1"]);
        assert_eq!(undeclared("inv=x0<1", 1, 0, 0), ["x0 is not declared: the model has no clock"]);
        assert_eq!(undeclared("when=v0<1", 1, 4, 0), ["v0 is not declared: the model has no counter"]);
        assert_eq!(undeclared("reset=x1,x2", 1, 2, 0), ["x2 is not declared: the model has 2 clocks, x0 and x1"]);
        assert_eq!(undeclared("set=v2:=v3+1", 1, 0, 3), ["v3 is not declared: the model has 3 counters, v0 to v2"]);
    }
}
