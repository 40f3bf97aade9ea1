//! `explain MODEL K VARIABLE..`: what a solver variable means, by the numbering of docs/MEANING.md. It is not proved; that the library's
//! lists and assignments are numbered so is tested.

use crate::command::sizes;
use crate::json::{Fields, Value};
use crate::report::{status, Report, Stop};
use crate::subject::{Part, Subject};

/// What a variable says when it is true.
#[derive(Clone, Copy, Debug, PartialEq, Eq)]
pub enum Meaning {
    /// In the state after so many steps the location is this.
    Location { state: usize, location: usize },
    /// There a counter has this value.
    Counter { state: usize, counter: usize, value: usize },
    /// There a clock shows this value.
    Clock { state: usize, clock: usize, value: usize },
    /// The step, counted from 1, is this delay.
    Delay { step: usize, ticks: usize },
    /// The step is this edge.
    Edge { step: usize, edge: usize },
}

/// What a variable, counted from 1, means in every list that has it: the numbering is the same for all bounds.
pub fn meaning(part: &Part, variable: usize) -> Option<Meaning> {
    let (state, choices) = (part.shape.state, part.shape.choices);
    let place = variable.checked_sub(1)?;
    if place < state {
        return in_state(part, 0, place);
    }
    // After state 0 come, for each step, its choice block and its state block.
    let (before, inner) = ((place - state) / (state + choices), (place - state) % (state + choices));
    let step = before + 1;
    if inner >= choices {
        return in_state(part, step, inner - choices);
    }
    Some(match inner.checked_sub(part.shape.ceiling + 1) {
        None => Meaning::Delay { step, ticks: inner },
        Some(edge) => Meaning::Edge { step, edge },
    })
}

/// A place in a state block: the locations, each counter's values, each clock's.
fn in_state(part: &Part, state: usize, place: usize) -> Option<Meaning> {
    let locations = usize::from(part.shape.locations);
    let mut rest = match place.checked_sub(locations) {
        None => return Some(Meaning::Location { state, location: place }),
        Some(rest) => rest,
    };
    for (counter, declared) in part.drawing.counters.iter().enumerate() {
        match rest.checked_sub(declared.greatest + 1) {
            None => return Some(Meaning::Counter { state, counter, value: rest }),
            Some(less) => rest = less,
        }
    }
    let values = part.shape.ceiling + 1;
    (rest / values < part.drawing.clocks).then(|| Meaning::Clock { state, clock: rest / values, value: rest % values })
}

/// A meaning in words.
fn words(part: &Part, meaning: Meaning) -> String {
    let Part { shape, drawing, names } = part;
    match meaning {
        Meaning::Location { state, location } => match names.location_name(location) {
            None => format!("state {}, location {}", state, location),
            Some(name) => format!("state {}, location {} {}", state, location, name),
        },
        Meaning::Counter { state, counter, value } => format!("state {}, {} = {}", state, names.counter(counter), value),
        Meaning::Clock { state, clock, value } => {
            let mark = if value == shape.ceiling { " or more" } else { "" };
            format!("state {}, {} = {}{}", state, names.clock(clock), value, mark)
        }
        Meaning::Delay { step, ticks } => format!("step {}, delay {}", step, ticks),
        Meaning::Edge { step, edge } => {
            let ends = &drawing.edges[edge];
            let (source, target) = (names.location(ends.source), names.location(ends.target));
            format!("step {}, {}: {} -> {}", step, names.edge(edge), source, target)
        }
    }
}

fn fields(variable: usize, meaning: Meaning, words: &str) -> Fields {
    let (kind, place, number) = match meaning {
        Meaning::Location { state, .. } => ("location", "state", state),
        Meaning::Counter { state, .. } => ("counter", "state", state),
        Meaning::Clock { state, .. } => ("clock", "state", state),
        Meaning::Delay { step, .. } => ("delay", "step", step),
        Meaning::Edge { step, .. } => ("edge", "step", step),
    };
    vec![("variable", variable.into()), ("kind", kind.into()), (place, number.into()), ("text", words.into())]
}

pub fn explained(subject: &Subject, bound: usize, numbers: &[usize]) -> Result<Report, Stop> {
    let most = sizes(&subject.model, bound)?.variables;
    let mut text = String::new();
    let mut list = Vec::new();
    for number in numbers {
        let meaning = meaning(&subject.whole, *number).filter(|_| *number <= most);
        let meaning = meaning.ok_or_else(|| {
            let message = format!("the list for bound {} has the variables 1 to {}, and not {}", bound, most, number);
            Stop::new(status::USAGE, message)
        })?;
        let words = words(&subject.whole, meaning);
        text.push_str(&format!("{}: {}\n", number, words));
        list.push(Value::Object(fields(*number, meaning, &words)));
    }
    Ok(Report { status: status::DONE, text, fields: vec![("bound", bound.into()), ("variables", Value::List(list))] })
}
