//! Why a run is none: which of source, guard, range or invariant keeps a step from being taken, and by which values. That a step is
//! refused is the proved call's answer; the reasons are found here from the drawing, and are tested against that call.

use crate::drawing::{Atom, Drawing, Edge, Reset, Term, Value};
use crate::library::{Answer, State};
use crate::subject::{Part, Subject};
use crate::trace::{self, clock, edge};

/// What counters and clocks show, or would show.
struct Values {
    counters: Vec<isize>,
    clocks: Vec<usize>,
}

impl Values {
    fn of(state: &State, drawing: &Drawing) -> Values {
        let counters = state.counters.iter().take(drawing.counters.len()).map(|value| *value as isize).collect();
        let clocks = state.clocks.iter().take(drawing.clocks).map(|value| usize::from(*value)).collect();
        Values { counters, clocks }
    }

    fn initial(drawing: &Drawing) -> Values {
        let counters = drawing.counters.iter().map(|counter| counter.initial as isize).collect();
        Values { counters, clocks: vec![0; drawing.clocks] }
    }

    fn delayed(mut self, ticks: usize, ceiling: usize) -> Values {
        self.clocks.iter_mut().for_each(|value| *value = ceiling.min(*value + ticks));
        self
    }

    /// After an edge: updates in their written order, copies of clocks from the values before.
    fn moved(mut self, edge: &Edge) -> Values {
        for (counter, value) in &edge.updates {
            self.counters[*counter] = match value {
                Value::Constant(constant) => *constant as isize,
                Value::Sum(source, offset) => self.counters[*source] + offset,
            };
        }
        let before = self.clocks.clone();
        for (clock, reset) in &edge.resets {
            self.clocks[*clock] = match reset {
                Reset::Zero => 0,
                Reset::Copy(source) => before[*source],
            };
        }
        self
    }
}

/// Why a walk was refused with 27 to 30; nothing for another number.
pub fn of_walk(subject: &Subject, run: &[u8], answer: Answer) -> Vec<String> {
    let part = &subject.whole;
    let state_after = |steps: usize| trace::rows(subject, &run[..steps]).last().map_or_else(State::default, |row| row.state);
    match answer.number {
        27 | 28 => step(part, &state_after(answer.place - 1), run[answer.place - 1]),
        29 => initial(part),
        30 => vec![elsewhere(part, usize::from(state_after(run.len()).location))],
        _ => Vec::new(),
    }
}

/// All that keeps a step byte from being taken in a state: nothing exactly if it is allowed.
pub fn step(part: &Part, state: &State, byte: u8) -> Vec<String> {
    let values = Values::of(state, &part.drawing);
    let location = usize::from(state.location);
    match (edge(part.shape.ceiling, byte), usize::from(byte) < part.shape.choices) {
        (_, false) => vec![no_choice(part, byte)],
        (None, _) => {
            let after = values.delayed(usize::from(byte), part.shape.ceiling);
            invariant(part, location, &after, "would be")
        }
        (Some(edge), _) => move_faults(part, location, values, &part.drawing.edges[edge]),
    }
}

/// The atoms of the initial location's invariant that fail.
pub fn initial(part: &Part) -> Vec<String> {
    invariant(part, part.drawing.initial, &Values::initial(&part.drawing), "is")
}

fn elsewhere(part: &Part, location: usize) -> String {
    format!("the run ends in {}, and the target is {}", part.names.place(location), part.names.place(part.drawing.target))
}

fn no_choice(part: &Part, byte: u8) -> String {
    let (first, edges) = (part.shape.ceiling + 1, part.drawing.edges.len());
    let told = match edges {
        0 => "and there is no edge".to_string(),
        1 => format!("{} is the edge", first),
        _ => format!("{} to {} edges", first, first + edges - 1),
    };
    format!("byte {} stands for nothing: 0 to {} are delays, {}", byte, part.shape.ceiling, told)
}

/// If the source is another, the rest says nothing of the run.
fn move_faults(part: &Part, location: usize, before: Values, edge: &Edge) -> Vec<String> {
    if edge.source != location {
        let (source, here) = (part.names.place(edge.source), part.names.place(location));
        return vec![format!("the edge goes from location {}, and the run is in {}", source, here)];
    }
    let mut faults: Vec<String> =
        failing(part, &edge.guard, &before, "is").iter().map(|fault| format!("guard: {}", fault)).collect();
    let after = before.moved(edge);
    faults.extend(edge.updates.iter().filter_map(|(counter, _)| range(part, *counter, after.counters[*counter])));
    faults.extend(invariant(part, edge.target, &after, "would be"));
    faults
}

fn range(part: &Part, counter: usize, value: isize) -> Option<String> {
    let greatest = part.drawing.counters[counter].greatest;
    let would = || format!("range: {} would be {}, and its", part.names.counter(counter), value);
    match value {
        _ if value < 0 => Some(format!("{} least value is 0", would())),
        _ if value > greatest as isize => Some(format!("{} greatest value is {}", would(), greatest)),
        _ => None,
    }
}

fn invariant(part: &Part, location: usize, values: &Values, is: &str) -> Vec<String> {
    let name = part.names.location_name(location).map_or_else(|| format!("location {}", location), str::to_string);
    let failing = failing(part, &part.drawing.invariants[location], values, is);
    failing.iter().map(|fault| format!("invariant of {}: {}", name, fault)).collect()
}

/// The atoms that do not hold, each with the value that it is about.
fn failing(part: &Part, atoms: &[Atom], values: &Values, is: &str) -> Vec<String> {
    let fault = |atom: &Atom| {
        let (value, shown) = match atom.term {
            Term::Clock(index) => (values.clocks[index], clock(part.shape.ceiling, values.clocks[index] as u8)),
            Term::Counter(index) => (values.counters[index] as usize, values.counters[index].to_string()),
        };
        let told = || format!("{} fails, {} {} {}", part.names.atom(atom), part.names.term(atom.term), is, shown);
        (!atom.relation.holds(value, atom.constant)).then(told)
    };
    atoms.iter().filter_map(fault).collect()
}
