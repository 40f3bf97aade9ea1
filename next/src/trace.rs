//! The states that a run passes, as a table. The states come from the proved step call; the ends and labels of edges are read from the
//! text, which the proved reader has accepted, and names from the file beside it. Of two models that are composed (`parts`) the table
//! shows what each does.

use crate::library::State;
use crate::names::Names;
use crate::parts;
use crate::subject::{Part, Subject};
use crate::table::{self, Column};

/// A row: the choice that led here (none in the first row), its edge's label (0 if it is a delay), the state, and the ticks that have
/// passed.
#[derive(Clone, Copy, Debug, PartialEq, Eq)]
pub struct Row {
    pub choice: Option<u8>,
    pub label: u8,
    pub state: State,
    pub elapsed: usize,
}

/// The trace of a run, as far as it is allowed, and its bytes.
pub fn text(subject: &Subject, run: &[u8]) -> String {
    let rows = rows(subject, run);
    let table = match &subject.parts {
        None => table::text(&columns(&subject.whole, &rows)),
        Some(both) => parts::text(subject, both, &rows),
    };
    let bytes: String = run.iter().map(|byte| format!(" {}", byte)).collect();
    format!("{}step bytes:{}\n", table, bytes)
}

/// The rows of a run from the initial state up to its end, or up to its first step that is refused.
pub fn rows(subject: &Subject, run: &[u8]) -> Vec<Row> {
    let mut row = Row { choice: None, label: 0, state: subject.model.initial().state, elapsed: 0 };
    let mut rows = vec![row];
    for byte in run {
        let answer = subject.model.step(row.state, *byte);
        if answer.number != 0 {
            break;
        }
        // A delay of d is d ticks, at the ceiling too: only what clocks show is cut there.
        let (label, ticks) = match edge(subject.shape().ceiling, *byte) {
            None => (0, usize::from(*byte)),
            Some(edge) => (subject.whole.drawing.edges[edge].label as u8, 0),
        };
        row = Row { choice: Some(*byte), label, state: answer.state, elapsed: row.elapsed + ticks };
        rows.push(row);
    }
    rows
}

/// The edge that a step byte stands for; none for a delay.
pub fn edge(ceiling: usize, byte: u8) -> Option<usize> {
    usize::from(byte).checked_sub(ceiling + 1)
}

/// What a step byte stands for in a model: a delay, or an edge with its source and target.
pub fn choice(part: &Part, byte: u8) -> String {
    let ends = |edge: usize| {
        let drawn = part.drawing.edges.get(edge)?;
        Some(format!(": {} -> {}", part.names.location(drawn.source), part.names.location(drawn.target)))
    };
    match edge(part.shape.ceiling, byte) {
        None => format!("delay {}", byte),
        Some(edge) => format!("{}{}", part.names.edge(edge), ends(edge).unwrap_or_default()),
    }
}

/// A choice with the label that it bears; 0 means none.
pub fn labelled(choice: String, names: &Names, label: u8) -> String {
    match label {
        0 => choice,
        _ => format!("{}, {}", choice, names.label(usize::from(label))),
    }
}

/// What a clock shows: M has a mark, since it means M or more.
pub fn clock(ceiling: usize, value: u8) -> String {
    let mark = if usize::from(value) == ceiling { "+" } else { "" };
    format!("{}{}", value, mark)
}

/// The table of one model.
fn columns(part: &Part, rows: &[Row]) -> Vec<Column> {
    let taken = |row: &Row| row.choice.map_or("-".to_string(), |byte| labelled(choice(part, byte), &part.names, row.label));
    let mut columns = vec![steps(rows), Column::words("choice", rows.iter().map(taken))];
    columns.push(locations("location", &part.names, rows.iter().map(|row| row.state.location)));
    columns.extend(values(part, part.shape.ceiling, rows, (0, 0)));
    columns.push(elapsed(rows));
    columns
}

pub fn steps(rows: &[Row]) -> Column {
    Column::numbers("step", (0..rows.len()).map(|step| step.to_string()))
}

pub fn elapsed(rows: &[Row]) -> Column {
    Column::numbers("elapsed", rows.iter().map(|row| row.elapsed.to_string()))
}

/// Locations by name, or by number in a column of numbers if none has a name.
pub fn locations(heading: &str, names: &Names, locations: impl Iterator<Item = u8>) -> Column {
    let cells = locations.map(|location| names.location(usize::from(location)));
    match names.has_locations() {
        true => Column::words(heading, cells),
        false => Column::numbers(heading, cells),
    }
}

/// A column for each counter and each clock of a model, which stand in the states after so many of another. A clock at the ceiling has a
/// `+`.
pub fn values(part: &Part, ceiling: usize, rows: &[Row], (counters, clocks): (usize, usize)) -> Vec<Column> {
    let counter = |index: usize| {
        let cells = rows.iter().map(|row| row.state.counters[counters + index].to_string());
        Column::numbers(&part.names.counter(index), cells)
    };
    let clock_column = |index: usize| {
        let cells = rows.iter().map(|row| clock(ceiling, row.state.clocks[clocks + index]));
        Column::numbers(&part.names.clock(index), cells)
    };
    let counted = (0..part.drawing.counters.len()).map(counter);
    counted.chain((0..part.drawing.clocks).map(clock_column)).collect()
}

#[cfg(test)]
mod tests {
    use super::{choice, clock, columns, labelled, Row};
    use crate::library::State;
    use crate::model::{Model, Text};
    use crate::subject::Subject;
    use crate::table;

    /// A model of two locations, two counters and two clocks, whose ceiling is 4.
    fn subject() -> Subject {
        let edge = |ends: &str| format!("{}label=0\nwhen=x0>3\nset=-\nreset=-\n", ends);
        let head = "locations=2\ninit=0\ntarget=1\nclocks=2\nvars=2\nvar=31,4\nvar=31,0\ninv=-\ninv=-\nedges=2\n";
        let text = format!("{}{}{}", head, edge("from=0\nto=1\n"), edge("from=1\nto=1\n"));
        let text = Text { path: "-".into(), name: "-".to_string(), bytes: text.into_bytes() };
        Subject::of(Model::One(text)).unwrap_or_else(|stop| panic!("{}", stop.message))
    }

    #[test]
    fn step_bytes_are_delays_up_to_the_ceiling_and_then_edges() {
        let whole = subject().whole;
        let choices: Vec<String> = [0, 4, 5, 6].iter().map(|byte| choice(&whole, *byte)).collect();
        assert_eq!(choices, ["delay 0", "delay 4", "edge 0: 0 -> 1", "edge 1: 1 -> 1"]);
        assert_eq!(labelled("edge 0".to_string(), &whole.names, 0), "edge 0");
        assert_eq!(labelled("edge 0".to_string(), &whole.names, 15), "edge 0, label 15");
    }

    #[test]
    fn a_clock_at_the_ceiling_is_marked_and_a_counter_is_not() {
        assert_eq!([clock(4, 3), clock(4, 4), clock(31, 31)], ["3", "4+", "31+"]);
        let row = |choice, location, counters, clocks, elapsed| {
            let state = State { location, counters, clocks };
            Row { choice, label: 0, state, elapsed }
        };
        let rows = [
            row(None, 0, [4, 0, 0, 0], [0, 3, 0, 0], 0),
            row(Some(4), 0, [4, 31, 0, 0], [4, 4, 0, 0], 4),
            row(Some(5), 1, [4, 31, 0, 0], [4, 4, 0, 0], 4),
        ];
        let expected = "step  choice          location  v0  v1  x0  x1  elapsed\n\
                        \u{20}  0  -                      0   4   0   0   3        0\n\
                        \u{20}  1  delay 4                0   4  31  4+  4+        4\n\
                        \u{20}  2  edge 0: 0 -> 1         1   4  31  4+  4+        4\n";
        assert_eq!(table::text(&columns(&subject().whole, &rows)), expected);
    }
}
