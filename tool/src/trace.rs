//! The states that a run passes, as a table. The states come from the proved step call; the labels of edges are read from the text,
//! which the proved reader has accepted. Of two models that are composed (`parts`) the table shows what each does.

use crate::library::{self, Shape, State, STAYS};
use crate::model::Model;

/// A row: the choice that led here (none in the first row), its edge's label (0 if it is a delay), the state, and the ticks that have
/// passed.
#[derive(Clone, Copy, Debug, PartialEq, Eq)]
pub struct Row {
    pub choice: Option<u8>,
    pub label: u8,
    pub state: State,
    pub elapsed: usize,
}

/// The rows of a run from the initial state up to its end, or up to its first step that is refused.
pub fn rows(model: &Model, shape: &Shape, run: &[u8]) -> Vec<Row> {
    let mut row = Row { choice: None, label: 0, state: model.initial().state, elapsed: 0 };
    let mut rows = vec![row];
    for byte in run {
        let answer = model.step(row.state, *byte);
        if answer.number != 0 {
            break;
        }
        // A delay of d is d ticks, at the ceiling too: only what clocks show is cut there.
        let (label, ticks) = match edge(shape.ceiling, *byte) {
            None => (0, usize::from(*byte)),
            Some(edge) => (label_of(model, edge, *byte), 0),
        };
        row = Row { choice: Some(*byte), label, state: answer.state, elapsed: row.elapsed + ticks };
        rows.push(row);
    }
    rows
}

/// The edge that a step byte stands for; none for a delay.
pub fn edge(ceiling: usize, byte: u8) -> Option<usize> {
    usize::from(byte).checked_sub(ceiling + 1)
}

/// The label of an edge of the model, and of a composed one that of the part that moves: both have the same if both do.
fn label_of(model: &Model, number: usize, byte: u8) -> u8 {
    let own = |text: &[u8], byte| edge(library::shape(text).ceiling, byte).map_or(0, |number| label(text, number));
    match model {
        Model::One(text) => label(&text.bytes, number),
        Model::Two(first, second) => match library::pair_parts(&first.bytes, &second.bytes, byte) {
            steps if steps.first == STAYS => own(&second.bytes, steps.second),
            steps => own(&first.bytes, steps.first),
        },
    }
}

/// The label of an edge in a text that is accepted: it has a `label=` line for each edge, in their order.
fn label(text: &[u8], edge: usize) -> u8 {
    let mut values = text.split(|byte| *byte == b'\n').filter_map(|line| line.strip_prefix(b"label="));
    let value = values.nth(edge).and_then(|value| std::str::from_utf8(value).ok());
    value.and_then(|number| number.parse().ok()).unwrap_or(0)
}

/// What a step byte stands for, with the label of an edge that is not private.
pub fn choice(ceiling: usize, byte: u8, label: u8) -> String {
    match (edge(ceiling, byte), label) {
        (None, _) => format!("delay {}", byte),
        (Some(edge), 0) => format!("edge {}", edge),
        (Some(edge), label) => format!("edge {}, label {}", edge, label),
    }
}

/// The rows under a line of headings, in columns. A clock at the ceiling has a `+`.
pub fn table(shape: &Shape, rows: &[Row]) -> String {
    let mut lines = vec![headings(shape)];
    lines.extend(rows.iter().enumerate().map(|(step, row)| cells(shape, step, row)));
    aligned(&lines, &[1])
}

fn headings(shape: &Shape) -> Vec<String> {
    let mut line = vec!["step".to_string(), "choice".to_string(), "location".to_string()];
    line.extend((0..shape.counters).map(|index| format!("v{}", index)));
    line.extend((0..shape.clocks).map(|index| format!("x{}", index)));
    line.push("elapsed".to_string());
    line
}

fn cells(shape: &Shape, step: usize, row: &Row) -> Vec<String> {
    let choice = row.choice.map_or("-".to_string(), |byte| choice(shape.ceiling, byte, row.label));
    let mut line = vec![step.to_string(), choice, row.state.location.to_string()];
    let counters = row.state.counters.iter().take(usize::from(shape.counters));
    line.extend(counters.map(|value| value.to_string()));
    let clocks = row.state.clocks.iter().take(usize::from(shape.clocks));
    line.extend(clocks.map(|value| clock(shape.ceiling, *value)));
    line.push(row.elapsed.to_string());
    line
}

pub fn clock(ceiling: usize, value: u8) -> String {
    let mark = if usize::from(value) == ceiling { "+" } else { "" };
    format!("{}{}", value, mark)
}

/// Lines of as many cells each, two spaces apart: choices, in the columns named, to the left of theirs, numbers to the right.
pub fn aligned(lines: &[Vec<String>], choices: &[usize]) -> String {
    let widths: Vec<usize> =
        (0..lines[0].len()).map(|column| lines.iter().map(|line| line[column].len()).max().unwrap_or(0)).collect();
    lines.iter().map(|line| joined(line, &widths, choices)).collect()
}

fn joined(line: &[String], widths: &[usize], choices: &[usize]) -> String {
    let padded: Vec<String> = line
        .iter()
        .zip(widths)
        .enumerate()
        .map(|(column, (cell, width))| match choices.contains(&column) {
            true => format!("{:<1$}", cell, *width),
            false => format!("{:>1$}", cell, *width),
        })
        .collect();
    format!("{}\n", padded.join("  "))
}

#[cfg(test)]
mod tests {
    use super::{choice, label, table, Row};
    use crate::library::{Shape, State};

    fn shape(counters: u8, clocks: u8, ceiling: usize) -> Shape {
        Shape { clocks, counters, ceiling, ..Shape::default() }
    }

    fn row(choice: Option<u8>, location: u8, counters: [u8; 4], clocks: [u8; 4], elapsed: usize) -> Row {
        Row { choice, label: 0, state: State { location, counters, clocks }, elapsed }
    }

    #[test]
    fn step_bytes_are_delays_up_to_the_ceiling_and_then_edges() {
        assert_eq!(choice(4, 0, 0), "delay 0");
        assert_eq!(choice(4, 4, 0), "delay 4");
        assert_eq!(choice(4, 5, 0), "edge 0");
        assert_eq!(choice(31, 63, 0), "edge 31");
    }

    #[test]
    fn labels_other_than_0_stand_beside_their_edges() {
        assert_eq!(choice(4, 5, 1), "edge 0, label 1");
        assert_eq!(choice(31, 63, 15), "edge 31, label 15");
        let rows = [row(None, 0, [0; 4], [0; 4], 0), Row { label: 9, ..row(Some(2), 1, [0; 4], [0; 4], 0) }];
        let expected = "step  choice           location  elapsed\n\
                        \u{20}  0  -                       0        0\n\
                        \u{20}  1  edge 0, label 9         1        0\n";
        assert_eq!(table(&shape(0, 0, 1), &rows), expected);
    }

    #[test]
    fn each_edge_has_the_label_of_its_own_line() {
        let text = b"edges=3\nfrom=0\nto=0\nlabel=15\nwhen=-\nfrom=1\nto=1\nlabel=0\nwhen=-\nfrom=2\nto=2\nlabel=7\n";
        assert_eq!([0, 1, 2, 3].map(|edge| label(text, edge)), [15, 0, 7, 0]);
    }

    #[test]
    fn columns_are_as_many_as_declared() {
        let rows = [row(None, 0, [0; 4], [0; 4], 0), row(Some(2), 1, [0; 4], [0; 4], 0)];
        let expected = "step  choice  location  elapsed\n   0  -              0        0\n   1  edge 0         1        0\n";
        assert_eq!(table(&shape(0, 0, 1), &rows), expected);
    }

    #[test]
    fn a_clock_at_the_ceiling_is_marked_and_a_counter_is_not() {
        let rows = [row(None, 0, [4, 0, 0, 0], [0, 3, 0, 0], 0), row(Some(4), 15, [4, 31, 0, 0], [4, 4, 0, 0], 4)];
        let expected = "step  choice   location  v0  v1  x0  x1  elapsed\n\
                        \u{20}  0  -               0   4   0   0   3        0\n\
                        \u{20}  1  delay 4        15   4  31  4+  4+        4\n";
        assert_eq!(table(&shape(2, 2, 4), &rows), expected);
    }
}
