//! The trace of two models that are composed: for each step what each of them does and where it stands, in its own numbers and names. What
//! a step is for each part is told by the proved call; that location (i, j) is i times the second's locations plus j, and that the second's
//! counters and clocks stand after the first's, is used here to take a state apart.

use crate::library::{self, PartSteps, STAYS};
use crate::model::Model;
use crate::subject::{Part, Subject};
use crate::table::{self, Column};
use crate::trace::{choice, edge, elapsed, labelled, locations, steps, values, Row};

/// What a step byte of the composed model is for each part; none of one model.
pub fn part_steps(model: &Model, byte: u8) -> Option<PartSteps> {
    match model {
        Model::One(_) => None,
        Model::Two(first, second) => Some(library::pair_parts(&first.bytes, &second.bytes, byte)),
    }
}

/// What a part does, in its own numbers and names.
pub fn part_choice(part: &Part, byte: u8) -> String {
    match byte {
        STAYS => "stays".to_string(),
        _ => choice(part, byte),
    }
}

/// What a step byte of the composed model stands for: a delay, or an edge by its number alone, and the label.
pub fn joint_choice(whole: &Part, byte: u8, label: u8) -> String {
    match edge(whole.shape.ceiling, byte) {
        None => choice(whole, byte),
        Some(edge) => labelled(whole.names.edge(edge), &whole.names, label),
    }
}

/// The rows of a run of two models, under the names of their files and a line of headings.
pub fn text(subject: &Subject, (first, second): &(Part, Part), rows: &[Row]) -> String {
    let told: Vec<Option<PartSteps>> =
        rows.iter().map(|row| row.choice.and_then(|byte| part_steps(&subject.model, byte))).collect();
    let files = match &subject.model {
        Model::One(text) => format!("{}\n", text.name),
        Model::Two(first, second) => format!("first: {}; second: {}\n", first.name, second.name),
    };
    files + &table::text(&columns(&subject.whole, (first, second), rows, &told))
}

fn columns(whole: &Part, (first, second): (&Part, &Part), rows: &[Row], told: &[Option<PartSteps>]) -> Vec<Column> {
    let taken = |row: &Row| row.choice.map_or("-".to_string(), |byte| joint_choice(whole, byte, row.label));
    let own = |part, byte: Option<u8>| byte.map_or("-".to_string(), |byte| part_choice(part, byte));
    let places = |of: fn(u8, u8) -> u8| rows.iter().map(move |row| of(row.state.location, second.shape.locations));
    let ceiling = whole.shape.ceiling;
    let mut columns = vec![steps(rows), Column::words("choice", rows.iter().map(taken))];
    columns.push(Column::numbers("location", rows.iter().map(|row| row.state.location.to_string())));
    columns.push(Column::words("first", told.iter().map(|steps| own(first, steps.map(|steps| steps.first)))));
    columns.push(locations("at", &first.names, places(|location, count| location / count)));
    columns.extend(values(first, ceiling, rows, (0, 0)));
    columns.push(Column::words("second", told.iter().map(|steps| own(second, steps.map(|steps| steps.second)))));
    columns.push(locations("at", &second.names, places(|location, count| location % count)));
    columns.extend(values(second, ceiling, rows, (first.drawing.counters.len(), first.drawing.clocks)));
    columns.push(elapsed(rows));
    columns
}
