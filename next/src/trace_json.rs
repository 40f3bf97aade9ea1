//! A model's head and a run's trace as JSON (next/docs/JSON.md). The states come from the proved step call, and what a step is for each of two
//! models from the proved call for it; names, and what an edge leads from and to, are read off the texts.

use crate::json::{Fields, Value};
use crate::library::{State, STAYS};
use crate::model::Model;
use crate::parts::part_steps;
use crate::subject::{Part, Subject};
use crate::trace::{self, Row};

/// What a model declares, once for each answer: so a reader of the answer needs no model file.
pub fn model(subject: &Subject) -> Value {
    let mut fields: Fields = vec![("files", files(&subject.model))];
    fields.extend(declared(&subject.whole));
    let parts = subject.parts.as_ref().map(|(first, second)| Value::list([first, second], declared));
    fields.push(("parts", parts.into()));
    fields.into()
}

/// The names of the model files.
pub fn files(model: &Model) -> Value {
    let texts = match model {
        Model::One(text) => vec![text],
        Model::Two(first, second) => vec![first, second],
    };
    Value::list(texts, |text| text.name.as_str())
}

fn declared(part: &Part) -> Fields {
    let Part { drawing, names, shape, .. } = part;
    vec![
        ("locations", Value::list(0..drawing.locations(), |index| names.location_name(index))),
        ("initial", drawing.initial.into()),
        ("target", drawing.target.into()),
        ("clocks", Value::list(0..drawing.clocks, |index| names.clock(index))),
        ("counters", Value::list(0..drawing.counters.len(), |index| names.counter(index))),
        ("edges", drawing.edges.len().into()),
        ("ceiling", shape.ceiling.into()),
    ]
}

/// A run that was found, if one was: its step bytes and its trace.
pub fn found(subject: &Subject, run: Option<&[u8]>) -> Fields {
    vec![("run", run.map(bytes).into()), ("trace", run.map(|run| fields(subject, run)).into())]
}

/// The step bytes of a run.
pub fn bytes(run: &[u8]) -> Value {
    Value::list(run, |byte| *byte)
}

/// The trace of a run, an object for each state from the initial one up to the end, or up to the first step that is refused.
pub fn fields(subject: &Subject, run: &[u8]) -> Value {
    let rows = trace::rows(subject, run);
    Value::list(rows.iter().enumerate(), |(step, row)| fields_of_row(subject, step, row))
}

fn fields_of_row(subject: &Subject, step: usize, row: &Row) -> Fields {
    let whole = Own::of(&subject.whole, &row.state, usize::from(row.state.location), (0, 0));
    let mut fields: Fields = vec![("step", step.into())];
    fields.extend(whole.fields(row.choice, subject.shape().ceiling));
    fields.push(("elapsed", row.elapsed.into()));
    fields.push(("parts", parts(subject, row).into()));
    fields
}

/// What each of two models does in a step and where it is, in its own numbers. Location (i, j) is i times the second's locations plus j,
/// and the second's counters and clocks stand after the first's.
fn parts(subject: &Subject, row: &Row) -> Option<Value> {
    let (first, second) = subject.parts.as_ref()?;
    let steps = row.choice.and_then(|byte| part_steps(&subject.model, byte));
    let (location, count) = (usize::from(row.state.location), second.drawing.locations());
    let before = (first.drawing.counters.len(), first.drawing.clocks);
    let (one, other) =
        (Own::of(first, &row.state, location / count, (0, 0)), Own::of(second, &row.state, location % count, before));
    let ceiling = subject.shape().ceiling;
    Some(Value::List(vec![
        one.fields(steps.map(|steps| steps.first), ceiling).into(),
        other.fields(steps.map(|steps| steps.second), ceiling).into(),
    ]))
}

/// The part of a state that is one model's own.
struct Own<'a> {
    part: &'a Part,
    location: usize,
    counters: &'a [u8],
    clocks: &'a [u8],
}

impl<'a> Own<'a> {
    /// The counters and clocks that the part declares, after some that stand before them.
    fn of(part: &'a Part, state: &'a State, location: usize, (counters, clocks): (usize, usize)) -> Own<'a> {
        Own {
            part,
            location,
            counters: &state.counters[counters..counters + part.drawing.counters.len()],
            clocks: &state.clocks[clocks..clocks + part.drawing.clocks],
        }
    }

    fn fields(&self, byte: Option<u8>, ceiling: usize) -> Fields {
        vec![
            ("byte", byte.filter(|byte| *byte != STAYS).into()),
            ("choice", byte.map(|byte| choice(self.part, byte)).into()),
            ("location", self.location.into()),
            ("location_name", self.part.names.location_name(self.location).into()),
            ("counters", bytes(self.counters)),
            ("clocks", bytes(self.clocks)),
            ("clocks_at_ceiling", Value::list(self.clocks, |clock| usize::from(*clock) == ceiling)),
        ]
    }
}

/// What a step byte stands for, in the numbers of the model that takes it.
fn choice(part: &Part, byte: u8) -> Fields {
    match (byte, trace::edge(part.shape.ceiling, byte)) {
        (STAYS, _) => vec![("kind", "stays".into())],
        (_, None) => vec![("kind", "delay".into()), ("ticks", byte.into())],
        (_, Some(index)) => {
            let edge = &part.drawing.edges[index];
            vec![
                ("kind", "edge".into()),
                ("edge", index.into()),
                ("name", part.names.edge_name(index).into()),
                ("source", edge.source.into()),
                ("target", edge.target.into()),
                ("label", edge.label.into()),
                ("label_name", part.names.label_name(edge.label).into()),
            ]
        }
    }
}
