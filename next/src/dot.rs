//! `dot`: the drawing as a Graphviz graph, with a run's path marked.

use crate::command::{accepted, steps};
use crate::drawing::{Atom, Edge, Reset, Value};
use crate::explain;
use crate::library::STAYS;
use crate::model::Model;
use crate::names::Names;
use crate::parts::part_steps;
use crate::path::Path;
use crate::report::{status, Report, Stop};
use crate::subject::{Part, Subject};
use crate::trace::edge;

/// The colours of a run's path, which differ from the rest in grey too.
const LINE: &str = "#0b4f8a";
const FILLED: &str = "#dceaf7";
/// The longest line of a label and of the words below the graph, in characters, where it can be broken.
const LABEL: usize = 40;
const CAPTION: usize = 60;

/// What all graphs have.
const HEAD: &str = "\
digraph wirdoku {
    graph [rankdir=TB, nodesep=0.5, ranksep=0.4, fontname=\"Helvetica\", fontsize=12]
    node [shape=box, style=\"rounded,filled\", fillcolor=white, fontname=\"Helvetica\", fontsize=12, margin=\"0.2,0.1\"]
    edge [fontname=\"Helvetica\", fontsize=11, arrowsize=0.8]
    start [shape=point, width=0.12, fillcolor=black]
";

/// The graph; with steps the exit status is that of `walk`, and the path is marked as far as it is allowed.
pub fn dot(subject: &Subject, run: &[u8]) -> Result<Report, Stop> {
    let none = Path::none(&subject.whole.drawing);
    let (status, path, verdict) = match (run, subject.model.walk(run)) {
        ([], _) => (status::DONE, none, None),
        (_, answer) => {
            let refusal = || format!("no run into the target: {}", explain::refusal(answer.number, answer.place));
            match answer.number {
                0 => (status::RUN, Path::of(subject, run), Some(format!("a run of {} into the target", steps(run.len())))),
                29 => (status::NO_RUN, none, Some(refusal())),
                27..=30 => (status::NO_RUN, Path::of(subject, run), Some(refusal())),
                number => return Err(accepted(&subject.model, number, answer.place).unwrap_err()),
            }
        }
    };
    Ok(Report { status, text: graph(subject, &path, verdict), fields: Vec::new() })
}

fn graph(subject: &Subject, path: &Path, verdict: Option<String>) -> String {
    let drawing = &subject.whole.drawing;
    let shown = shown(subject);
    let mut text = HEAD.to_string();
    text.push_str(&caption(&subject.model, verdict));
    for location in (0..drawing.locations()).filter(|location| shown[*location]) {
        text.push_str(&node(&subject.whole, path, location));
    }
    text.push_str(&format!("    start -> {}\n", drawing.initial));
    for (index, edge) in drawing.edges.iter().enumerate().filter(|(_, edge)| shown[edge.source]) {
        text.push_str(&arrow(subject, &path.taken[index], index, edge));
    }
    text.push_str("}\n");
    text
}

/// The locations that are shown: of one model all; of two those that edges lead to from the initial one, since no run meets the others.
fn shown(subject: &Subject) -> Vec<bool> {
    let drawing = &subject.whole.drawing;
    let mut shown = vec![subject.parts.is_none(); drawing.locations()];
    let mut open = vec![drawing.initial];
    while let Some(location) = open.pop() {
        if !std::mem::replace(&mut shown[location], true) {
            open.extend(drawing.edges.iter().filter(|edge| edge.source == location).map(|edge| edge.target));
        }
    }
    shown
}

/// A line below the graph: which two models it shows, and what the run is. It begins with an empty line, for a distance.
fn caption(model: &Model, verdict: Option<String>) -> String {
    let mut lines = vec![String::new()];
    if let Model::Two(first, second) = model {
        lines.extend([format!("first: {}", first.name), format!("second: {}", second.name)]);
    }
    lines.extend(verdict.map(|verdict| broken(&verdict.split(' ').collect::<Vec<_>>(), " ", CAPTION)).unwrap_or_default());
    match lines.len() {
        1 => String::new(),
        _ => format!("    label={}\n", label(lines.iter().map(|line| escaped(line)))),
    }
}

fn node(part: &Part, path: &Path, location: usize) -> String {
    let Part { drawing, names, .. } = part;
    let name = names.location_name(location).map_or(String::new(), |name| format!(" {}", name));
    let mut lines = vec![bold(&format!("{}{}", location, name))];
    lines.extend(atoms(names, &drawing.invariants[location]).iter().map(|line| escaped(line)));
    for (ticks, taken) in &path.delays[location] {
        lines.extend(counted(taken, &format!(": delay {}", ticks)).iter().map(|line| marked(line)));
    }
    let mut attributes = vec![format!("label={}", label(lines))];
    if location == drawing.target {
        attributes.push("peripheries=2".to_string());
    }
    if path.visited[location] {
        attributes.push(format!("color=\"{}\", penwidth=2, fillcolor=\"{}\"", LINE, FILLED));
    }
    format!("    {} [{}]\n", location, attributes.join(", "))
}

fn arrow(subject: &Subject, taken: &[usize], index: usize, edge: &Edge) -> String {
    let names = &subject.whole.names;
    let mut plain = parts(subject, index);
    if edge.label != 0 {
        plain.push(names.label(edge.label));
    }
    plain.extend(atoms(names, &edge.guard));
    plain.extend(edge.updates.iter().map(|(counter, value)| update(names, *counter, *value)));
    plain.extend(edge.resets.iter().map(|(clock, value)| reset(names, *clock, *value)));
    let mut lines = Vec::new();
    let mut colour = String::new();
    if !taken.is_empty() {
        lines.extend(counted(taken, "").iter().map(|line| marked(line)));
        colour = format!(", color=\"{}\", penwidth=2.5", LINE);
    }
    lines.push(bold(&names.edge(index)));
    lines.extend(plain.iter().map(|line| escaped(line)));
    // a space on both sides keeps the lines off the arrow
    let label = label(lines.iter().map(|line| format!("&#160;{}&#160;", line)));
    format!("    {} -> {} [label={}{}]\n", edge.source, edge.target, label, colour)
}

/// Of two models, the edge or edges of its own that each takes.
fn parts(subject: &Subject, index: usize) -> Vec<String> {
    let byte = (subject.shape().ceiling + 1 + index) as u8;
    let (first, second, steps) = match (&subject.parts, part_steps(&subject.model, byte)) {
        (Some((first, second)), Some(steps)) => (first, second, steps),
        _ => return Vec::new(),
    };
    let own = |(word, part, step): (&str, &Part, u8)| {
        let index = edge(part.shape.ceiling, step).filter(|_| step != STAYS);
        index.map(|index| format!("{}: {}", word, part.names.edge(index)))
    };
    [("first", first, steps.first), ("second", second, steps.second)].into_iter().filter_map(own).collect()
}

fn atoms(names: &Names, atoms: &[Atom]) -> Vec<String> {
    let shown = |atom: &Atom| format!("{} {} {}", names.term(atom.term), atom.relation.sign(), atom.constant);
    broken(&atoms.iter().map(shown).collect::<Vec<_>>(), ", ", LABEL)
}

fn update(names: &Names, counter: usize, value: Value) -> String {
    let value = match value {
        Value::Constant(value) => value.to_string(),
        Value::Sum(source, 0) => names.counter(source),
        Value::Sum(source, offset) if offset < 0 => format!("{} - {}", names.counter(source), -offset),
        Value::Sum(source, offset) => format!("{} + {}", names.counter(source), offset),
    };
    format!("{} := {}", names.counter(counter), value)
}

fn reset(names: &Names, clock: usize, value: Reset) -> String {
    match value {
        Reset::Zero => format!("{} := 0", names.clock(clock)),
        Reset::Copy(source) => format!("{} := {}", names.clock(clock), names.clock(source)),
    }
}

/// `step 1`, or `steps 1, 4`, and what they are.
fn counted(taken: &[usize], what: &str) -> Vec<String> {
    let mut words: Vec<String> = taken.iter().map(usize::to_string).collect();
    words[0] = format!("step{} {}", if taken.len() == 1 { "" } else { "s" }, words[0]);
    words[taken.len() - 1].push_str(what);
    broken(&words, ", ", LABEL)
}

/// Words in lines of no more than a width, where no word is longer.
fn broken<T: AsRef<str>>(words: &[T], between: &str, width: usize) -> Vec<String> {
    let mut lines: Vec<String> = Vec::new();
    for word in words.iter().map(AsRef::as_ref) {
        match lines.last_mut() {
            Some(line) if line.len() + between.len() + word.len() <= width => {
                line.push_str(between);
                line.push_str(word);
            }
            Some(line) => {
                line.push_str(between.trim_end());
                lines.push(word.to_string());
            }
            None => lines.push(word.to_string()),
        }
    }
    lines
}

fn bold(line: &str) -> String {
    format!("<b>{}</b>", escaped(line))
}

fn marked(line: &str) -> String {
    format!("<font color=\"{}\">{}</font>", LINE, bold(line))
}

/// An HTML-like label of lines that are escaped.
fn label(lines: impl IntoIterator<Item = String>) -> String {
    format!("<{}>", lines.into_iter().collect::<Vec<_>>().join("<br/>"))
}

/// What an HTML-like label would act on is escaped; a backslash too, since Graphviz puts a node's name for `\N`.
fn escaped(text: &str) -> String {
    let mut escaped = String::new();
    for character in text.chars() {
        match character {
            '&' => escaped.push_str("&amp;"),
            '<' => escaped.push_str("&lt;"),
            '>' => escaped.push_str("&gt;"),
            '"' => escaped.push_str("&quot;"),
            '\\' => escaped.push_str("\\\\"),
            other if other.is_control() => escaped.push(char::REPLACEMENT_CHARACTER),
            other => escaped.push(other),
        }
    }
    escaped
}
