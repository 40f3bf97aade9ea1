//! Labels of edges: the worked texts, and that every call on a record answers alike
//! whatever its labels are.

mod common;

use std::fmt::Debug;

use common::{check, model, refusal, with_line, MODEL_A, MODEL_B};
use reference::assign::{decode, encode};
use reference::dimacs::{file, write_file};
use reference::gen::models::{self, any_model, full, largest, relabelled, Size};
use reference::gen::records;
use reference::gen::rng::Rng;
use reference::gen::runs::{model_and_assignment, model_and_run, step_byte};
use reference::gen::script::script;
use reference::list::{emit, totals, words};
use reference::model::{ceiling, choice_length, state_length, variables, well_formed, Edge, Model, MAX_BOUND};
use reference::search::{all_runs, count_runs, shortest};
use reference::size::sizes;
use reference::step::{step_call, walk};
use reference::text::write;

/// Model B with these labels.
fn b_with_labels(labels: [u8; 3]) -> String {
    let lines = [14, 20, 26].into_iter().zip(labels);
    lines.fold(MODEL_B.to_string(), |text, (line, label)| with_line(&text, line, &format!("label={label}")))
}

/// A text without the lines of these numbers, from 1.
fn without(text: &str, lines: &[usize]) -> String {
    let kept = text.split_inclusive('\n').enumerate().filter(|(place, _)| !lines.contains(&(place + 1)));
    kept.map(|(_, line)| line).collect()
}

/// Refusal, line, variables, clauses, words of the size program.
fn numbers(bound: usize, text: &str) -> [u32; 5] {
    let found = sizes(format!("bound={bound}\n{text}").as_bytes());
    [found.refusal, found.line, found.totals.variables, found.totals.clauses, found.totals.words]
}

#[test]
fn texts_of_a_and_b() {
    assert_eq!((MODEL_A.len(), MODEL_B.len()), (105, 227));
    for line in [14, 20, 26] {
        assert_eq!(MODEL_B.lines().nth(line - 1), Some("label=0"));
    }
    assert_eq!(numbers(1, MODEL_A), [0, 0, 7, 16, 51]);
    assert_eq!(numbers(3, MODEL_B), [0, 0, 68, 424, 1516]);
    for labels in [[15, 0, 0], [1, 15, 9], [15; 3]] {
        assert_eq!(numbers(3, &b_with_labels(labels)), [0, 0, 68, 424, 1516]);
    }
    for left in ["\n", "x"] {
        assert_eq!(refusal(format!("{MODEL_A}{left}").as_bytes()), (8, 15));
    }
    assert_eq!(refusal(MODEL_A.trim_end().as_bytes()), (2, 14));
}

#[test]
fn the_first_label_line_of_b() {
    check(MODEL_B, 14, &[("label=0", 0), ("label=15", 0), ("label=16", 4), ("label=999", 4)]);
    check(MODEL_B, 14, &[("label=1000", 3), ("label=015", 3), ("label=-", 3), ("label=", 3), ("label=x1", 3)]);
    check(MODEL_B, 14, &[("when=-", 2), ("Label=1", 2)]);
}

#[test]
fn label_lines_that_are_not_there() {
    assert_eq!(refusal(without(MODEL_B, &[14]).as_bytes()), (2, 14));
    assert_eq!(refusal(without(MODEL_B, &[20]).as_bytes()), (2, 20));
    assert_eq!(refusal(without(MODEL_B, &[26]).as_bytes()), (2, 26));
    // The text of before, without any label.
    assert_eq!(refusal(without(MODEL_B, &[14, 20, 26]).as_bytes()), (2, 14));
}

/// Each edge keeps its own label, and writing gives the text back.
#[test]
fn labels_fill_the_record() {
    let text = b_with_labels([15, 0, 9]);
    let found = model(&text);
    assert_eq!(found.edge.map(|edge| edge.label)[..4], [15, 0, 9, 0]);
    assert_eq!(write(&found), Ok(text));
    let private = found.edge.map(|edge| Edge { label: 0, ..edge });
    assert_eq!(Model { edge: private, ..found }, model(MODEL_B));
    for label in 0..=15 {
        let found = model(&with_line(MODEL_A, 11, &format!("label={label}")));
        assert_eq!(found.edge[0].label, label);
    }
}

/// Two records that differ in labels alone answer a question alike.
fn alike<T: PartialEq + Debug>(one: &Model, other: &Model, question: impl Fn(&Model) -> T) {
    assert_eq!(question(one), question(other), "{one:?}");
}

/// A call with a lent buffer: its answer and the buffer after it.
fn lent<T: Clone, A>(length: usize, pattern: T, call: impl Fn(&mut [T]) -> A) -> (A, Vec<T>) {
    let mut buffer = vec![pattern; length];
    let answer = call(&mut buffer);
    (answer, buffer)
}

/// The model with other labels; at least one differs wherever there is an edge.
fn other_labels(rng: &mut Rng, model: &Model) -> Model {
    let mut other = relabelled(rng, model);
    if model.edges > 0 && other == *model {
        other.edge[0].label = (model.edge[0].label + 1) % 16;
    }
    assert!(well_formed(&other) && (other != *model || model.edges == 0));
    other
}

/// Ceiling, totals, counts, emission and file, with as much room as they need and less.
fn lists_alike(one: &Model, other: &Model, bound: usize) {
    alike(one, other, |model| (ceiling(model), state_length(model), choice_length(model), variables(model, bound)));
    alike(one, other, |model| totals(model, bound));
    alike(one, other, |model| words(model, bound));
    alike(one, other, |model| file(model, bound));
    let room = totals(one, bound).map_or(9, |totals| totals.words as usize);
    for room in [room, room - 1] {
        alike(one, other, |model| lent(room, 7, |words| emit(model, bound, words)));
    }
    let room = file(one, bound).map_or(9, |file| file.len());
    for room in [room, room - 1] {
        alike(one, other, |model| lent(room, 7, |bytes| write_file(model, bound, bytes)));
    }
}

#[test]
fn lists_and_files_do_not_depend_on_labels() {
    for seed in 0..300 {
        let mut rng = Rng::new(seed);
        let one = any_model(&mut rng);
        let other = other_labels(&mut rng, &one);
        lists_alike(&one, &other, rng.pick(&[0, 1, 2, 3, MAX_BOUND + 1]));
    }
    for one in [largest(), full()] {
        let other = other_labels(&mut Rng::new(1), &one);
        lists_alike(&one, &other, 2);
    }
}

#[test]
fn runs_do_not_depend_on_labels() {
    for seed in 0..500 {
        let mut rng = Rng::new(seed);
        let (one, run) = model_and_run(&mut rng);
        let other = other_labels(&mut rng, &one);
        alike(&one, &other, |model| walk(model, &run));
        let room = variables(&one, run.len()) as usize;
        for room in [room, room - 1] {
            alike(&one, &other, |model| lent(room, 7, |assignment| encode(model, &run, assignment)));
        }
        for _ in 0..8 {
            let (state, byte) = (records::state(&mut rng, &one), step_byte(&mut rng, &one));
            alike(&one, &other, |model| step_call(model, state, byte));
        }
    }
}

#[test]
fn all_runs_and_the_shortest_do_not_depend_on_labels() {
    for seed in 0..200 {
        let mut rng = Rng::new(seed);
        let one = models::model(&mut rng, Size::Tiny);
        let other = other_labels(&mut rng, &one);
        alike(&one, &other, |model| all_runs(model, 3));
        alike(&one, &other, |model| (count_runs(model, 9, 10_000), shortest(model, 10_000)));
    }
}

#[test]
fn assignments_do_not_depend_on_labels() {
    for seed in 0..500 {
        let mut rng = Rng::new(seed);
        let (one, bound, assignment) = model_and_assignment(&mut rng, 4);
        let other = other_labels(&mut rng, &one);
        for room in [bound, bound.saturating_sub(1)] {
            alike(&one, &other, |model| lent(room, 7, |run| decode(model, bound, &assignment, run)));
        }
    }
}

/// Generated models have every label, and private edges beside others.
#[test]
fn generated_models_have_every_label() {
    let (mut met, mut mixed) = ([0; 16], 0);
    for seed in 0..1_000 {
        let model = any_model(&mut Rng::new(seed));
        for edge in model.used_edges() {
            met[usize::from(edge.label)] += 1;
        }
        let private = model.used_edges().iter().filter(|edge| edge.label == 0).count();
        mixed += usize::from(private > 0 && private < usize::from(model.edges));
    }
    assert!(met.iter().all(|count| *count >= 50) && mixed >= 200, "{met:?} {mixed}");
}

/// Scripts set labels that are allowed and labels above 15, in used slots and in others.
#[test]
fn scripts_set_labels() {
    let mut met = [[0; 2]; 2];
    for seed in 0..3_000 {
        let input = script(seed).input;
        let lines = input.lines().filter(|line| !line.starts_with('#'));
        let mut edges = 0;
        for line in lines.map(|line| line.split(' ').map(|number| number.parse().unwrap()).collect::<Vec<usize>>()) {
            match line[..] {
                [1, 5, number] => edges = number,
                [9, edge, label] => met[usize::from(edge >= edges)][usize::from(label > 15)] += 1,
                _ => {}
            }
        }
    }
    assert!(met.iter().flatten().all(|count| *count >= 5), "{met:?}");
}
