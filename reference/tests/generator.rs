//! The generator: the same cases from the same seed, all sorts of cases among
//! them, and every call coming back for each.

use std::collections::BTreeSet;

use reference::assign::{decode, encode};
use reference::flat;
use reference::gen::cases::{case, KINDS};
use reference::gen::models::{self, Size};
use reference::gen::rng::Rng;
use reference::gen::{outputs, records, runs, texts};
use reference::list::{emit, totals};
use reference::model::{variables, well_formed, Edge, Model, MAX_BOUND};
use reference::output::{output_to_assignment, read_output};
use reference::size::sizes;
use reference::step::{step_call, walk};
use reference::text::{read, write};

#[test]
fn the_generator_of_random_numbers_is_splitmix64() {
    let mut rng = Rng::new(1234567);
    let first = [rng.next_u64(), rng.next_u64(), rng.next_u64()];
    assert_eq!(first, [6457827717110365317, 3203168211198807973, 9817491932198370423]);
}

#[test]
fn a_seed_gives_its_case_again() {
    for (kind, _) in KINDS {
        let texts: BTreeSet<Option<String>> = (0..20).map(|seed| case(kind, seed)).collect();
        assert!(texts.len() >= 10, "{kind}");
        let again: BTreeSet<Option<String>> = (0..20).map(|seed| case(kind, seed)).collect();
        assert_eq!(texts, again);
    }
    assert_eq!(case("nothing", 1), None);
}

#[test]
fn models_are_well_formed_and_their_texts_give_them_back() {
    for seed in 0..2_000 {
        let mut rng = Rng::new(seed);
        for size in [Size::Tiny, Size::Medium, Size::Full] {
            let model = models::model(&mut rng, size);
            assert!(well_formed(&model));
            let reading = read(write(&model).unwrap().as_bytes());
            assert_eq!((reading.refusal, reading.line), (0, 0));
            assert_eq!(reading.model, model);
        }
    }
}

#[test]
fn damaged_texts_meet_every_refusal() {
    let mut met = BTreeSet::new();
    for seed in 0..20_000 {
        let text = texts::text(&mut Rng::new(seed));
        let reading = read(&text);
        met.insert(reading.refusal);
        assert!(well_formed(&reading.model));
        if reading.refusal == 0 {
            // The form leaves no freedom: an accepted text is the one written.
            assert_eq!(write(&reading.model).unwrap().as_bytes(), text);
        }
    }
    assert_eq!(met, (0..=8).collect());
}

/// Texts that are refused at a line with a copy of a clock: 3, 5 and 6.
#[test]
fn damaged_texts_have_wrong_copies() {
    let mut met = BTreeSet::new();
    for seed in 0..2_000 {
        let text = texts::text(&mut Rng::new(seed));
        let reading = read(&text);
        let refused = text.split(|byte| *byte == b'\n').nth((reading.line as usize).wrapping_sub(1)).unwrap_or(b"");
        if refused.starts_with(b"reset=") && refused.contains(&b':') {
            met.insert(reading.refusal);
        }
    }
    assert!(met.is_superset(&[3, 5, 6].into()), "{met:?}");
}

/// Texts that are refused where a label is due: 2, 3 and 4, and never 5.
#[test]
fn damaged_texts_have_wrong_labels() {
    let mut met = BTreeSet::new();
    for seed in 0..2_000 {
        let text = texts::text(&mut Rng::new(seed));
        let reading = read(&text);
        let before: Vec<&[u8]> = text.split(|byte| *byte == b'\n').take((reading.line as usize).saturating_sub(1)).collect();
        if before.last().map_or(false, |line| line.starts_with(b"to=")) {
            met.insert(reading.refusal);
        }
    }
    assert_eq!(met, [2, 3, 4].into());
}

#[test]
fn size_inputs_meet_every_refusal() {
    let met: BTreeSet<u32> = (0..20_000).map(|seed| sizes(&texts::size_input(&mut Rng::new(seed))).refusal).collect();
    assert_eq!(met, [0, 1, 2, 3, 4, 5, 6, 7, 8, 9, 21, 22].into());
}

#[test]
fn damaged_records_never_stop_a_call() {
    let mut met = BTreeSet::new();
    for seed in 0..5_000 {
        let mut rng = Rng::new(seed);
        let model = records::record(&mut rng);
        let refused = !well_formed(&model);
        met.insert(refused);
        let bound = rng.below(3);
        assert_eq!(totals(&model, bound).is_err(), refused);
        assert_eq!(walk(&model, &[0]).0 == 20, refused);
        assert_eq!(emit(&model, bound, &mut []).refusal, if refused { 20 } else { 22 });
        assert_eq!(decode(&model, bound, &[], &mut []).0, if refused { 20 } else { 23 });
        assert_eq!(encode(&model, &[], &mut []).0 == 20, refused);
        assert_eq!(flat::record(&flat::bytes(&model)), Some(model));
    }
    assert_eq!(met.len(), 2);
}

/// The record without any update of a clock.
fn without_clock_updates(model: &Model) -> Model {
    let edge = model.edge.map(|edge| Edge { clock_updates: Edge::BLANK.clock_updates, ..edge });
    Model { edge, ..model.clone() }
}

/// Records that are refused for updates of clocks alone: a copy in a slot of no edge,
/// in a slot of no clock, from a clock that is not declared.
#[test]
fn damaged_records_have_wrong_copies() {
    let mut met = [0; 3];
    for seed in 0..5_000 {
        let model = records::record(&mut Rng::new(seed));
        if well_formed(&model) || !well_formed(&without_clock_updates(&model)) {
            continue;
        }
        for (index, edge) in (0..).zip(&model.edge) {
            for (clock, source) in edge.copies() {
                let wrong = [index >= model.edges, clock >= model.clocks, source >= model.clocks];
                if let Some(first) = wrong.iter().position(|wrong| *wrong) {
                    met[first] += 1;
                }
            }
        }
    }
    assert!(met.iter().all(|count| *count >= 20), "{met:?}");
}

/// Records that are refused for one label alone: above 15, and other than 0 in a slot of
/// no edge, there above 15 or not.
#[test]
fn damaged_records_have_wrong_labels() {
    let mut met = [0; 3];
    for seed in 0..5_000 {
        let model = records::record(&mut Rng::new(seed));
        let edge = model.edge.map(|edge| Edge { label: 0, ..edge });
        if well_formed(&model) || !well_formed(&Model { edge, ..model.clone() }) {
            continue;
        }
        for (index, edge) in (0..).zip(&model.edge) {
            let unused = index >= model.edges;
            let wrong = [edge.label > 15 && !unused, (1..=15).contains(&edge.label) && unused, edge.label > 15 && unused];
            for (count, wrong) in met.iter_mut().zip(wrong) {
                *count += usize::from(wrong);
            }
        }
    }
    assert!(met.iter().all(|count| *count >= 20), "{met:?}");
}

#[test]
fn states_meet_every_refusal_of_the_step_call() {
    let mut met = BTreeSet::new();
    for seed in 0..5_000 {
        let mut rng = Rng::new(seed);
        let sound = models::any_model(&mut rng);
        let state = records::state(&mut rng, &sound);
        let model = if rng.one_in(8) { records::record(&mut rng) } else { sound };
        let (refusal, after) = step_call(&model, state, rng.below(70) as u8);
        met.insert(refusal);
        if refusal == 0 {
            assert!(after.in_groups(&model) && after.meets_invariant(&model));
        } else {
            assert_eq!(after, state);
        }
    }
    assert_eq!(met, [0, 10, 20, 27, 28].into());
}

#[test]
fn runs_meet_every_refusal_of_the_walker() {
    let mut met = BTreeSet::new();
    for seed in 0..5_000 {
        let (model, run) = runs::model_and_run(&mut Rng::new(seed));
        let (refusal, place) = walk(&model, &run);
        met.insert(refusal);
        assert_eq!(place > 0, refusal == 27 || refusal == 28);
        assert_eq!(run.len() > MAX_BOUND, refusal == 21);
        let mut room = vec![7; variables(&model, run.len().min(MAX_BOUND)) as usize];
        assert_eq!(encode(&model, &run, &mut room), (refusal, place));
    }
    assert_eq!(met, [0, 21, 27, 28, 29, 30].into());
}

#[test]
fn assignments_meet_every_refusal() {
    let mut met = BTreeSet::new();
    for seed in 0..3_000 {
        let mut rng = Rng::new(seed);
        let (model, bound, assignment) = runs::model_and_assignment(&mut rng, 4);
        let room = if rng.one_in(8) { bound.saturating_sub(1) } else { bound };
        let mut run = vec![7; room];
        let (refusal, _) = decode(&model, bound, &assignment, &mut run);
        met.insert(refusal);
        if refusal == 0 {
            assert_eq!(walk(&model, &run), (0, 0));
        } else {
            assert!(run.iter().all(|byte| *byte == 7));
        }
    }
    assert_eq!(met, [0, 21, 23, 24, 25, 26].into());
}

#[test]
fn outputs_meet_every_refusal_and_both_outcomes() {
    let mut met = BTreeSet::new();
    for seed in 0..5_000 {
        let (output, variables) = outputs::output(&mut Rng::new(seed));
        let mut assignment = vec![7; variables];
        let reading = output_to_assignment(&output, &mut assignment);
        met.insert((reading.refusal, reading.outcome));
        assert_eq!(reading.line > 0, reading.refusal > 0);
        let expected = if reading.outcome == 10 { 0..=1 } else { 7..=7 };
        assert!(assignment.iter().all(|byte| expected.contains(byte)));
    }
    assert_eq!(met, [(0, 10), (0, 20), (33, 0), (34, 0), (35, 0)].into());
}

#[test]
fn undamaged_outputs_are_accepted() {
    for seed in 0..1_000 {
        let mut rng = Rng::new(seed);
        let variables = rng.below(200);
        let output = outputs::right(&mut rng, variables);
        assert!(read_output(&output, variables).is_ok(), "seed {seed}");
    }
}
