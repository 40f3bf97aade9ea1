//! Whole test cases as lines: the input of one call and the reference's answer.
//!
//! Every case has a seed of its own, which stands first in its line, so that a
//! single case can be made again. Bytes and records are in hexadecimal; for
//! records see [`crate::flat`].

use super::{models, outputs, records, rng::Rng, runs, texts};
use crate::assign::{assignment_of, run_of};
use crate::flat::{bytes, hex};
use crate::list::{digest, totals};
use crate::model::{well_formed, MAX_BOUND};
use crate::output::{output_to_assignment, SATISFIABLE};
use crate::refusal::number_and_place;
use crate::size::sizes;
use crate::step::{step_call, walk};
use crate::text::{read, write};

/// The kinds of cases, with what a line holds.
pub const KINDS: [(&str, &str); 9] = [
    ("model", "well-formed model texts, plain, parted by an empty line"),
    ("text", "text; refusal, line and record of its reading"),
    ("size", "input of the size program; its five numbers"),
    ("record", "record; 20 or 0"),
    ("list", "record, bound; refusal, variables, clauses, words, digest of the words"),
    ("step", "record, state, byte; refusal and state of the step call"),
    ("run", "record, run; the walker's refusal and place, and the assignment"),
    ("assignment", "record, bound, assignment; refusal, place and run"),
    ("output", "a solver's output, variables; refusal, line, outcome and assignment"),
];

/// The case of a kind and a seed; none if there is no such kind.
pub fn case(kind: &str, seed: u64) -> Option<String> {
    let mut rng = Rng::new(seed);
    let fields = match kind {
        "model" => return Some(write(&models::any_model(&mut rng)).unwrap_or_default()),
        "text" => text_case(&mut rng),
        "size" => size_case(&mut rng),
        "record" => record_case(&mut rng),
        "list" => list_case(&mut rng),
        "step" => step_case(&mut rng),
        "run" => run_case(&mut rng),
        "assignment" => assignment_case(&mut rng),
        "output" => output_case(&mut rng),
        _ => return None,
    };
    Some(format!("seed={seed} {fields}\n"))
}

fn text_case(rng: &mut Rng) -> String {
    let text = texts::text(rng);
    let reading = read(&text);
    format!("text={} refusal={} line={} record={}", hex(&text), reading.refusal, reading.line, hex(&bytes(&reading.model)))
}

fn size_case(rng: &mut Rng) -> String {
    let input = texts::size_input(rng);
    format!("input={} {}", hex(&input), sizes(&input).lines().trim_end().replace('\n', " "))
}

fn record_case(rng: &mut Rng) -> String {
    let model = records::record(rng);
    let refusal = if well_formed(&model) { 0 } else { 20 };
    format!("record={} refusal={refusal}", hex(&bytes(&model)))
}

fn list_case(rng: &mut Rng) -> String {
    let model = if rng.one_in(4) { records::record(rng) } else { models::any_model(rng) };
    let bound = if rng.one_in(8) { MAX_BOUND + 1 } else { runs::steps(rng) };
    let outcome = totals(&model, bound);
    let (refusal, _) = number_and_place(&outcome);
    let totals = outcome.unwrap_or_default();
    format!(
        "record={} bound={bound} refusal={refusal} variables={} clauses={} words={} digest={:016x}",
        hex(&bytes(&model)),
        totals.variables,
        totals.clauses,
        totals.words,
        digest(&model, bound).unwrap_or(0)
    )
}

fn step_case(rng: &mut Rng) -> String {
    let (sound, model) = records::sound_and_asked(rng);
    let state = records::state(rng, &sound);
    let byte = runs::step_byte(rng, &sound);
    let (refusal, after) = step_call(&model, state, byte);
    format!(
        "record={} state={} byte={byte} refusal={refusal} after={}",
        hex(&bytes(&model)),
        hex(&state.numbers()),
        hex(&after.numbers())
    )
}

fn run_case(rng: &mut Rng) -> String {
    let (mut model, run) = runs::model_and_run(rng);
    records::sometimes_damage(rng, &mut model);
    let (refusal, place) = walk(&model, &run);
    let assignment = assignment_of(&model, &run).unwrap_or_default();
    format!("record={} run={} refusal={refusal} place={place} assignment={}", hex(&bytes(&model)), hex(&run), hex(&assignment))
}

fn assignment_case(rng: &mut Rng) -> String {
    let (mut model, bound, assignment) = runs::model_and_assignment(rng, 8);
    records::sometimes_damage(rng, &mut model);
    let outcome = run_of(&model, bound, &assignment);
    let (refusal, place) = number_and_place(&outcome);
    format!(
        "record={} bound={bound} assignment={} refusal={refusal} place={place} run={}",
        hex(&bytes(&model)),
        hex(&assignment),
        hex(&outcome.unwrap_or_default())
    )
}

fn output_case(rng: &mut Rng) -> String {
    let (output, variables) = outputs::output(rng);
    let mut assignment = vec![0; variables];
    let reading = output_to_assignment(&output, &mut assignment);
    let written = if reading.outcome == SATISFIABLE { &assignment[..] } else { &[] };
    format!(
        "output={} variables={variables} refusal={} line={} outcome={} assignment={}",
        hex(&output),
        reading.refusal,
        reading.line,
        reading.outcome,
        hex(written)
    )
}
