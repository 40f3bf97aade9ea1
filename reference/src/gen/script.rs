//! Cases for a program that changes a record line by line and answers questions
//! about it: its input and the reference's answers.
//!
//! Lines: `0 0` begins with the blank model; `1 FIELD N` sets a number at the
//! head (locations, init, target, clocks, counters, edges); `2 I G N` a counter;
//! `3 L K ATOM` an atom of an invariant; `4 E FROM TO` an edge's ends; `5 E K ATOM`
//! an atom of a guard; `6 E K UPDATE` an update; `7 E K SORT SOURCE` an update of
//! a clock; `8 E K N` a slot of the order; `9 E N` an edge's label. An atom is its
//! sort (0 none, 1 clock, 2 counter), index, relation and constant; an update its
//! sort (0 keep, 1 constant, 2 sum), number and offset plus 32, where 65 to 68
//! stand for the offsets -128, -33, 33 and 127; a clock's sort is 0 unchanged,
//! 1 reset, 2 copy.
//! Questions:
//! `10` refusal; `11` refusal and ceiling; `12 BOUND` refusal, S, H, N; `13 RUN`
//! refusal and place; `14 STATE BYTE` refusal and state; `15 BOUND` refusal and
//! totals of the list; `16 BOUND HIGH LOW` the same for an emission of at most
//! HIGH times 256 plus LOW words, and the words; `17 RUN` refusal and place of the
//! run as an assignment, and the assignment; `18 BOUND BYTES` refusal and place of
//! the assignment as a run, and the run. A line that begins with `#` is written
//! out again.

use super::rng::Rng;
use super::{models, records, runs};
use crate::assign::{decode, encode};
use crate::flat::clock_update_bytes;
use crate::list::{emit, totals};
use crate::model::{
    ceiling, choice_length, state_length, test_record, test_record_and_bound, variables, Atom, ClockUpdate, Counter, Edge, Model,
    Update, MAX_BOUND,
};
use crate::refusal::number_and_place;
use crate::step::{step_call, walk};

/// Words that the program lends, and what they hold before.
const MOST_WORDS: u32 = 16_384;
const LENT_WORD: i32 = 77_777;
/// Bytes that the program lends for an assignment, and what they hold before.
const ASSIGNMENT_BYTES: usize = 4_096;
const LENT_BYTE: u8 = 255;

/// What goes in and what must come out.
#[derive(Default)]
pub struct Script {
    pub input: String,
    pub answers: String,
}

impl Script {
    fn tell(&mut self, numbers: &[u32]) {
        push_line(&mut self.input, numbers);
    }

    fn tell_bytes(&mut self, first: &[u32], bytes: &[u8]) {
        self.tell(&with_bytes(first, bytes));
    }

    fn answer(&mut self, numbers: &[u32]) {
        push_line(&mut self.answers, numbers);
    }

    /// What a lent buffer holds: a space before each value.
    fn answer_values<'a, T: 'a + ToString>(&mut self, values: impl Iterator<Item = &'a T>) {
        for value in values {
            self.answers.push(' ');
            self.answers.push_str(&value.to_string());
        }
        self.answers.push('\n');
    }
}

/// Some numbers, then the bytes as numbers.
fn with_bytes(first: &[u32], bytes: &[u8]) -> Vec<u32> {
    let bytes = bytes.iter().map(|byte| u32::from(*byte));
    first.iter().copied().chain(bytes).collect()
}

fn push_line(text: &mut String, numbers: &[u32]) {
    let words: Vec<String> = numbers.iter().map(u32::to_string).collect();
    text.push_str(&words.join(" "));
    text.push('\n');
}

/// The script of a seed; nothing but its first line where an update's offset
/// cannot be written.
pub fn script(seed: u64) -> Script {
    let mut rng = Rng::new(seed);
    let mut script = Script::default();
    let heading = format!("# seed={seed}\n");
    script.input.push_str(&heading);
    script.answers.push_str(&heading);
    match rng.below(6) {
        0 => ask_record(&mut rng, &mut script),
        1 => ask_step(&mut rng, &mut script),
        2 => ask_run(&mut rng, &mut script),
        3 => ask_list(&mut rng, &mut script),
        4 => ask_encoding(&mut rng, &mut script),
        _ => ask_decoding(&mut rng, &mut script),
    }
    script
}

fn ask_record(rng: &mut Rng, script: &mut Script) {
    let model = records::record(rng);
    if !build(&model, script) {
        return;
    }
    let (number, _) = number_and_place(&test_record(&model));
    script.tell(&[10]);
    script.answer(&[number]);
    script.tell(&[11]);
    let top = if number == 0 { ceiling(&model) } else { 0 };
    script.answer(&[number, top]);
    let bound = rng.pick(&[0, 1, 2, 7, 31, 63, MAX_BOUND, MAX_BOUND + 1, 255]);
    script.tell(&[12, bound as u32]);
    let (number, _) = number_and_place(&test_record_and_bound(&model, bound));
    if number == 0 {
        script.answer(&[0, state_length(&model), choice_length(&model), variables(&model, bound)]);
    } else {
        script.answer(&[number, 0, 0, 0]);
    }
}

fn ask_step(rng: &mut Rng, script: &mut Script) {
    let (sound, model) = records::sound_and_asked(rng);
    if !build(&model, script) {
        return;
    }
    for _ in 0..4 {
        let state = records::state(rng, &sound);
        let byte = if rng.one_in(8) { rng.byte() } else { rng.below(choice_length(&sound) as usize + 1) as u8 };
        let mut question = state.numbers();
        question.push(byte);
        script.tell_bytes(&[14], &question);
        let (number, after) = step_call(&model, state, byte);
        script.answer(&with_bytes(&[number], &after.numbers()));
    }
}

fn ask_run(rng: &mut Rng, script: &mut Script) {
    if let Some((model, run)) = model_and_run(rng, 13, script) {
        let (number, place) = walk(&model, &run);
        script.answer(&[number, place]);
    }
}

/// A record and a run, told with a question; none if they cannot be written.
fn model_and_run(rng: &mut Rng, question: u32, script: &mut Script) -> Option<(Model, Vec<u8>)> {
    let (mut model, run) = runs::model_and_run(rng);
    records::sometimes_damage(rng, &mut model);
    if run.len() > MAX_BOUND + 8 || !build(&model, script) {
        return None;
    }
    script.tell_bytes(&[question], &run);
    Some((model, run))
}

fn ask_list(rng: &mut Rng, script: &mut Script) {
    let model = if rng.one_in(8) { records::record(rng) } else { models::any_model(rng) };
    if !build(&model, script) {
        return;
    }
    let bound = rng.pick(&[0, 1, 1, 2, 3, MAX_BOUND, MAX_BOUND + 1]);
    let outcome = totals(&model, bound);
    let (number, _) = number_and_place(&outcome);
    let counted = outcome.unwrap_or_default();
    script.tell(&[15, bound as u32]);
    script.answer(&[number, counted.variables, counted.clauses, counted.words]);
    let exact = counted.words.min(MOST_WORDS);
    let limit = rng.pick(&[exact, exact.saturating_sub(1), MOST_WORDS]);
    script.tell(&[16, bound as u32, limit / 256, limit % 256]);
    let mut buffer = vec![LENT_WORD; limit as usize];
    let told = emit(&model, bound, &mut buffer);
    script.answer(&[told.refusal, told.totals.variables, told.totals.clauses, told.totals.words]);
    let written = buffer.iter().take_while(|&&word| word != LENT_WORD);
    script.answer_values(written);
}

fn ask_encoding(rng: &mut Rng, script: &mut Script) {
    if let Some((model, run)) = model_and_run(rng, 17, script) {
        let mut buffer = vec![LENT_BYTE; ASSIGNMENT_BYTES];
        let (number, place) = encode(&model, &run, &mut buffer);
        script.answer(&[number, place]);
        script.answer_values(buffer.iter().take_while(|&&byte| byte != LENT_BYTE));
    }
}

fn ask_decoding(rng: &mut Rng, script: &mut Script) {
    let (model, bound, assignment) = runs::model_and_assignment(rng, 6);
    if assignment.len() > 70 || !build(&model, script) {
        return;
    }
    script.tell_bytes(&[18, bound as u32], &assignment);
    let mut buffer = vec![LENT_BYTE; MAX_BOUND];
    let (number, place) = decode(&model, bound, &assignment, &mut buffer);
    script.answer(&[number, place]);
    script.answer_values(buffer.iter().take_while(|&&byte| byte != LENT_BYTE));
}

/// The lines that make the record from the blank model; tells whether all of it
/// can be written.
fn build(model: &Model, script: &mut Script) -> bool {
    let mut updates = model.edge.iter().flat_map(|edge| edge.updates);
    let written = |update: Update| match update {
        Update::Sum { offset, .. } => raised(offset).is_some(),
        Update::Keep | Update::Constant(_) => true,
    };
    if !updates.all(written) {
        return false;
    }
    script.tell(&[0, 0]);
    let head = [model.locations, model.init, model.target, model.clocks, model.counters, model.edges];
    for (field, number) in head.into_iter().enumerate() {
        script.tell(&[1, field as u32, u32::from(number)]);
    }
    for (i, counter) in model.counter.iter().enumerate() {
        if *counter != Counter::BLANK {
            let (greatest, initial) = (u32::from(counter.greatest), u32::from(counter.initial));
            script.tell(&[2, i as u32, greatest, initial]);
        }
    }
    for (location, atoms) in model.invariant.iter().enumerate() {
        build_atoms(3, location, atoms, script);
    }
    for (e, edge) in model.edge.iter().enumerate() {
        build_edge(e, edge, script);
    }
    true
}

fn build_atoms(line: u32, index: usize, atoms: &[Atom], script: &mut Script) {
    for (k, atom) in atoms.iter().enumerate() {
        let (sort, comparison) = match atom {
            Atom::Blank => continue,
            Atom::Clock(comparison) => (1, comparison),
            Atom::Counter(comparison) => (2, comparison),
        };
        script.tell(&[
            line,
            index as u32,
            k as u32,
            sort,
            u32::from(comparison.index),
            comparison.relation as u32,
            u32::from(comparison.constant),
        ]);
    }
}

/// The number that stands for an offset; none for one that cannot be written.
fn raised(offset: i8) -> Option<u32> {
    const FAR: [i8; 4] = [-128, -33, 33, 127];
    match offset {
        -32..=32 => Some((i32::from(offset) + 32) as u32),
        _ => FAR.iter().position(|far| *far == offset).map(|index| 65 + index as u32),
    }
}

fn build_edge(e: usize, edge: &Edge, script: &mut Script) {
    if *edge == Edge::BLANK {
        return;
    }
    let e32 = e as u32;
    script.tell(&[4, e32, u32::from(edge.source), u32::from(edge.target)]);
    build_atoms(5, e, &edge.guard, script);
    for (k, update) in edge.updates.iter().enumerate() {
        let (sort, number, raised) = match *update {
            Update::Keep => continue,
            Update::Constant(constant) => (1, constant, 0),
            Update::Sum { source, offset } => (2, source, raised(offset).unwrap_or_default()),
        };
        script.tell(&[6, e32, k as u32, sort, u32::from(number), raised]);
    }
    for (k, update) in edge.clock_updates.iter().enumerate() {
        if *update != ClockUpdate::Unchanged {
            script.tell_bytes(&[7, e32, k as u32], &clock_update_bytes(*update));
        }
    }
    for (k, counter) in edge.order.iter().enumerate() {
        if *counter != 0 {
            script.tell(&[8, e32, k as u32, u32::from(*counter)]);
        }
    }
    if edge.label != 0 {
        script.tell(&[9, e32, u32::from(edge.label)]);
    }
}
