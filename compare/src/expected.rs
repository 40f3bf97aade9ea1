//! The answers that the reference gives to the questions of each call, in the library's terms. `what was written` is what a lent
//! buffer holds from its start after the call; it holds what it held beyond. A question is about what one text gives, or two composed.

use reference::assign::{decode, encode};
use reference::compose::Composed;
use reference::dimacs::file;
use reference::list::{totals, words, Totals};
use reference::model::{ceiling, choice_length, state_length, Model};
use reference::output::{output_to_assignment, SATISFIABLE};
use reference::refusal::{number_and_place, Refusal, BYTES_SHORT, WORDS_SHORT};
use reference::state::State as ReferenceState;
use reference::step::{self, step_call};
use reference::text::{read_bound_line, read_whole};
use wirdoku::library::{Answer, FileAnswer, OutputAnswer, PartSteps, Shape, Sizes, State, StateAnswer, STAYS};

/// What a text gives, or two composed: the model, or the refusal with its line.
pub type Given = Result<Model, Refusal>;

fn answer((number, place): (u32, u32)) -> Answer {
    Answer { number: number as u8, place: place as usize }
}

fn refused(refusal: &Refusal) -> Answer {
    answer((refusal.number, refusal.place))
}

fn unread(refusal: &Refusal, state: State) -> StateAnswer {
    StateAnswer { number: refusal.number as u8, line: refusal.place as usize, state }
}

fn sizes(number: u32, line: u32, totals: Totals) -> Sizes {
    Sizes {
        number: number as u8,
        line: line as usize,
        variables: totals.variables as usize,
        clauses: totals.clauses as usize,
        words: totals.words as usize,
    }
}

pub fn library_state(state: ReferenceState) -> State {
    State { location: state.location, counters: state.counters, clocks: state.clocks }
}

fn reference_state(state: State) -> ReferenceState {
    ReferenceState { location: state.location, counters: state.counters, clocks: state.clocks }
}

pub fn read(text: &[u8]) -> Answer {
    answer(number_and_place(&read_whole(text)))
}

pub fn shape(text: &[u8]) -> Shape {
    shape_of(&read_whole(text))
}

pub fn shape_of(given: &Given) -> Shape {
    match given {
        Err(refusal) => Shape { number: refusal.number as u8, line: refusal.place as usize, ..Shape::default() },
        Ok(model) => Shape {
            number: 0,
            line: 0,
            locations: model.locations,
            initial: model.init,
            target: model.target,
            clocks: model.clocks,
            counters: model.counters,
            edges: model.edges,
            ceiling: ceiling(model) as usize,
            state: state_length(model) as usize,
            choices: choice_length(model) as usize,
        },
    }
}

/// A list that is asked for: its totals, or the refusal before a buffer is looked at.
pub struct List {
    pub counts: Sizes,
    asked: Option<(Model, usize)>,
}

impl List {
    fn refused(refusal: Refusal) -> List {
        List { counts: sizes(refusal.number, refusal.place, Totals::default()), asked: None }
    }

    /// The list of a text and a bound: 1 to 8, 21.
    pub fn of_text(text: &[u8], bound: usize) -> List {
        List::of(read_whole(text), bound)
    }

    /// The list of what is given and a bound.
    pub fn of(given: Given, bound: usize) -> List {
        let counted = given.and_then(|model| {
            let totals = totals(&model, bound)?;
            Ok((totals, model))
        });
        match counted {
            Err(refusal) => List::refused(refusal),
            Ok((totals, model)) => List { counts: sizes(0, 0, totals), asked: Some((model, bound)) },
        }
    }

    /// The list that an input of the size program asks for: 9, 1 to 8, 21.
    pub fn of_input(input: &[u8]) -> List {
        match read_bound_line(input) {
            Err(refusal) => List::refused(refusal),
            Ok((bound, text)) => List::of_text(text, bound as usize),
        }
    }

    /// The answer of an emission into `room` words.
    pub fn emitted(&self, room: usize) -> Sizes {
        if self.asked.is_some() && room < self.counts.words {
            return Sizes { number: WORDS_SHORT as u8, words: self.counts.words, ..Sizes::default() };
        }
        self.counts
    }

    /// The words; none after a refusal.
    pub fn words(&self) -> Vec<i32> {
        match &self.asked {
            Some((model, bound)) => words(model, *bound).unwrap_or_default(),
            None => Vec::new(),
        }
    }

    /// The DIMACS file; none after a refusal.
    pub fn file(&self) -> Vec<u8> {
        match &self.asked {
            Some((model, bound)) => file(model, *bound).unwrap_or_default().into_bytes(),
            None => Vec::new(),
        }
    }

    /// The answer of the call that writes a file of `bytes` bytes to `room` bytes.
    pub fn filed(&self, bytes: usize, room: usize) -> FileAnswer {
        if self.asked.is_some() && room < bytes {
            return FileAnswer { number: BYTES_SHORT as u8, line: 0, bytes };
        }
        FileAnswer { number: self.counts.number, line: self.counts.line, bytes }
    }

    /// What an emission into `room` words writes.
    pub fn written(&self, room: usize) -> Vec<i32> {
        if self.emitted(room).number == 0 {
            self.words()
        } else {
            Vec::new()
        }
    }
}

pub fn initial(text: &[u8]) -> StateAnswer {
    initial_of(&read_whole(text))
}

pub fn initial_of(given: &Given) -> StateAnswer {
    match given {
        Ok(model) => StateAnswer { number: 0, line: 0, state: library_state(ReferenceState::initial(model)) },
        Err(refusal) => unread(refusal, State::default()),
    }
}

pub fn step(text: &[u8], state: State, byte: u8) -> StateAnswer {
    step_of(&read_whole(text), state, byte)
}

pub fn step_of(given: &Given, state: State, byte: u8) -> StateAnswer {
    match given {
        Err(refusal) => unread(refusal, state),
        Ok(model) => {
            let (number, after) = step_call(model, reference_state(state), byte);
            StateAnswer { number: number as u8, line: 0, state: library_state(after) }
        }
    }
}

pub fn walk(text: &[u8], run: &[u8]) -> Answer {
    walk_of(&read_whole(text), run)
}

pub fn walk_of(given: &Given, run: &[u8]) -> Answer {
    match given {
        Ok(model) => answer(step::walk(model, run)),
        Err(refusal) => refused(refusal),
    }
}

/// The answer for a run buffer of `room` bytes, and what was written.
pub fn assignment_to_run(text: &[u8], bound: usize, assignment: &[u8], room: usize) -> (Answer, Vec<u8>) {
    assignment_to_run_of(&read_whole(text), bound, assignment, room)
}

pub fn assignment_to_run_of(given: &Given, bound: usize, assignment: &[u8], room: usize) -> (Answer, Vec<u8>) {
    let mut run = vec![0; room];
    let told = match given {
        Ok(model) => answer(decode(model, bound, assignment, &mut run)),
        Err(refusal) => refused(refusal),
    };
    run.truncate(if told.number == 0 { bound } else { 0 });
    (told, run)
}

/// The answer for an assignment buffer of `room` bytes, and what was written.
pub fn run_to_assignment(text: &[u8], run: &[u8], room: usize) -> (Answer, Vec<u8>) {
    run_to_assignment_of(&read_whole(text), run, room)
}

pub fn run_to_assignment_of(given: &Given, run: &[u8], room: usize) -> (Answer, Vec<u8>) {
    let mut assignment = vec![0; room];
    let (told, length) = match given {
        Ok(model) => {
            let told = answer(encode(model, run, &mut assignment));
            let length = reference::model::variables(model, run.len().min(64)) as usize;
            (told, length)
        }
        Err(refusal) => (refused(refusal), 0),
    };
    assignment.truncate(if told.number == 0 { length } else { 0 });
    (told, assignment)
}

/// What a step byte of two texts composed is for each part.
pub fn part_steps(composed: &Result<Composed, Refusal>, byte: u8) -> PartSteps {
    match composed {
        Err(refusal) => PartSteps { number: refusal.number as u8, line: refusal.place as usize, first: 0, second: 0 },
        Ok(composed) => match composed.part_steps(byte) {
            Err(number) => PartSteps { number: number as u8, ..PartSteps::default() },
            Ok((first, second)) => {
                PartSteps { number: 0, line: 0, first: first.unwrap_or(STAYS), second: second.unwrap_or(STAYS) }
            }
        },
    }
}

/// The answer for an assignment buffer of `room` bytes, and what was written: all of it, or nothing.
pub fn output(output: &[u8], room: usize) -> (OutputAnswer, Vec<u8>) {
    let mut assignment = vec![0; room];
    let told = output_to_assignment(output, &mut assignment);
    assignment.truncate(if told.outcome == SATISFIABLE { room } else { 0 });
    (OutputAnswer { number: told.refusal as u8, line: told.line as usize, outcome: told.outcome as u8 }, assignment)
}
