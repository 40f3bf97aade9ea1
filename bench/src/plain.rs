//! The calls in plain Rust, fit for a comparison of speed: a lent flat buffer,
//! no vector for each clause, what can be computed once computed once. Made from
//! the reference program's record and rules, not from the proved code.

use reference::model::{ceiling, variables, well_formed, Model, MAX_BOUND};
use reference::state::State;
use reference::step::edge;

use crate::clauses::{visit, Visitor};
use crate::layout::{Group, Layout};

/// Variables, clauses and words.
pub type Totals = (usize, usize, usize);

/// Writes the words from the start of a buffer that is long enough.
struct Writer<'a> {
    out: &'a mut [i32],
    at: usize,
}

/// There is no end before the list's.
pub enum Never {}

impl Writer<'_> {
    #[inline(always)]
    fn put<const N: usize>(&mut self, words: [i32; N]) -> Result<(), Never> {
        self.out[self.at..self.at + N].copy_from_slice(&words);
        self.at += N;
        Ok(())
    }
}

fn positive(a: usize) -> i32 {
    a as i32 + 1
}

fn negative(a: usize) -> i32 {
    -(a as i32) - 1
}

impl Visitor for Writer<'_> {
    type End = Never;

    fn members(&mut self, group: Group) -> Result<(), Never> {
        for value in 0..group.length {
            self.put([positive(group.first + value)])?;
        }
        self.put([0])
    }

    fn unit(&mut self, a: usize) -> Result<(), Never> {
        self.put([positive(a), 0])
    }

    fn never(&mut self, a: usize) -> Result<(), Never> {
        self.put([negative(a), 0])
    }

    fn implies(&mut self, a: usize, b: usize) -> Result<(), Never> {
        self.put([negative(a), positive(b), 0])
    }

    fn excludes(&mut self, a: usize, b: usize) -> Result<(), Never> {
        self.put([negative(a), negative(b), 0])
    }

    fn both_imply(&mut self, a: usize, b: usize, c: usize) -> Result<(), Never> {
        self.put([negative(a), negative(b), positive(c), 0])
    }
}

/// Counts clauses and words.
struct Counter {
    clauses: usize,
    words: usize,
}

impl Counter {
    fn clause(&mut self, literals: usize) -> Result<(), Never> {
        self.clauses += 1;
        self.words += literals + 1;
        Ok(())
    }
}

impl Visitor for Counter {
    type End = Never;

    fn members(&mut self, group: Group) -> Result<(), Never> {
        self.clause(group.length)
    }

    fn unit(&mut self, _: usize) -> Result<(), Never> {
        self.clause(1)
    }

    fn never(&mut self, _: usize) -> Result<(), Never> {
        self.clause(1)
    }

    fn implies(&mut self, _: usize, _: usize) -> Result<(), Never> {
        self.clause(2)
    }

    fn excludes(&mut self, _: usize, _: usize) -> Result<(), Never> {
        self.clause(2)
    }

    fn both_imply(&mut self, _: usize, _: usize, _: usize) -> Result<(), Never> {
        self.clause(3)
    }
}

/// The totals. A step has as many clauses and words as every other, so the
/// clauses of bounds 0 and 1 are counted and the rest is arithmetic.
pub fn totals(model: &Model, bound: usize) -> Option<Totals> {
    if !well_formed(model) || bound > MAX_BOUND {
        return None;
    }
    let layout = Layout::of(model);
    let counted = |bound| {
        let mut counter = Counter { clauses: 0, words: 0 };
        let _ = visit(model, &layout, bound, &mut counter);
        counter
    };
    let (none, one) = (counted(0), counted(1));
    Some((
        variables(model, bound) as usize,
        none.clauses + bound * (one.clauses - none.clauses),
        none.words + bound * (one.words - none.words),
    ))
}

/// Emission into a lent buffer; none if it is too short.
pub fn emit(model: &Model, bound: usize, out: &mut [i32]) -> Option<Totals> {
    let totals = totals(model, bound).filter(|totals| totals.2 <= out.len())?;
    let mut writer = Writer { out, at: 0 };
    let _ = visit(model, &Layout::of(model), bound, &mut writer);
    Some(totals)
}

/// Looks at clauses until one is false.
struct Reader<'a> {
    assignment: &'a [u8],
    index: usize,
}

/// A clause was false.
pub struct Falsified;

impl Reader<'_> {
    #[inline(always)]
    fn is(&self, a: usize) -> bool {
        self.assignment[a] == 1
    }

    #[inline(always)]
    fn clause(&mut self, holds: bool) -> Result<(), Falsified> {
        if !holds {
            return Err(Falsified);
        }
        self.index += 1;
        Ok(())
    }
}

impl Visitor for Reader<'_> {
    type End = Falsified;

    fn members(&mut self, group: Group) -> Result<(), Falsified> {
        let members = &self.assignment[group.first..group.first + group.length];
        self.clause(members.contains(&1))
    }

    fn unit(&mut self, a: usize) -> Result<(), Falsified> {
        self.clause(self.is(a))
    }

    fn never(&mut self, a: usize) -> Result<(), Falsified> {
        self.clause(!self.is(a))
    }

    fn implies(&mut self, a: usize, b: usize) -> Result<(), Falsified> {
        self.clause(!self.is(a) || self.is(b))
    }

    fn excludes(&mut self, a: usize, b: usize) -> Result<(), Falsified> {
        self.clause(!self.is(a) || !self.is(b))
    }

    fn both_imply(&mut self, a: usize, b: usize, c: usize) -> Result<(), Falsified> {
        self.clause(!self.is(a) || !self.is(b) || self.is(c))
    }
}

/// Assignment to run; none if it is refused.
pub fn decode(model: &Model, bound: usize, assignment: &[u8], run: &mut [u8]) -> Option<()> {
    if !well_formed(model) || bound > MAX_BOUND {
        return None;
    }
    let length = variables(model, bound) as usize;
    let wrong = assignment.iter().any(|byte| *byte > 1);
    if assignment.len() != length || wrong || run.len() < bound {
        return None;
    }
    let layout = Layout::of(model);
    let mut reader = Reader { assignment, index: 0 };
    visit(model, &layout, bound, &mut reader).ok()?;
    for (step, byte) in run[..bound].iter_mut().enumerate() {
        let choice = step * layout.step() + layout.state;
        let members = &assignment[choice..choice + layout.choices];
        *byte = members.iter().position(|member| *member == 1)? as u8;
    }
    Some(())
}

/// Shows each state of a run; none if it is refused.
fn walk_with(model: &Model, run: &[u8], mut show: impl FnMut(usize, State)) -> Option<()> {
    if !well_formed(model) || run.len() > MAX_BOUND {
        return None;
    }
    let ceiling = ceiling(model);
    let mut state = State::initial(model);
    if !state.meets_invariant(model) {
        return None;
    }
    show(0, state);
    for (index, byte) in run.iter().enumerate() {
        let byte = u32::from(*byte);
        state = if byte <= ceiling {
            delayed(model, state, byte, ceiling)?
        } else {
            let number = byte - ceiling - 1;
            edge(model, state, model.used_edges().get(number as usize)?)?
        };
        show(index + 1, state);
    }
    (state.location == model.target).then_some(())
}

/// A delay, the ceiling known.
fn delayed(model: &Model, mut state: State, ticks: u32, ceiling: u32) -> Option<State> {
    for clock in &mut state.clocks[..usize::from(model.clocks)] {
        *clock = (u32::from(*clock) + ticks).min(ceiling) as u8;
    }
    state.meets_invariant(model).then_some(state)
}

/// The walker; none if the run is refused.
pub fn walk(model: &Model, run: &[u8]) -> Option<()> {
    walk_with(model, run, |_, _| ())
}

/// Run to assignment; none if it is refused. The buffer is written only after
/// the whole run has been walked.
pub fn encode(model: &Model, run: &[u8], assignment: &mut [u8]) -> Option<()> {
    let mut states = [State::initial(model); MAX_BOUND + 1];
    walk_with(model, run, |index, state| states[index] = state)?;
    let length = variables(model, run.len()) as usize;
    let assignment = assignment.get_mut(..length)?;
    assignment.fill(0);
    let layout = Layout::of(model);
    for (index, state) in states[..=run.len()].iter().enumerate() {
        let block = index * layout.step();
        assignment[block + usize::from(state.location)] = 1;
        for (group, value) in layout.counters().iter().zip(state.counters) {
            assignment[block + group.first + usize::from(value)] = 1;
        }
        for (group, value) in layout.clocks().iter().zip(state.clocks) {
            assignment[block + group.first + usize::from(value)] = 1;
        }
    }
    for (index, byte) in run.iter().enumerate() {
        assignment[index * layout.step() + layout.state + usize::from(*byte)] = 1;
    }
    Some(())
}
