//! The clause list ("Clause order"): one enumeration that serves the list as
//! vectors, the totals, emission and the search for a false clause.

use std::ops::ControlFlow;

use crate::model::{test_record_and_bound, variables, Atom, ClockUpdate, Edge, Model, Update};
use crate::numbering::{Group, Numbering};
use crate::refusal::{Refusal, WORDS_SHORT};

/// A clause: its literals, without the 0 word.
pub type Clause = Vec<i32>;

/// `Break` stops the enumeration.
pub type Flow = ControlFlow<()>;

/// Variables, clauses and words of a list.
#[derive(Clone, Copy, PartialEq, Eq, Debug, Default)]
pub struct Totals {
    pub variables: u32,
    pub clauses: u32,
    pub words: u32,
}

/// Shows each clause in order to `visit`, without holding the list.
pub fn visit_clauses(model: &Model, bound: usize, visit: &mut dyn FnMut(&[i32]) -> Flow) -> Result<Flow, Refusal> {
    test_record_and_bound(model, bound)?;
    let numbering = Numbering::of(model);
    let mut lister = Lister { model, numbering, visit };
    Ok(lister.list(bound as u32))
}

/// The list for a bound.
pub fn clauses(model: &Model, bound: usize) -> Result<Vec<Clause>, Refusal> {
    let mut list = Vec::new();
    let _ = visit_clauses(model, bound, &mut |clause| {
        list.push(clause.to_vec());
        Flow::Continue(())
    })?;
    Ok(list)
}

/// The words of the list: each clause's literals and a 0.
pub fn words(model: &Model, bound: usize) -> Result<Vec<i32>, Refusal> {
    let mut words = Vec::new();
    let _ = visit_clauses(model, bound, &mut |clause| {
        words.extend_from_slice(clause);
        words.push(0);
        Flow::Continue(())
    })?;
    Ok(words)
}

/// The totals of the list, counted clause by clause.
pub fn totals(model: &Model, bound: usize) -> Result<Totals, Refusal> {
    let (mut clauses, mut words) = (0, 0);
    let _ = visit_clauses(model, bound, &mut |clause| {
        clauses += 1;
        words += clause.len() as u32 + 1;
        Flow::Continue(())
    })?;
    Ok(Totals { variables: variables(model, bound), clauses, words })
}

/// A digest of the words, to compare lists without carrying them: 64-bit
/// FNV-1a over each word's four bytes, the lowest first.
pub fn digest(model: &Model, bound: usize) -> Result<u64, Refusal> {
    let mut digest = 0xcbf2_9ce4_8422_2325_u64;
    let _ = visit_clauses(model, bound, &mut |clause| {
        for byte in clause.iter().chain(&[0]).flat_map(|word| word.to_le_bytes()) {
            digest = (digest ^ u64::from(byte)).wrapping_mul(0x0000_0100_0000_01b3);
        }
        Flow::Continue(())
    })?;
    Ok(digest)
}

/// What an emission returns. After 22 the words needed stand in `totals.words`.
#[derive(Clone, Copy, PartialEq, Eq, Debug)]
pub struct Emission {
    pub refusal: u32,
    pub totals: Totals,
}

/// Emission into a lent buffer: 20, 21, 22. A refused call leaves the buffer as
/// it was; an accepted one writes the list from the start and nothing beyond.
pub fn emit(model: &Model, bound: usize, buffer: &mut [i32]) -> Emission {
    match tested_words(model, bound, buffer.len()) {
        Err(refused) => refused,
        Ok((totals, words)) => {
            buffer[..words.len()].copy_from_slice(&words);
            Emission { refusal: 0, totals }
        }
    }
}

fn tested_words(model: &Model, bound: usize, room: usize) -> Result<(Totals, Vec<i32>), Emission> {
    let refused = |refusal: Refusal| Emission { refusal: refusal.number, totals: Totals::default() };
    let totals = totals(model, bound).map_err(refused)?;
    if room < totals.words as usize {
        let needed = Totals { words: totals.words, ..Totals::default() };
        return Err(Emission { refusal: WORDS_SHORT, totals: needed });
    }
    let words = words(model, bound).map_err(refused)?;
    Ok((totals, words))
}

/// Builds the list of a well-formed model, clause by clause.
struct Lister<'a> {
    model: &'a Model,
    numbering: Numbering,
    visit: &'a mut dyn FnMut(&[i32]) -> Flow,
}

impl Lister<'_> {
    fn list(&mut self, bound: u32) -> Flow {
        self.start()?;
        for t in 1..=bound {
            self.step(t)?;
        }
        self.end(bound)
    }

    fn clause(&mut self, literals: &[i32]) -> Flow {
        (self.visit)(literals)
    }

    /// Start: state clauses of state 0, then the initial values.
    fn start(&mut self) -> Flow {
        self.state(0)?;
        let location = self.numbering.locations(0).member(u32::from(self.model.init));
        self.clause(&[location])?;
        for (index, counter) in self.model.used_counters().iter().enumerate() {
            let initial = self.numbering.counter(0, index).member(u32::from(counter.initial));
            self.clause(&[initial])?;
        }
        for index in 0..usize::from(self.model.clocks) {
            let zero = self.numbering.clock(0, index).member(0);
            self.clause(&[zero])?;
        }
        Flow::Continue(())
    }

    /// Step t: the choice, the delays, the edges, state t.
    fn step(&mut self, t: u32) -> Flow {
        self.group(self.numbering.choices(t))?;
        for ticks in 0..=self.numbering.ceiling {
            self.delay(t, ticks)?;
        }
        for (index, edge) in self.model.used_edges().iter().enumerate() {
            self.edge(t, self.numbering.edge(t, index), edge)?;
        }
        self.state(t)
    }

    /// End: the target location in state k.
    fn end(&mut self, bound: u32) -> Flow {
        let target = self.numbering.locations(bound).member(u32::from(self.model.target));
        self.clause(&[target])
    }

    /// All members in one clause; then each pair of members, both negated.
    fn group(&mut self, group: Group) -> Flow {
        let members: Vec<i32> = group.members().collect();
        self.clause(&members)?;
        for (place, smaller) in members.iter().enumerate() {
            for greater in &members[place + 1..] {
                self.clause(&[-smaller, -greater])?;
            }
        }
        Flow::Continue(())
    }

    /// State clauses: the groups; then for each location, each invariant atom
    /// and each clock value failing it: not location, not that value.
    fn state(&mut self, t: u32) -> Flow {
        for group in self.numbering.state(t) {
            self.group(group)?;
        }
        for location in 0..u32::from(self.model.locations) {
            let here = self.numbering.locations(t).member(location);
            for atom in self.model.invariant[location as usize] {
                self.failing_values(t, here, atom)?;
            }
        }
        Flow::Continue(())
    }

    /// For each value that fails the atom in state t: not `condition`, not that
    /// value. Serves invariants (a location) and guards (an edge).
    fn failing_values(&mut self, t: u32, condition: i32, atom: Atom) -> Flow {
        let (group, comparison) = match atom {
            Atom::Blank => return Flow::Continue(()),
            Atom::Clock(c) => (self.numbering.clock(t, usize::from(c.index)), c),
            Atom::Counter(c) => (self.numbering.counter(t, usize::from(c.index)), c),
        };
        for value in group.values().filter(|value| !comparison.holds(*value)) {
            self.clause(&[-condition, -group.member(value)])?;
        }
        Flow::Continue(())
    }

    /// For each member of state t-1 in block order: not delay, not member, its
    /// successor in state t.
    fn delay(&mut self, t: u32, ticks: u32) -> Flow {
        let delay = self.numbering.delay(t, ticks);
        self.kept(delay, self.numbering.locations(t - 1), self.numbering.locations(t))?;
        for index in 0..usize::from(self.model.counters) {
            self.kept(delay, self.numbering.counter(t - 1, index), self.numbering.counter(t, index))?;
        }
        for index in 0..usize::from(self.model.clocks) {
            let (before, after) = (self.numbering.clock(t - 1, index), self.numbering.clock(t, index));
            for value in before.values() {
                let later = (value + ticks).min(self.numbering.ceiling);
                self.clause(&[-delay, -before.member(value), after.member(later)])?;
            }
        }
        Flow::Continue(())
    }

    /// Each value: not choice, not value before, same after.
    fn kept(&mut self, choice: i32, before: Group, after: Group) -> Flow {
        for value in before.values() {
            self.clause(&[-choice, -before.member(value), after.member(value)])?;
        }
        Flow::Continue(())
    }

    /// Source, target, guard, counters, clocks of one edge in step t.
    fn edge(&mut self, t: u32, choice: i32, edge: &Edge) -> Flow {
        let source = self.numbering.locations(t - 1).member(u32::from(edge.source));
        self.clause(&[-choice, source])?;
        let target = self.numbering.locations(t).member(u32::from(edge.target));
        self.clause(&[-choice, target])?;
        for atom in edge.guard {
            self.failing_values(t - 1, choice, atom)?;
        }
        for index in 0..usize::from(self.model.counters) {
            self.update(t, choice, index, edge)?;
        }
        for index in 0..usize::from(self.model.clocks) {
            self.edge_clock(t, choice, index, edge.clock_updates[index])?;
        }
        Flow::Continue(())
    }

    /// One counter of an edge. A source that is read after its update has its
    /// literals of state t, any other those of state t-1.
    fn update(&mut self, t: u32, choice: i32, index: usize, edge: &Edge) -> Flow {
        let after = self.numbering.counter(t, index);
        match edge.updates[index] {
            Update::Keep => self.kept(choice, self.numbering.counter(t - 1, index), after),
            Update::Constant(constant) => self.with_result(&[-choice], after, i64::from(constant)),
            Update::Sum { source, offset } => {
                let read_in = if edge.reads_after(index as u8, source) { t } else { t - 1 };
                let read = self.numbering.counter(read_in, usize::from(source));
                for value in read.values() {
                    let result = i64::from(value) + i64::from(offset);
                    self.with_result(&[-choice, -read.member(value)], after, result)?;
                }
                Flow::Continue(())
            }
        }
    }

    /// The conditions and the result after, or the conditions alone if the
    /// result is out of range.
    fn with_result(&mut self, conditions: &[i32], after: Group, result: i64) -> Flow {
        let mut literals = conditions.to_vec();
        if (0..i64::from(after.length)).contains(&result) {
            literals.push(after.member(result as u32));
        }
        self.clause(&literals)
    }

    /// Reset gives not edge, 0 after; else each value before is the value after,
    /// the clock's own or that of the clock copied from.
    fn edge_clock(&mut self, t: u32, choice: i32, index: usize, update: ClockUpdate) -> Flow {
        let after = self.numbering.clock(t, index);
        match update {
            ClockUpdate::Unchanged => self.kept(choice, self.numbering.clock(t - 1, index), after),
            ClockUpdate::Reset => self.clause(&[-choice, after.member(0)]),
            ClockUpdate::Copy(source) => self.kept(choice, self.numbering.clock(t - 1, usize::from(source)), after),
        }
    }
}
