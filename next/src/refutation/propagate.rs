//! Unit propagation: each clause of two literals or more is watched at its first two, and looked at only when one of them becomes
//! false. Clauses that the refutation is known to use, the core, are looked at before the rest, so that few others come to be used.

use std::mem;

use super::clauses::{opposite, variable, Clause, Clauses, Literal};

#[derive(Clone, Copy, Debug, PartialEq, Eq)]
pub enum Value {
    Open,
    True,
    False,
}

/// Where a clause is watched.
#[derive(Clone, Copy, Debug, PartialEq, Eq)]
pub enum Part {
    Core,
    Rest,
}

/// The reason of a literal that was assumed.
pub const NONE: Clause = Clause::MAX;

/// Set in a watch's clause that has two literals: it need not be looked up.
const TWO: Clause = 1 << 31;

#[derive(Clone, Copy)]
struct Watch {
    clause: Clause,
    /// A literal of the clause, for two literals the other one: if it is true there is nothing to do.
    other: Literal,
}

pub struct Propagation {
    values: Vec<Value>,
    /// True literals in the order in which they became true, and for each variable its place there and the clause that forced it.
    trail: Vec<Literal>,
    places: Vec<u32>,
    reasons: Vec<Clause>,
    /// For each part and literal the watches of clauses at it.
    watches: [Vec<Vec<Watch>>; 2],
    /// For each part how much of the trail has been propagated.
    done: [usize; 2],
}

impl Propagation {
    pub fn new(variables: usize) -> Propagation {
        let literals = 2 * variables + 2;
        Propagation {
            values: vec![Value::Open; literals],
            trail: Vec::with_capacity(variables),
            places: vec![0; variables + 1],
            reasons: vec![NONE; variables + 1],
            watches: [vec![Vec::new(); literals], vec![Vec::new(); literals]],
            done: [0, 0],
        }
    }

    pub fn value(&self, literal: Literal) -> Value {
        self.values[literal as usize]
    }

    /// How many literals are true.
    pub fn length(&self) -> usize {
        self.trail.len()
    }

    /// The place in the trail of a variable that has a value.
    pub fn place(&self, variable: usize) -> u32 {
        self.places[variable]
    }

    /// What forced the literal at a place of the trail.
    pub fn reason_at(&self, place: u32) -> Clause {
        self.reasons[variable(self.trail[place as usize])]
    }

    /// Whether the clause forced one of its literals, which is then one of the first two.
    pub fn is_reason(&self, clauses: &Clauses, clause: Clause) -> bool {
        let forced = |l: &Literal| self.value(*l) == Value::True && self.reasons[variable(*l)] == clause;
        clauses.of(clause).iter().take(2).any(forced)
    }

    pub fn assign(&mut self, literal: Literal, reason: Clause) {
        self.values[literal as usize] = Value::True;
        self.values[opposite(literal) as usize] = Value::False;
        self.places[variable(literal)] = self.trail.len() as u32;
        self.reasons[variable(literal)] = reason;
        self.trail.push(literal);
    }

    /// Leaves the first `length` true literals; all that they force must have been among them.
    pub fn back_to(&mut self, length: usize) {
        for literal in self.trail.drain(length..) {
            self.values[literal as usize] = Value::Open;
            self.values[opposite(literal) as usize] = Value::Open;
        }
        self.done = [length, length];
    }

    /// Watches a clause at its first two literals. Neither is false, or the other is true and became so no later.
    pub fn attach(&mut self, part: Part, clauses: &Clauses, clause: Clause) {
        let literals = clauses.of(clause);
        let named = if literals.len() == 2 { clause | TWO } else { clause };
        for (at, other) in [(literals[0], literals[1]), (literals[1], literals[0])] {
            self.watches[part as usize][at as usize].push(Watch { clause: named, other });
        }
    }

    /// Ends the watching; whether the clause was watched.
    pub fn detach(&mut self, part: Part, clauses: &Clauses, clause: Clause) -> bool {
        let mut found = false;
        for literal in clauses.of(clause).iter().take(2) {
            let watches = &mut self.watches[part as usize][*literal as usize];
            if let Some(at) = watches.iter().rposition(|watch| watch.clause & !TWO == clause) {
                watches.swap_remove(at);
                found = true;
            }
        }
        found
    }

    /// Makes true what is forced; a clause that is false, if one becomes so.
    pub fn propagate(&mut self, clauses: &mut Clauses) -> Option<Clause> {
        loop {
            let core = self.done[Part::Core as usize] < self.trail.len();
            let part = if core { Part::Core } else { Part::Rest };
            let literal = opposite(*self.trail.get(self.done[part as usize])?);
            self.done[part as usize] += 1;
            let conflict = self.visit(part, literal, clauses);
            if conflict.is_some() {
                return conflict;
            }
        }
    }

    /// Looks at the clauses of a part that are watched at a literal that has become false.
    fn visit(&mut self, part: Part, literal: Literal, clauses: &mut Clauses) -> Option<Clause> {
        let mut watches = mem::take(&mut self.watches[part as usize][literal as usize]);
        let (mut seen, mut kept) = (0, 0);
        let mut conflict = None;
        while conflict.is_none() && seen < watches.len() {
            let mut watch = watches[seen];
            seen += 1;
            if self.value(watch.other) != Value::True {
                if watch.clause & TWO == 0 && !self.stays(part, literal, &mut watch, clauses) {
                    continue;
                }
                match self.value(watch.other) {
                    Value::True => (),
                    Value::Open => self.assign(watch.other, watch.clause & !TWO),
                    Value::False => conflict = Some(watch.clause & !TWO),
                }
            }
            watches[kept] = watch;
            kept += 1;
        }
        watches.copy_within(seen.., kept);
        watches.truncate(kept + watches.len() - seen);
        self.watches[part as usize][literal as usize] = watches;
        conflict
    }

    /// Whether a clause must still be watched at a false literal: it has no third one that is not false. If so, `other` is the first
    /// of its literals, and the false one the second.
    fn stays(&mut self, part: Part, literal: Literal, watch: &mut Watch, clauses: &mut Clauses) -> bool {
        let literals = clauses.of_mut(watch.clause);
        if literals[0] == literal {
            literals.swap(0, 1);
        }
        watch.other = literals[0];
        if self.value(literals[0]) == Value::True {
            return true;
        }
        let third = (2..literals.len()).find(|at| self.values[literals[*at] as usize] != Value::False);
        if let Some(at) = third {
            literals.swap(1, at);
            self.watches[part as usize][literals[1] as usize].push(*watch);
        }
        third.is_none()
    }
}

#[cfg(test)]
mod tests;
