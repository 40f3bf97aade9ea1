//! The way back from the false clause: each lemma that is used is tested by reverse unit propagation, and the clauses that this uses
//! are marked as used, the core.

use super::clauses::{opposite, variable, word, Clause};
use super::forward::{Done, Forward};
use super::hints::Hints;
use super::propagate::{Part, Value, NONE};
use super::{Limits, Refutation, Why};

pub struct Trim {
    way: Forward,
    core: Vec<bool>,
    hints: Hints,
    limits: Limits,
}

impl Trim {
    pub fn new(way: Forward, limits: Limits) -> Trim {
        let (core, hints) = (vec![false; way.clauses.count()], Hints::new(way.variables));
        Trim { way, core, hints, limits }
    }

    /// Explains why the clause is false, then every lemma that is used for it, the last one first.
    pub fn back_from(&mut self, conflict: Clause) -> Result<(), Why> {
        self.explain(conflict, None);
        while let Some(done) = self.way.done.pop() {
            match done {
                Done::Deleted(clause) => self.way.propagation.attach(Part::Rest, &self.way.clauses, clause),
                Done::Added(lemma) => {
                    self.end(lemma);
                    if self.core[lemma as usize] {
                        self.test(lemma)?;
                    }
                }
            }
        }
        Ok(())
    }

    /// Takes back what a lemma has forced, and its watches.
    fn end(&mut self, lemma: Clause) {
        let (clauses, propagation) = (&self.way.clauses, &mut self.way.propagation);
        if propagation.is_reason(clauses, lemma) {
            let place = propagation.place(variable(clauses.of(lemma)[0]));
            propagation.back_to(place as usize);
        }
        let part = if self.core[lemma as usize] { Part::Core } else { Part::Rest };
        propagation.detach(part, clauses, lemma);
    }

    /// Tests a lemma: where its literals are false, unit propagation must make a clause false.
    fn test(&mut self, lemma: Clause) -> Result<(), Why> {
        let (clauses, propagation) = (&mut self.way.clauses, &mut self.way.propagation);
        let length = propagation.length();
        for literal in clauses.of(lemma) {
            if propagation.value(*literal) == Value::Open {
                propagation.assign(opposite(*literal), NONE);
            }
        }
        let conflict = propagation.propagate(clauses).ok_or(Why::NotRup(lemma as usize - self.way.places.len() + 1))?;
        self.explain(conflict, Some(lemma));
        self.way.propagation.back_to(length);
        let (way, limits) = (&self.way, &self.limits);
        limits.allow_time()?;
        limits.allow_memory(way.clauses.total() + self.hints.count(), way.clauses.count(), way.variables)
    }

    /// Adds the hints of a lemma, or of the empty one, and moves the clauses that they name to the core.
    fn explain(&mut self, conflict: Clause, lemma: Option<Clause>) {
        let (clauses, propagation) = (&self.way.clauses, &mut self.way.propagation);
        let assumed = lemma.map_or(&[][..], |lemma| clauses.of(lemma));
        for used in self.hints.explain(propagation, clauses, conflict, assumed) {
            if !self.core[*used as usize] {
                self.core[*used as usize] = true;
                if propagation.detach(Part::Rest, clauses, *used) {
                    propagation.attach(Part::Core, clauses, *used);
                }
            }
        }
    }

    /// The lemmas that are used in the file's order, then the empty one; and the hints as places of clauses.
    pub fn refutation(self, list: &[i32]) -> Refutation {
        let Forward { clauses, mut places, .. } = self.way;
        let mut lemmas = Vec::new();
        for lemma in places.len()..clauses.count() {
            places.push((list.len() + lemmas.len()) as u32);
            if self.core[lemma] {
                lemmas.extend(clauses.of(lemma as Clause).iter().map(|literal| word(*literal)));
                lemmas.push(0);
            }
        }
        lemmas.push(0);
        Refutation { lemmas, hints: self.hints.places(&places) }
    }
}
