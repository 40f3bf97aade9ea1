//! The way through a file: adds its lemmas and deletes its clauses until a clause is false by unit propagation alone. No lemma is
//! tested here; trim.rs goes the way back and tests those that are used.

use super::clauses::{Clause, Clauses, Distinct};
use super::drat::{Step, Steps};
use super::lookup::Lookup;
use super::propagate::{Part, Propagation, Value};
use super::{Limits, Why};

/// What was done, to be undone on the way back.
pub enum Done {
    Added(Clause),
    Deleted(Clause),
}

pub struct Forward {
    pub clauses: Clauses,
    pub propagation: Propagation,
    pub done: Vec<Done>,
    /// Where each clause of the list begins in it.
    pub places: Vec<u32>,
    pub variables: usize,
    lookup: Lookup,
    distinct: Distinct,
    limits: Limits,
}

impl Forward {
    /// For a list and a file of so many bytes.
    pub fn new(list: &[i32], bytes: usize, limits: Limits) -> Result<Forward, Why> {
        let variables = list.iter().map(|word| word.unsigned_abs() as usize).max().unwrap_or(0);
        let clauses = list.iter().filter(|word| **word == 0).count();
        limits.allow_memory(list.len(), clauses, variables)?;
        Ok(Forward {
            clauses: Clauses::new(),
            propagation: Propagation::new(variables),
            done: Vec::new(),
            places: Vec::with_capacity(clauses),
            variables,
            lookup: Lookup::new(clauses + bytes / 64),
            distinct: Distinct::new(variables),
            limits,
        })
    }

    /// Adds the clauses of the list; a false one, if unit propagation finds one.
    pub fn add_list(&mut self, list: &[i32]) -> Option<Clause> {
        let mut begin = 0;
        let mut units = Vec::new();
        for words in list.split_inclusive(|word| *word == 0) {
            self.places.push(begin as u32);
            begin += words.len();
            self.distinct.read(&words[..words.len() - 1]);
            let clause = self.store();
            match self.clauses.of(clause).len() {
                0 => return Some(clause),
                1 => units.push(clause),
                _ => self.propagation.attach(Part::Rest, &self.clauses, clause),
            }
        }
        units.into_iter().find_map(|clause| self.force(clause))
    }

    /// Follows the file to a clause that is false.
    pub fn follow(&mut self, file: &[u8]) -> Result<Clause, Why> {
        let (mut steps, mut words, mut lemmas) = (Steps::new(file), Vec::new(), 0);
        while let Some(step) = steps.next(&mut words)? {
            let known = words.iter().all(|word| word.unsigned_abs() as usize <= self.variables);
            match step {
                Step::Deletion if known => self.delete(&words),
                Step::Deletion => (),
                Step::Lemma => {
                    lemmas += 1;
                    self.limits.allow_lemmas(lemmas)?;
                    if !known {
                        return Err(Why::Variable(lemmas));
                    }
                    if words.is_empty() {
                        return Err(Why::NotRup(lemmas));
                    }
                    if let Some(conflict) = self.add(&words) {
                        return Ok(conflict);
                    }
                    self.limits.allow_time()?;
                    self.limits.allow_memory(self.clauses.total(), self.clauses.count(), self.variables)?;
                }
            }
        }
        Err(Why::NoEmptyClause)
    }

    /// Stores the clause that was read.
    fn store(&mut self) -> Clause {
        let clause = self.clauses.push(&self.distinct.literals);
        self.lookup.insert(clause, &self.distinct.literals);
        clause
    }

    /// Adds a lemma; a false clause, if unit propagation finds one. Literals that are true or false now are so for as long as the lemma
    /// stands, since the way back ends each lemma before it takes back what was forced before it.
    fn add(&mut self, words: &[i32]) -> Option<Clause> {
        self.distinct.read(words);
        let propagation = &self.propagation;
        let literals = &mut self.distinct.literals;
        if literals.iter().any(|literal| propagation.value(*literal) == Value::True) {
            // It will force nothing and never be false: it gets a number, but no literals.
            self.clauses.push(&[]);
            return None;
        }
        // The literals that are not false come first, to be watched.
        literals.sort_by_key(|literal| propagation.value(*literal) == Value::False);
        let open = literals.iter().take(2).filter(|literal| propagation.value(**literal) == Value::Open).count();
        let clause = self.store();
        self.done.push(Done::Added(clause));
        match open {
            0 => Some(clause),
            1 => self.force(clause),
            _ => {
                self.propagation.attach(Part::Rest, &self.clauses, clause);
                None
            }
        }
    }

    /// Makes the first literal of a clause true, the others being false, and all that follows; a clause that is false then.
    fn force(&mut self, clause: Clause) -> Option<Clause> {
        let literal = self.clauses.of(clause)[0];
        match self.propagation.value(literal) {
            Value::True => None,
            Value::False => Some(clause),
            Value::Open => {
                self.propagation.assign(literal, clause);
                self.propagation.propagate(&mut self.clauses)
            }
        }
    }

    /// Deletes a clause, if there is one and it has not forced a literal: what was forced stays so.
    fn delete(&mut self, words: &[i32]) {
        self.distinct.read(words);
        let clause = match self.lookup.find(&self.clauses, &self.distinct) {
            Some(clause) if !self.propagation.is_reason(&self.clauses, clause) => clause,
            _ => return,
        };
        self.lookup.remove(clause, &self.distinct.literals);
        if self.propagation.detach(Part::Rest, &self.clauses, clause) {
            self.done.push(Done::Deleted(clause));
        }
    }
}
