//! The hints of lemmas: which clauses, in which order, make a clause false once the literals of a lemma are taken to be false.

use super::clauses::{variable, Clause, Clauses, Literal};
use super::propagate::Propagation;

pub struct Hints {
    /// All hints in reverse: those of the last lemma first, of each lemma the last one first.
    reversed: Vec<Clause>,
    /// For each variable the last explanation that met it.
    met: Vec<u32>,
    explanations: u32,
    /// Places in the trail of the literals that are needed.
    needed: Vec<u32>,
}

impl Hints {
    pub fn new(variables: usize) -> Hints {
        Hints { reversed: Vec::new(), met: vec![0; variables + 1], explanations: 0, needed: Vec::new() }
    }

    pub fn count(&self) -> usize {
        self.reversed.len()
    }

    /// Adds the hints for a clause that is false, where some literals were assumed to be; which clauses they name.
    pub fn explain(&mut self, state: &Propagation, clauses: &Clauses, conflict: Clause, assumed: &[Literal]) -> &[Clause] {
        self.explanations += 1;
        for literal in assumed {
            self.met[variable(*literal)] = self.explanations;
        }
        let begin = self.reversed.len();
        self.needed.clear();
        self.reversed.push(conflict);
        self.need(state, clauses.of(conflict));
        let mut next = 0;
        while next < self.needed.len() {
            let reason = state.reason_at(self.needed[next]);
            self.need(state, clauses.of(reason));
            next += 1;
        }
        self.needed.sort_unstable();
        let reasons = self.needed.iter().rev().map(|place| state.reason_at(*place));
        self.reversed.extend(reasons);
        &self.reversed[begin..]
    }

    /// Literals of a clause that are to be false, or true for the one that it forces, and are not assumed.
    fn need(&mut self, state: &Propagation, literals: &[Literal]) {
        for variable in literals.iter().map(|literal| variable(*literal)) {
            if self.met[variable] != self.explanations {
                self.met[variable] = self.explanations;
                self.needed.push(state.place(variable));
            }
        }
    }

    /// The hints as places where clauses begin, which are named for each clause.
    pub fn places(self, places: &[u32]) -> Vec<u32> {
        let mut hints = self.reversed;
        hints.reverse();
        for hint in &mut hints {
            *hint = places[*hint as usize];
        }
        hints
    }
}
