//! Finds a clause by its literals in whatever order, since a file names the clauses that it deletes so.

use super::clauses::{Clause, Clauses, Distinct, Literal};

const NONE: Clause = Clause::MAX;

pub struct Lookup {
    /// The newest clause of each bucket, and for each clause the next older one.
    newest: Vec<Clause>,
    older: Vec<Clause>,
}

impl Lookup {
    /// For about so many clauses.
    pub fn new(clauses: usize) -> Lookup {
        Lookup { newest: vec![NONE; clauses.max(2).next_power_of_two()], older: Vec::new() }
    }

    pub fn insert(&mut self, clause: Clause, literals: &[Literal]) {
        let bucket = self.bucket(literals);
        self.older.resize(clause as usize + 1, NONE);
        self.older[clause as usize] = self.newest[bucket];
        self.newest[bucket] = clause;
    }

    /// The newest clause with these literals that is not removed.
    pub fn find(&self, clauses: &Clauses, wanted: &Distinct) -> Option<Clause> {
        let mut clause = self.newest[self.bucket(&wanted.literals)];
        while clause != NONE {
            let literals = clauses.of(clause);
            if literals.len() == wanted.literals.len() && literals.iter().all(|literal| wanted.has(*literal)) {
                return Some(clause);
            }
            clause = self.older[clause as usize];
        }
        None
    }

    /// Removes a clause that `find` found.
    pub fn remove(&mut self, clause: Clause, literals: &[Literal]) {
        let bucket = self.bucket(literals);
        if self.newest[bucket] == clause {
            self.newest[bucket] = self.older[clause as usize];
            return;
        }
        let mut newer = self.newest[bucket];
        while self.older[newer as usize] != clause {
            newer = self.older[newer as usize];
        }
        self.older[newer as usize] = self.older[clause as usize];
    }

    /// A sum does not depend on the order; what is summed must not be linear, or equal sums of literals would meet.
    fn bucket(&self, literals: &[Literal]) -> usize {
        const SPREAD: u64 = 0x9e37_79b9_7f4a_7c15;
        let mixed = |literal: &Literal| {
            let product = (u64::from(*literal) + 1).wrapping_mul(SPREAD);
            (product ^ (product >> 29)).wrapping_mul(SPREAD)
        };
        let sum = literals.iter().fold(0u64, |sum, literal| sum.wrapping_add(mixed(literal)));
        (sum >> (64 - self.newest.len().trailing_zeros())) as usize
    }
}

#[cfg(test)]
mod tests {
    use super::{Clauses, Distinct, Lookup};

    /// Two buckets for many clauses: most of them are in chains.
    #[test]
    fn clauses_are_found_in_any_order_and_removed_one_by_one() {
        let mut distinct = Distinct::new(9);
        let (mut clauses, mut lookup) = (Clauses::new(), Lookup::new(1));
        let rows: [&[i32]; 7] = [&[1, 2, 3], &[1, 4], &[2, 3], &[3, 2, 1], &[5], &[], &[-5]];
        for row in rows {
            distinct.read(row);
            let clause = clauses.push(&distinct.literals);
            lookup.insert(clause, &distinct.literals);
        }
        let mut found = |lookup: &Lookup, words: &[i32]| {
            distinct.read(words);
            lookup.find(&clauses, &distinct)
        };
        assert_eq!(found(&lookup, &[2, 1, 3]), Some(3));
        assert_eq!(found(&lookup, &[4, 1, 4]), Some(1));
        assert_eq!(found(&lookup, &[]), Some(5));
        assert_eq!(found(&lookup, &[1, 2]), None);
        for clause in [3, 5, 4] {
            lookup.remove(clause, clauses.of(clause));
        }
        assert_eq!(found(&lookup, &[2, 1, 3]), Some(0));
        assert_eq!(found(&lookup, &[]), None);
        assert_eq!(found(&lookup, &[-5]), Some(6));
        lookup.remove(0, clauses.of(0));
        assert_eq!(found(&lookup, &[2, 1, 3]), None);
        assert_eq!(found(&lookup, &[3, 2]), Some(2));
    }
}
