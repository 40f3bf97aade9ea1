//! Clauses one after the other in one row of literals.

/// A literal: twice its variable, and one more if it is negated.
pub type Literal = u32;

/// The number of a clause, from 0: those of the list, then the lemmas of the file.
pub type Clause = u32;

pub fn literal(word: i32) -> Literal {
    word.unsigned_abs() * 2 + u32::from(word < 0)
}

pub fn word(literal: Literal) -> i32 {
    let variable = (literal / 2) as i32;
    if literal % 2 == 0 {
        variable
    } else {
        -variable
    }
}

pub fn opposite(literal: Literal) -> Literal {
    literal ^ 1
}

pub fn variable(literal: Literal) -> usize {
    (literal / 2) as usize
}

/// Row and numbers fit into 32 bits: mod.rs limits the list and the file.
pub struct Clauses {
    literals: Vec<Literal>,
    /// Where each clause begins, and at last where the next one will.
    begins: Vec<u32>,
}

impl Clauses {
    pub fn new() -> Clauses {
        Clauses { literals: Vec::new(), begins: vec![0] }
    }

    pub fn push(&mut self, literals: &[Literal]) -> Clause {
        self.literals.extend_from_slice(literals);
        self.begins.push(self.literals.len() as u32);
        self.count() as Clause - 1
    }

    pub fn count(&self) -> usize {
        self.begins.len() - 1
    }

    /// How many literals all clauses have.
    pub fn total(&self) -> usize {
        self.literals.len()
    }

    pub fn of(&self, clause: Clause) -> &[Literal] {
        &self.literals[self.begins[clause as usize] as usize..self.begins[clause as usize + 1] as usize]
    }

    pub fn of_mut(&mut self, clause: Clause) -> &mut [Literal] {
        &mut self.literals[self.begins[clause as usize] as usize..self.begins[clause as usize + 1] as usize]
    }
}

/// The literals of one clause, each once.
pub struct Distinct {
    pub literals: Vec<Literal>,
    /// For each literal the last reading that met it.
    met: Vec<u32>,
    readings: u32,
}

impl Distinct {
    pub fn new(variables: usize) -> Distinct {
        Distinct { literals: Vec::new(), met: vec![0; 2 * variables + 2], readings: 0 }
    }

    /// Reads the words of a clause.
    pub fn read(&mut self, words: &[i32]) {
        self.readings += 1;
        self.literals.clear();
        for literal in words.iter().map(|word| literal(*word)) {
            if !self.has(literal) {
                self.met[literal as usize] = self.readings;
                self.literals.push(literal);
            }
        }
    }

    pub fn has(&self, literal: Literal) -> bool {
        self.met[literal as usize] == self.readings
    }
}

#[cfg(test)]
mod tests {
    use super::{literal, word, Clauses, Distinct};

    #[test]
    fn words_are_read_back() {
        for number in [1, -1, 7, -7, 1 << 29, -(1 << 29)] {
            assert_eq!(word(literal(number)), number);
        }
    }

    #[test]
    fn clauses_stand_one_after_the_other() {
        let mut clauses = Clauses::new();
        assert_eq!([clauses.push(&[2, 5]), clauses.push(&[]), clauses.push(&[7])], [0, 1, 2]);
        assert_eq!([clauses.of(0), clauses.of(1), clauses.of(2)], [&[2, 5][..], &[], &[7]]);
        assert_eq!((clauses.count(), clauses.total()), (3, 3));
    }

    #[test]
    fn literals_are_read_once() {
        let mut distinct = Distinct::new(3);
        distinct.read(&[3, -1, 3, 1, -1]);
        assert_eq!(distinct.literals, [6, 3, 2]);
        assert!(distinct.has(6) && !distinct.has(7) && !distinct.has(4));
        distinct.read(&[]);
        assert!(distinct.literals.is_empty() && !distinct.has(6));
    }
}
