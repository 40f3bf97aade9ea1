//! A refutation of a list by lemmas with hints: the check, the call that writes
//! the list in front of the lemmas, and the file that carries a refutation.
//!
//! Lemmas are clauses in the list's form. The first lemma's literals are taken
//! to be false. A hint names a clause, of the list or an earlier lemma, by the
//! place of its first word. Without the literals that are taken to be false it
//! must have one literal, whose opposite is then taken to be false too, or none:
//! then the lemma holds, and the hints that follow are for the next lemma. When
//! the empty lemma holds, the list cannot be satisfied.

use std::collections::{BTreeSet, HashMap};

use crate::list::emit;
use crate::model::Model;

/// The outcomes. Neither is a refusal.
pub const REFUTED: u32 = 1;
pub const NOT_REFUTED: u32 = 2;

/// The greatest variable of any list.
const LAST_VARIABLE: u32 = 21776;

/// What the call returns. `words` is the length of the list for 0 and for 22,
/// else 0; the outcome is 0 after a refusal.
#[derive(Clone, Copy, PartialEq, Eq, Debug)]
pub struct Refuting {
    pub refusal: u32,
    pub words: u32,
    pub outcome: u32,
}

/// Writes the list to the front of `words`, which hold lemmas behind it, and
/// checks them: 20, 21, 22. A refused call leaves the words as they were.
pub fn refute(model: &Model, bound: usize, words: &mut [i32], hints: &[u32]) -> Refuting {
    let emission = emit(model, bound, words);
    let outcome = match emission.refusal {
        0 if refutes(words, emission.totals.words as usize, hints) => REFUTED,
        0 => NOT_REFUTED,
        _ => 0,
    };
    Refuting { refusal: emission.refusal, words: emission.totals.words, outcome }
}

/// Whether the lemmas from place `first` on and the hints refute the clauses
/// before that place.
pub fn refutes(words: &[i32], first: usize, hints: &[u32]) -> bool {
    if words.iter().any(|word| word.unsigned_abs() > LAST_VARIABLE) {
        return false;
    }
    let clauses = clauses(words);
    let mut lemma = first;
    let mut falsehoods = literals_from(words, lemma);
    for hint in hints {
        let place = *hint as usize;
        let clause = match clauses.get(&place) {
            Some(clause) if place < lemma => clause,
            _ => return false,
        };
        let rest: BTreeSet<i32> = clause.difference(&falsehoods).copied().collect();
        let mut rest = rest.into_iter();
        match (rest.next(), rest.next()) {
            (Some(_), Some(_)) => return false,
            (Some(literal), None) => drop(falsehoods.insert(-literal)),
            (None, _) if words.get(lemma) == Some(&0) => return true,
            (None, _) => {
                lemma = following(words, lemma);
                falsehoods = literals_from(words, lemma);
            }
        }
    }
    false
}

/// The clauses that a 0 closes, by the places of their first words.
fn clauses(words: &[i32]) -> HashMap<usize, BTreeSet<i32>> {
    let mut clauses = HashMap::new();
    let mut place = 0;
    while words[place..].contains(&0) {
        clauses.insert(place, literals_from(words, place));
        place = following(words, place);
    }
    clauses
}

/// The literals from a place to the next 0.
fn literals_from(words: &[i32], place: usize) -> BTreeSet<i32> {
    words.iter().skip(place).copied().take_while(|word| *word != 0).collect()
}

/// The place after the next 0, or the end.
fn following(words: &[i32], place: usize) -> usize {
    let length = words.iter().skip(place).take_while(|word| **word != 0).count();
    (place + length + 1).min(words.len())
}

/// Reads a refutation from a file of two lines: the words of the lemmas, and the
/// hints, numbers one space apart. None for another form.
pub fn read(file: &str) -> Option<(Vec<i32>, Vec<u32>)> {
    let (lemmas, hints) = file.strip_suffix('\n')?.split_once('\n')?;
    let lemmas = lemmas.split(' ').map(|word| word.parse().ok()).collect::<Option<_>>()?;
    let hints = hints.split(' ').map(|hint| hint.parse().ok()).collect::<Option<_>>()?;
    Some((lemmas, hints))
}
