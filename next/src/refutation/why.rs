//! Why a refutation was not checked, as the end of a sentence that begins `its refutation was not checked, because`.

use std::fmt;

use super::drat::Malformed;

#[derive(Clone, Copy, Debug, PartialEq, Eq)]
pub enum Why {
    /// The number of a lemma of the file, from 1, that reverse unit propagation does not confirm.
    NotRup(usize),
    /// The number of a lemma with a variable of its own: it would be a definition, which the checker does not know.
    Variable(usize),
    NoEmptyClause,
    Malformed(Malformed),
    /// A list that is none: its last clause is not closed.
    List,
    Bytes(usize),
    Lemmas(usize),
    Memory(usize),
    Time,
    /// The checker, asked at last, did not find the list refuted.
    NotAccepted,
}

impl From<Malformed> for Why {
    fn from(malformed: Malformed) -> Why {
        Why::Malformed(malformed)
    }
}

impl fmt::Display for Why {
    fn fmt(&self, out: &mut fmt::Formatter) -> fmt::Result {
        match self {
            Why::NotRup(number) => write!(out, "lemma {} does not follow by unit propagation from the clauses before it", number),
            Why::Variable(number) => write!(out, "lemma {} has a variable that the list does not have", number),
            Why::NoEmptyClause => write!(out, "it ends before the empty clause"),
            Why::Malformed(Malformed { at, what }) => write!(out, "it is malformed at byte {}: {}", at, what),
            Why::List => write!(out, "the last clause of the list is not closed"),
            Why::Bytes(limit) => write!(out, "it has more than {} bytes", limit),
            Why::Lemmas(limit) => write!(out, "it has more than {} lemmas", limit),
            Why::Memory(limit) => write!(out, "it would take more than {} bytes of memory", limit),
            Why::Time => write!(out, "the time was used up"),
            Why::NotAccepted => write!(out, "the checker did not accept it"),
        }
    }
}
