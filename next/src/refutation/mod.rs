//! From a solver's refutation to one that the proved checker follows: a DRAT file becomes lemmas with hints.
//!
//! Nothing here is proved, and nothing here need be trusted: whatever it hands on, the proved checker accepts only what refutes the
//! list.
//!
//! - `forward` goes through the file (`drat` reads it) until unit propagation makes a clause false. It tests no lemma. Clauses stand in
//!   one row (`clauses`), are found for deletion by `lookup`, and are watched by `propagate`.
//! - `trim` goes back from there. It takes back each step, and tests a lemma only if something later uses it; `hints` tells which
//!   clauses the test used, in order. So lemmas that lead nowhere are never looked at.
//! - `prove` joins this with the checker and says what came of it; `why` names what can stand in the way, `limits` how much it may take.
//! - `check` is a plain checker, for tests.

mod clauses;
mod drat;
mod forward;
mod hints;
mod limits;
mod lookup;
mod propagate;
mod trim;
mod why;

pub mod check;
pub mod prove;

pub use drat::Malformed;
pub use limits::Limits;
pub use why::Why;

use std::fmt;

use forward::Forward;
use trim::Trim;

/// What the checker is given beside the list: the words of the lemmas, each closed by 0, the last one empty; and for each lemma the
/// places, in the list followed by the lemmas, of the clauses that it follows from.
#[derive(Clone, Debug, PartialEq, Eq)]
pub struct Refutation {
    pub lemmas: Vec<i32>,
    pub hints: Vec<u32>,
}

/// A file of two lines: the words of the lemmas, and the hints.
impl fmt::Display for Refutation {
    fn fmt(&self, out: &mut fmt::Formatter) -> fmt::Result {
        write!(out, "{}\n{}\n", spaced(&self.lemmas), spaced(&self.hints))
    }
}

fn spaced<T: ToString>(numbers: &[T]) -> String {
    numbers.iter().map(T::to_string).collect::<Vec<String>>().join(" ")
}

/// Lemmas and hints of a DRAT file that refutes the list. Of its lemmas only those stay that are used. A deletion of a clause that
/// has forced a literal is passed over, and so is one of a clause that is not there.
pub fn refutation(list: &[i32], file: &[u8], limits: Limits) -> Result<Refutation, Why> {
    if list.last().map_or(false, |word| *word != 0) {
        return Err(Why::List);
    }
    limits.allow_list(list.len())?;
    limits.allow_bytes(file.len())?;
    let mut way = Forward::new(list, file.len(), limits)?;
    let conflict = match way.add_list(list) {
        Some(conflict) => conflict,
        None => way.follow(file)?,
    };
    let mut trim = Trim::new(way, limits);
    trim.back_from(conflict)?;
    Ok(trim.refutation(list))
}
