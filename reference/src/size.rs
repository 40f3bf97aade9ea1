//! The size program: a bound line and a model text in, five lines out.

use crate::list::{totals, Totals};
use crate::refusal::{Refusal, WORDS_SHORT};
use crate::text::{read_bound_line, read_whole};

/// The words that the program lends.
pub const LENT_WORDS: u32 = 16_384;

/// The five numbers of the program's output.
#[derive(Clone, Copy, PartialEq, Eq, Debug)]
pub struct Sizes {
    pub refusal: u32,
    pub line: u32,
    pub totals: Totals,
}

impl Sizes {
    fn refused(refusal: Refusal) -> Sizes {
        Sizes { refusal: refusal.number, line: refusal.place, totals: Totals::default() }
    }

    /// The five lines.
    pub fn lines(&self) -> String {
        format!(
            "refusal={}\nline={}\nvariables={}\nclauses={}\nwords={}\n",
            self.refusal, self.line, self.totals.variables, self.totals.clauses, self.totals.words
        )
    }
}

/// Tests 9, then the text, then 21, then 22. After a refusal the totals are 0,
/// but words after 22 is the number needed.
pub fn sizes(input: &[u8]) -> Sizes {
    match accepted_totals(input) {
        Err(refusal) => Sizes::refused(refusal),
        Ok(totals) if totals.words > LENT_WORDS => {
            let needed = Totals { words: totals.words, ..Totals::default() };
            Sizes { refusal: WORDS_SHORT, line: 0, totals: needed }
        }
        Ok(totals) => Sizes { refusal: 0, line: 0, totals },
    }
}

/// The list's totals, or 9, 1 to 8 or 21.
fn accepted_totals(input: &[u8]) -> Result<Totals, Refusal> {
    let (bound, text) = read_bound_line(input)?;
    let model = read_whole(text)?;
    totals(&model, bound as usize)
}
