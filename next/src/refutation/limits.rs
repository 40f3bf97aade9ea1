//! How much a refutation may take.

use std::time::Instant;

use super::why::Why;

/// The words of a list and the bytes of a file are never more, so that places and numbers of clauses fit into 32 bits.
const MOST: usize = 1 << 30;

/// Literals of variables up to this one fit into 32 bits.
const VARIABLES: u64 = 1 << 30;

/// The bytes of the file, its lemmas, about the bytes that are taken to work on it, and when to give up.
#[derive(Clone, Copy, Debug, PartialEq, Eq)]
pub struct Limits {
    pub bytes: usize,
    pub lemmas: usize,
    pub memory: usize,
    pub until: Option<Instant>,
}

impl Default for Limits {
    fn default() -> Limits {
        Limits { bytes: MOST, lemmas: 10_000_000, memory: 2 << 30, until: None }
    }
}

impl Limits {
    pub fn allow_list(&self, words: usize) -> Result<(), Why> {
        allow(words <= MOST, Why::Memory(self.memory))
    }

    pub fn allow_bytes(&self, bytes: usize) -> Result<(), Why> {
        let limit = self.bytes.min(MOST);
        allow(bytes <= limit, Why::Bytes(limit))
    }

    pub fn allow_lemmas(&self, lemmas: usize) -> Result<(), Why> {
        allow(lemmas <= self.lemmas, Why::Lemmas(self.lemmas))
    }

    /// About what the tables take: 4 bytes for a word or a hint, for a clause its watches and numbers, for a variable what is known
    /// of it and four lists of watches.
    pub fn allow_memory(&self, words: usize, clauses: usize, variables: usize) -> Result<(), Why> {
        let [words, clauses, variables, memory] = [words, clauses, variables, self.memory].map(|number| number as u64);
        allow(variables <= VARIABLES && 4 * words + 48 * clauses + 128 * variables <= memory, Why::Memory(self.memory))
    }

    pub fn allow_time(&self) -> Result<(), Why> {
        allow(self.until.map_or(true, |until| Instant::now() < until), Why::Time)
    }
}

fn allow(fits: bool, why: Why) -> Result<(), Why> {
    if fits {
        Ok(())
    } else {
        Err(why)
    }
}

#[cfg(test)]
mod tests {
    use super::{Limits, Why, MOST};
    use std::time::{Duration, Instant};

    #[test]
    fn each_limit_has_two_sides() {
        let limits = Limits { bytes: 10, lemmas: 3, memory: 4 * 5 + 48 * 2 + 128, until: None };
        assert_eq!((limits.allow_bytes(10), limits.allow_bytes(11)), (Ok(()), Err(Why::Bytes(10))));
        assert_eq!((limits.allow_lemmas(3), limits.allow_lemmas(4)), (Ok(()), Err(Why::Lemmas(3))));
        assert_eq!(limits.allow_memory(5, 2, 1), Ok(()));
        for (words, clauses, variables) in [(6, 2, 1), (5, 3, 1), (5, 2, 2)] {
            assert_eq!(limits.allow_memory(words, clauses, variables), Err(Why::Memory(limits.memory)));
        }
    }

    #[test]
    fn numbers_fit_whatever_is_allowed() {
        let limits = Limits { bytes: usize::MAX, lemmas: usize::MAX, memory: usize::MAX, until: None };
        assert_eq!((limits.allow_bytes(MOST), limits.allow_bytes(MOST + 1)), (Ok(()), Err(Why::Bytes(MOST))));
        assert_eq!((limits.allow_list(MOST), limits.allow_list(MOST + 1)), (Ok(()), Err(Why::Memory(usize::MAX))));
        assert_eq!(limits.allow_memory(0, 0, 1 << 31), Err(Why::Memory(usize::MAX)));
    }

    #[test]
    fn time_is_used_up() {
        let now = Instant::now();
        let limit = |until| Limits { until, ..Limits::default() }.allow_time();
        assert_eq!((limit(None), limit(Some(now))), (Ok(()), Err(Why::Time)));
        assert_eq!(limit(Some(now + Duration::from_secs(3600))), Ok(()));
    }
}
