//! What a part has compared: its cases, the answers of each call by refusal number, and the cases that failed.

use std::collections::BTreeMap;
use std::fmt::Debug;

use wirdoku::library::{Answer, FileAnswer, OutputAnswer, PairAnswer, PartSteps, Shape, Sizes, StateAnswer};

use crate::lent::{Cell, Lent};

/// A part stops after this many failures.
const MOST_FAILURES: usize = 5;
/// How often a part must meet each answer that it is due to meet.
pub const LEAST: usize = 50;

/// An answer that bears a refusal number, or 0.
pub trait Numbered: Copy + PartialEq + Debug {
    fn number(&self) -> u8;
}

impl Numbered for Answer {
    fn number(&self) -> u8 {
        self.number
    }
}

impl Numbered for Sizes {
    fn number(&self) -> u8 {
        self.number
    }
}

impl Numbered for FileAnswer {
    fn number(&self) -> u8 {
        self.number
    }
}

impl Numbered for OutputAnswer {
    fn number(&self) -> u8 {
        self.number
    }
}

impl Numbered for Shape {
    fn number(&self) -> u8 {
        self.number
    }
}

impl Numbered for PairAnswer {
    fn number(&self) -> u8 {
        self.number
    }
}

impl Numbered for PartSteps {
    fn number(&self) -> u8 {
        self.number
    }
}

impl Numbered for StateAnswer {
    fn number(&self) -> u8 {
        self.number
    }
}

/// Calls by name, with the numbers that a part must meet in their answers.
pub type Due = &'static [(&'static str, &'static [u8])];

#[derive(Default)]
pub struct Tally {
    answers: BTreeMap<&'static str, BTreeMap<u8, usize>>,
    differences: Vec<String>,
    pub passed: usize,
    pub failed: usize,
}

impl Tally {
    /// Compares an answer of a call with the reference's.
    pub fn answer<T: Numbered>(&mut self, call: &'static str, expected: T, got: T) {
        let met = self.answers.entry(call).or_default();
        *met.entry(expected.number()).or_default() += 1;
        self.same(call, expected, got);
    }

    /// Compares anything else.
    pub fn same<T: PartialEq + Debug>(&mut self, what: &str, expected: T, got: T) {
        if expected != got {
            self.differences.push(format!("{what}: expected {expected:?}, got {got:?}"));
        }
    }

    /// Compares a lent buffer: `written` from the start, else what it held.
    pub fn buffer<T: Cell>(&mut self, what: &str, lent: &Lent<T>, written: &[T]) {
        if let Some(difference) = lent.difference(written) {
            self.differences.push(format!("{what}: {difference}"));
        }
    }

    /// Ends a case: it passed if nothing differed since the one before. A failed one is printed as `describe` tells it.
    pub fn case(&mut self, describe: impl FnOnce() -> String) {
        if self.differences.is_empty() {
            self.passed += 1;
            return;
        }
        self.failed += 1;
        println!("FAILED: {}", describe());
        for difference in self.differences.drain(..).take(MOST_FAILURES) {
            println!("    {difference}");
        }
    }

    /// Whether enough cases failed to stop.
    pub fn stopped(&self) -> bool {
        self.failed >= MOST_FAILURES
    }

    /// One case for each number that a call must have answered with at least `LEAST` times.
    pub fn demand(&mut self, due: Due) {
        for (call, numbers) in due {
            for number in *numbers {
                let met = self.met(call, *number);
                if met < LEAST {
                    self.differences.push(format!("met {met} times"));
                }
                self.case(|| format!("{call} is to answer {number} at least {LEAST} times"));
            }
        }
    }

    fn met(&self, call: &str, number: u8) -> usize {
        self.answers.get(call).and_then(|met| met.get(&number)).copied().unwrap_or(0)
    }

    /// Prints for each call how often each number was met.
    pub fn print_answers(&self) {
        for (call, met) in &self.answers {
            let counts: Vec<String> = met.iter().map(|(number, count)| format!("{number}:{count}")).collect();
            println!("    {call:<28} {}", counts.join(" "));
        }
    }

    /// The calls compared.
    pub fn calls(&self) -> usize {
        self.answers.values().flat_map(BTreeMap::values).sum()
    }
}

#[cfg(test)]
mod tests {
    use super::Tally;
    use crate::lent::Lent;
    use wirdoku::library::Answer;

    fn answer(number: u8, place: usize) -> Answer {
        Answer { number, place }
    }

    #[test]
    fn a_difference_fails_its_case_alone() {
        let mut tally = Tally::default();
        tally.answer("read", answer(2, 1), answer(2, 2));
        tally.case(|| "first".to_string());
        tally.answer("read", answer(2, 1), answer(2, 1));
        tally.case(|| "second".to_string());
        assert_eq!((tally.passed, tally.failed, tally.calls()), (1, 1, 2));
    }

    #[test]
    fn a_changed_buffer_fails_its_case() {
        let mut tally = Tally::default();
        let mut lent = Lent::<u8>::new(1, 3);
        lent.slice()[2] = 1;
        tally.buffer("walk", &lent, &[]);
        tally.case(|| "buffer".to_string());
        assert_eq!((tally.passed, tally.failed), (0, 1));
    }

    #[test]
    fn a_number_that_is_met_too_seldom_fails() {
        let mut tally = Tally::default();
        for _ in 0..super::LEAST {
            tally.answer("walk", answer(27, 1), answer(27, 1));
        }
        tally.demand(&[("walk", &[27, 28])]);
        assert_eq!((tally.passed, tally.failed), (1, 1));
    }
}
