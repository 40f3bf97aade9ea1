//! The DIMACS file in plain Rust, for speed. A table has each number's text, so that
//! a literal is one store of eight bytes, and most of the length is arithmetic.

use reference::model::{variables, well_formed, Model, MAX_BOUND};

use crate::clauses::{start, step, visit, Visitor};
use crate::files::Filed;
use crate::layout::{Group, Layout};
use crate::plain::Never;

/// A line is put into so many bytes, of which it uses 22 at most. What is beyond it
/// is overwritten by the next one.
const WINDOW: usize = 32;

/// The texts of the numbers from 0 on: at most eight bytes each, the first one lowest.
struct Texts {
    /// A minus, the number and a space; its length stands in the top byte.
    negated: Vec<u64>,
    /// The number, a space, 0 and LF: one byte more than the above.
    last: Vec<u64>,
}

/// A number's digits, the first one lowest, and how many they are.
fn digits(mut number: usize) -> (u64, u64) {
    let (mut digits, mut count) = (0, 0);
    loop {
        digits = digits << 8 | b'0' as u64 | (number % 10) as u64;
        (number, count) = (number / 10, count + 1);
        if number == 0 {
            return (digits, count);
        }
    }
}

impl Texts {
    /// Of the numbers to `greatest` and a few more: ten in a row differ in their
    /// last digit alone.
    fn of(greatest: usize) -> Texts {
        let room = greatest + 10;
        let mut texts = Texts { negated: Vec::with_capacity(room), last: Vec::with_capacity(room) };
        for tens in 0..=greatest / 10 {
            let (digits, count) = digits(10 * tens);
            let negated = b'-' as u64 | digits << 8 | (b' ' as u64) << (8 * (count + 1)) | (count + 2) << 56;
            let last = digits | u64::from_le_bytes(*b" 0\n\0\0\0\0\0") << (8 * count);
            let one = 1 << (8 * (count - 1));
            texts.negated.extend((0..10).map(|digit| negated + digit * (one << 8)));
            texts.last.extend((0..10).map(|digit| last + digit * one));
        }
        texts
    }

    /// The length of a negated literal with its space.
    #[inline(always)]
    fn length(&self, a: usize) -> usize {
        (self.negated[a + 1] >> 56) as usize
    }
}

/// Counts literals, those with a minus, and clauses.
#[derive(Default)]
struct Literals {
    all: usize,
    negated: usize,
    clauses: usize,
}

impl Literals {
    #[inline(always)]
    fn clause(&mut self, all: usize, negated: usize) -> Result<(), Never> {
        self.all += all;
        self.negated += negated;
        self.clauses += 1;
        Ok(())
    }

    /// The bytes, if every number has so many digits.
    fn bytes(&self, digits: usize) -> usize {
        self.all * (digits + 1) + self.negated + 2 * self.clauses
    }
}

impl Visitor for Literals {
    type End = Never;

    fn members(&mut self, group: Group) -> Result<(), Never> {
        self.clause(group.length, 0)
    }

    fn unit(&mut self, _: usize) -> Result<(), Never> {
        self.clause(1, 0)
    }

    fn never(&mut self, _: usize) -> Result<(), Never> {
        self.clause(1, 1)
    }

    fn implies(&mut self, _: usize, _: usize) -> Result<(), Never> {
        self.clause(2, 1)
    }

    fn excludes(&mut self, _: usize, _: usize) -> Result<(), Never> {
        self.clause(2, 2)
    }

    fn both_imply(&mut self, _: usize, _: usize, _: usize) -> Result<(), Never> {
        self.clause(3, 2)
    }
}

/// Counts clauses and bytes, whatever digits the numbers have.
struct Bytes<'a> {
    texts: &'a Texts,
    clauses: usize,
    bytes: usize,
}

impl Bytes<'_> {
    /// The lengths of the literals as if all were negated, and how many are not.
    #[inline(always)]
    fn clause(&mut self, negated: usize, positive: usize) -> Result<(), Never> {
        self.clauses += 1;
        self.bytes += negated - positive + 2;
        Ok(())
    }
}

impl Visitor for Bytes<'_> {
    type End = Never;

    fn members(&mut self, group: Group) -> Result<(), Never> {
        let lengths = (group.first..group.first + group.length).map(|member| self.texts.length(member));
        self.clause(lengths.sum(), group.length)
    }

    fn unit(&mut self, a: usize) -> Result<(), Never> {
        self.clause(self.texts.length(a), 1)
    }

    fn never(&mut self, a: usize) -> Result<(), Never> {
        self.clause(self.texts.length(a), 0)
    }

    fn implies(&mut self, a: usize, b: usize) -> Result<(), Never> {
        self.clause(self.texts.length(a) + self.texts.length(b), 1)
    }

    fn excludes(&mut self, a: usize, b: usize) -> Result<(), Never> {
        self.clause(self.texts.length(a) + self.texts.length(b), 0)
    }

    fn both_imply(&mut self, a: usize, b: usize, c: usize) -> Result<(), Never> {
        self.clause(self.texts.length(a) + self.texts.length(b) + self.texts.length(c), 1)
    }
}

/// The clauses of the list and the bytes of their lines. A step whose numbers all
/// have the same digits is counted by arithmetic, so few steps are looked at.
fn counted(model: &Model, layout: &Layout, bound: usize, texts: &Texts) -> (usize, usize) {
    let mut list = Bytes { texts, clauses: 0, bytes: 0 };
    let _ = start(model, layout, &mut list);
    let mut one = Literals::default();
    let _ = step(model, layout, 0, &mut one);
    for index in 0..bound {
        let block = index * layout.step();
        let (least, most) = (texts.length(block), texts.length(block + layout.step() + layout.state - 1));
        if least == most {
            list.clauses += one.clauses;
            list.bytes += one.bytes(least - 2);
        } else {
            let _ = step(model, layout, block, &mut list);
        }
    }
    let _ = list.unit(bound * layout.step() + usize::from(model.target));
    (list.clauses, list.bytes)
}

/// Writes the lines from the start of a buffer that has exactly their length.
struct Lines<'a> {
    texts: &'a Texts,
    out: &'a mut [u8],
    at: usize,
}

#[inline(always)]
fn put(window: &mut [u8; WINDOW], at: usize, text: u64) {
    window[at..at + 8].copy_from_slice(&text.to_le_bytes());
}

/// The length of a negated literal's text, which is at most 7.
#[inline(always)]
fn length(negated: u64) -> usize {
    (negated >> 56) as usize & 7
}

impl Lines<'_> {
    /// A line that `fill` puts at the start of a window and whose length it gives.
    #[inline(always)]
    fn line(&mut self, fill: impl Fn(&Texts, &mut [u8; WINDOW]) -> usize) -> Result<(), Never> {
        let window: Option<&mut [u8; WINDOW]> =
            self.out.get_mut(self.at..self.at + WINDOW).and_then(|window| window.try_into().ok());
        self.at += match window {
            Some(window) => fill(self.texts, window),
            None => {
                // The last lines: nothing may be written beyond them.
                let mut line = [0; WINDOW];
                let length = fill(self.texts, &mut line);
                self.out[self.at..self.at + length].copy_from_slice(&line[..length]);
                length
            }
        };
        Ok(())
    }
}

impl Visitor for Lines<'_> {
    type End = Never;

    fn members(&mut self, group: Group) -> Result<(), Never> {
        for member in group.first..group.first + group.length - 1 {
            self.line(|texts, window| {
                let negated = texts.negated[member + 1];
                put(window, 0, negated >> 8);
                length(negated) - 1
            })?;
        }
        self.unit(group.first + group.length - 1)
    }

    #[inline(always)]
    fn unit(&mut self, a: usize) -> Result<(), Never> {
        self.line(|texts, window| {
            put(window, 0, texts.last[a + 1]);
            texts.length(a) + 1
        })
    }

    #[inline(always)]
    fn never(&mut self, a: usize) -> Result<(), Never> {
        self.line(|texts, window| {
            window[0] = b'-';
            put(window, 1, texts.last[a + 1]);
            texts.length(a) + 2
        })
    }

    #[inline(always)]
    fn implies(&mut self, a: usize, b: usize) -> Result<(), Never> {
        self.line(|texts, window| {
            let first = texts.negated[a + 1];
            put(window, 0, first);
            put(window, length(first), texts.last[b + 1]);
            length(first) + texts.length(b) + 1
        })
    }

    #[inline(always)]
    fn excludes(&mut self, a: usize, b: usize) -> Result<(), Never> {
        self.line(|texts, window| {
            let first = texts.negated[a + 1];
            put(window, 0, first);
            window[length(first)] = b'-';
            put(window, length(first) + 1, texts.last[b + 1]);
            length(first) + texts.length(b) + 2
        })
    }

    #[inline(always)]
    fn both_imply(&mut self, a: usize, b: usize, c: usize) -> Result<(), Never> {
        self.line(|texts, window| {
            let (first, second) = (texts.negated[a + 1], texts.negated[b + 1]);
            let two = length(first) + length(second);
            put(window, 0, first);
            put(window, length(first), second);
            put(window, two, texts.last[c + 1]);
            two + texts.length(c) + 1
        })
    }
}

/// The file for speed; none if it is refused for another reason.
pub fn fast(model: &Model, bound: usize, out: &mut [u8]) -> Option<Filed> {
    if !well_formed(model) || bound > MAX_BOUND {
        return None;
    }
    let (layout, variables) = (Layout::of(model), variables(model, bound) as usize);
    let texts = Texts::of(variables);
    let (clauses, bytes) = counted(model, &layout, bound, &texts);
    let first = format!("p cnf {variables} {clauses}\n");
    let total = first.len() + bytes;
    let file = match out.get_mut(..total) {
        Some(file) => file,
        None => return Some(Err(total)),
    };
    let (head, lines) = file.split_at_mut(first.len());
    head.copy_from_slice(first.as_bytes());
    let mut lines = Lines { texts: &texts, out: lines, at: 0 };
    let _ = visit(model, &layout, bound, &mut lines);
    Some(Ok(total))
}
