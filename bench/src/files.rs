//! The DIMACS file in plain Rust with the standard library's formatting. It has the
//! library call's contract, as the one for speed (module fast) has: the length is
//! known before the first byte is written, a buffer that is too short stays as it
//! was, and nothing is written beyond the file.

use std::io::{self, Write};

use reference::model::Model;

use crate::clauses::{visit, Visitor};
use crate::layout::{Group, Layout};
use crate::plain::totals;

/// The bytes written, or the bytes needed of a buffer that has fewer.
pub type Filed = Result<usize, usize>;

/// Writes the lines by `write!`.
struct Formatter<W>(W);

impl<W: Write> Visitor for Formatter<W> {
    type End = io::Error;

    fn members(&mut self, group: Group) -> io::Result<()> {
        for member in group.first + 1..=group.first + group.length {
            write!(self.0, "{member} ")?;
        }
        writeln!(self.0, "0")
    }

    fn unit(&mut self, a: usize) -> io::Result<()> {
        writeln!(self.0, "{} 0", a + 1)
    }

    fn never(&mut self, a: usize) -> io::Result<()> {
        writeln!(self.0, "-{} 0", a + 1)
    }

    fn implies(&mut self, a: usize, b: usize) -> io::Result<()> {
        writeln!(self.0, "-{} {} 0", a + 1, b + 1)
    }

    fn excludes(&mut self, a: usize, b: usize) -> io::Result<()> {
        writeln!(self.0, "-{} -{} 0", a + 1, b + 1)
    }

    fn both_imply(&mut self, a: usize, b: usize, c: usize) -> io::Result<()> {
        writeln!(self.0, "-{} -{} {} 0", a + 1, b + 1, c + 1)
    }
}

/// The file is made whole, then copied if it fits, which takes less time than to
/// format it twice; none if it is refused for another reason.
pub fn formatted(model: &Model, bound: usize, out: &mut [u8]) -> Option<Filed> {
    let (variables, clauses, _) = totals(model, bound)?;
    let mut lines = Formatter(Vec::new());
    writeln!(lines.0, "p cnf {variables} {clauses}").ok()?;
    visit(model, &Layout::of(model), bound, &mut lines).ok()?;
    let file = lines.0;
    Some(match out.get_mut(..file.len()) {
        Some(out) => {
            out.copy_from_slice(&file);
            Ok(file.len())
        }
        None => Err(file.len()),
    })
}
