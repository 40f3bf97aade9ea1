//! The calls that are measured. Every library call reads the model's text, so
//! the other sides read it too. The sides of a row stand in the
//! order that module table names, and all must agree.

use reference::assign;
use reference::dimacs;
use reference::list;
use reference::step;
use reference::subject::Subject;
use reference::text::read;
use wirdoku::library;

use crate::fast::fast;
use crate::files::formatted;
use crate::input;
use crate::measure::{keep, Rounds};
use crate::plain;
use crate::table::{FileRow, Row, Work};

/// All calls on a model for a bound; those that need a run only if it has one.
pub fn rows(input: &Subject, bound: usize) -> Result<Vec<Row>, String> {
    let mut rows = vec![reading(input), totals(input, bound)?, emission(input, bound)?];
    rows.extend(search(input, bound)?);
    rows.extend(runs(input, bound)?);
    Ok(rows)
}

fn row(input: &Subject, call: &'static str, bound: Option<usize>, work: Work, rounds: Rounds) -> Row {
    Row { call, model: input.name.clone(), bound, work, rounds }
}

/// A buffer for each side that writes.
fn lent<T: Copy>(value: T, length: usize) -> [Vec<T>; 4] {
    [(); 4].map(|()| vec![value; length])
}

fn agree(input: &Subject, call: &str, agreed: bool) -> Result<(), String> {
    if agreed {
        Ok(())
    } else {
        Err(format!("{call} of {}: the answers differ", input.name))
    }
}

fn reading(input: &Subject) -> Row {
    let text = input.text.as_slice();
    let rounds = Rounds::of(&mut [&mut || keep(library::read(text)), &mut || keep(read(text))]);
    row(input, "read", None, vec![(text.len(), "bytes")], rounds)
}

fn totals(input: &Subject, bound: usize) -> Result<Row, String> {
    let (text, model) = (input.text.as_slice(), &input.model);
    let told = library::counts(text, bound);
    let counted = list::totals(model, bound).map_err(|refusal| format!("{refusal:?}"))?;
    let numbers = (counted.variables as usize, counted.clauses as usize, counted.words as usize);
    let agreed = (told.variables, told.clauses, told.words) == numbers && plain::totals(model, bound) == Some(numbers);
    agree(input, "counts", agreed)?;
    let rounds = Rounds::of(&mut [
        &mut || keep(library::counts(text, bound)),
        &mut || keep(list::totals(&read(text).model, bound)),
        &mut || keep(plain::totals(&read(text).model, bound)),
        &mut || keep(plain::totals(model, bound)),
        &mut || keep(library::read(text)),
    ]);
    Ok(row(input, "counts", Some(bound), vec![(1, "calls")], rounds))
}

pub fn emission(input: &Subject, bound: usize) -> Result<Row, String> {
    let (text, model) = (input.text.as_slice(), &input.model);
    let words = library::counts(text, bound).words;
    let mut buffers = lent(7, words);
    let [a, b, c, d] = &mut buffers;
    let rounds = Rounds::of(&mut [
        &mut || keep(library::emit(text, bound, a)),
        &mut || keep(list::emit(&read(text).model, bound, b)),
        &mut || keep(plain::emit(&read(text).model, bound, c)),
        &mut || keep(plain::emit(model, bound, d)),
        &mut || keep(library::read(text)),
    ]);
    agree(input, "emit", buffers.windows(2).all(|pair| pair[0] == pair[1]))?;
    Ok(row(input, "emit", Some(bound), vec![(words, "words")], rounds))
}

/// Bytes a word that are always enough for a file, and for its first line.
const BYTES_A_WORD: usize = 12;
const FIRST_LINE: usize = 64;

/// The DIMACS file, into a buffer of its length and into one with room to spare.
pub fn filing(input: &Subject, bound: usize) -> Result<FileRow, String> {
    let (text, model) = (input.text.as_slice(), &input.model);
    let bytes = same_files(input, bound)?;
    let mut buffers = lent(7, bytes);
    let [exact, a, b, c] = &mut buffers;
    let mut spare = vec![7; FIRST_LINE + BYTES_A_WORD * library::counts(text, bound).words];
    let rounds = Rounds::of(&mut [
        &mut || keep(library::dimacs(text, bound, exact)),
        &mut || keep(library::dimacs(text, bound, &mut spare)),
        &mut || keep(fast(&read(text).model, bound, a)),
        &mut || keep(formatted(&read(text).model, bound, b)),
        &mut || keep(fast(model, bound, c)),
        &mut || keep(library::read(text)),
    ]);
    Ok(FileRow { model: input.name.clone(), bound, bytes, rounds })
}

/// The length of the file, in which all agree, as they do in its bytes, in what is
/// beyond it, and in that a buffer with a byte less is refused.
fn same_files(input: &Subject, bound: usize) -> Result<usize, String> {
    let (text, model) = (input.text.as_slice(), &input.model);
    let file = dimacs::file(model, bound).map_err(|refusal| format!("{refusal:?}"))?.into_bytes();
    let bytes = file.len();
    let expected = [&file[..], &[7]].concat();
    let mut buffers = lent(7, bytes + 1);
    let [a, b, c, _] = &mut buffers;
    let told = library::dimacs(text, bound, a);
    let mut agreed = (told.number, told.bytes) == (0, bytes);
    agreed &= fast(model, bound, b) == Some(Ok(bytes)) && formatted(model, bound, c) == Some(Ok(bytes));
    agreed &= buffers[..3].iter().all(|written| *written == expected);
    let mut short = vec![7; bytes - 1];
    let told = library::dimacs(text, bound, &mut short);
    agreed &= (told.number, told.bytes) == (32, bytes);
    agreed &= fast(model, bound, &mut short) == Some(Err(bytes)) && formatted(model, bound, &mut short) == Some(Err(bytes));
    agreed &= short.iter().all(|byte| *byte == 7);
    agree(input, "dimacs", agreed)?;
    Ok(bytes)
}

/// The search for a false clause in a list that has none, and the run.
pub fn search(input: &Subject, bound: usize) -> Result<Option<Row>, String> {
    let (text, model) = (input.text.as_slice(), &input.model);
    let (run, assignment) = match input::run(input, bound) {
        Some(found) => found,
        None => return Ok(None),
    };
    let mut buffers = lent(255, bound);
    let [a, b, c, d] = &mut buffers;
    let rounds = Rounds::of(&mut [
        &mut || keep(library::assignment_to_run(text, bound, &assignment, a)),
        &mut || keep(assign::decode(&read(text).model, bound, &assignment, b)),
        &mut || keep(plain::decode(&read(text).model, bound, &assignment, c)),
        &mut || keep(plain::decode(model, bound, &assignment, d)),
        &mut || keep(library::read(text)),
    ]);
    agree(input, "assignment_to_run", buffers.iter().all(|written| *written == run))?;
    let clauses = library::counts(text, bound).clauses;
    Ok(Some(row(input, "assignment_to_run", Some(bound), vec![(clauses, "clauses"), (assignment.len(), "bytes")], rounds)))
}

/// The walker and the conversion of a run.
fn runs(input: &Subject, bound: usize) -> Result<Vec<Row>, String> {
    match input::run(input, bound) {
        Some((run, assignment)) => Ok(vec![walking(input, &run)?, encoding(input, &run, &assignment)?]),
        None => Ok(Vec::new()),
    }
}

fn walking(input: &Subject, run: &[u8]) -> Result<Row, String> {
    let (text, model) = (input.text.as_slice(), &input.model);
    let accepted = library::walk(text, run).number == 0 && step::walk(model, run) == (0, 0) && plain::walk(model, run).is_some();
    agree(input, "walk", accepted)?;
    let rounds = Rounds::of(&mut [
        &mut || keep(library::walk(text, run)),
        &mut || keep(step::walk(&read(text).model, run)),
        &mut || keep(plain::walk(&read(text).model, run)),
        &mut || keep(plain::walk(model, run)),
        &mut || keep(library::read(text)),
    ]);
    let steps = run.len();
    Ok(row(input, "walk", Some(steps), vec![(steps, "steps")], rounds))
}

fn encoding(input: &Subject, run: &[u8], assignment: &[u8]) -> Result<Row, String> {
    let (text, model) = (input.text.as_slice(), &input.model);
    let length = assignment.len();
    let mut buffers = lent(7, length);
    let [a, b, c, d] = &mut buffers;
    let rounds = Rounds::of(&mut [
        &mut || keep(library::run_to_assignment(text, run, a)),
        &mut || keep(assign::encode(&read(text).model, run, b)),
        &mut || keep(plain::encode(&read(text).model, run, c)),
        &mut || keep(plain::encode(model, run, d)),
        &mut || keep(library::read(text)),
    ]);
    let agreed = buffers.iter().all(|written| written == assignment);
    agree(input, "run_to_assignment", agreed)?;
    let work = vec![(length, "bytes")];
    Ok(row(input, "run_to_assignment", Some(run.len()), work, rounds))
}
