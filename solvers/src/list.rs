//! A clause list as the proved library emits it and writes it as a DIMACS file.

use reference::dimacs::line;
use reference::subject::Subject;
use wirdoku::library::{self, FileAnswer, Sizes};

pub struct List {
    pub variables: usize,
    pub words: Vec<i32>,
    clauses: usize,
    file: Vec<u8>,
}

impl List {
    /// The library's file; with further clauses, its lines after the first one and
    /// theirs, after a first line that counts them.
    pub fn file_with(&self, further: &[Vec<i32>]) -> Vec<u8> {
        if further.is_empty() {
            return self.file.clone();
        }
        let first = format!("p cnf {} {}\n", self.variables, self.clauses + further.len());
        let mut file = first.into_bytes();
        file.extend(self.file.iter().skip_while(|byte| **byte != b'\n').skip(1));
        file.extend(further.iter().flat_map(|clause| line(clause).into_bytes()));
        file
    }
}

/// The list of a model for a bound.
pub fn emitted(subject: &Subject, bound: usize) -> Result<List, String> {
    let text = &subject.text;
    let emit = |words: &mut [i32]| library::emit(text, bound, words);
    listed(library::counts(text, bound), emit, |file| library::dimacs(text, bound, file))
}

/// The list of two models composed for a bound.
pub fn emitted_together(first: &[u8], second: &[u8], bound: usize) -> Result<List, String> {
    let emit = |words: &mut [i32]| library::pair_emit(first, second, bound, words);
    listed(library::pair_counts(first, second, bound), emit, |file| library::pair_dimacs(first, second, bound, file))
}

/// A list as the calls of the library give it. Its totals must be those told beforehand and those of
/// the words; the file's first line has them too, and its numbers are the words.
fn listed(told: Sizes, emit: impl Fn(&mut [i32]) -> Sizes, dimacs: impl Fn(&mut [u8]) -> FileAnswer) -> Result<List, String> {
    if told.number != 0 {
        return Err(format!("the counts are refused: {told:?}"));
    }
    let mut words = vec![0; told.words];
    let sizes = emit(&mut words);
    if sizes != told {
        return Err(format!("counts say {told:?}, emission says {sizes:?}"));
    }
    let clauses = words.iter().filter(|word| **word == 0).count();
    let greatest = words.iter().map(|word| word.unsigned_abs()).max();
    if clauses != told.clauses || greatest != Some(told.variables as u32) {
        return Err(format!("{told:?}, but the words hold {clauses} clauses, variables to {greatest:?}"));
    }
    let file = written(dimacs)?;
    let text = String::from_utf8_lossy(&file);
    let numbers = text.strip_prefix(&format!("p cnf {} {clauses}\n", told.variables));
    let read: Option<Vec<i32>> =
        numbers.and_then(|numbers| numbers.split_ascii_whitespace().map(|number| number.parse().ok()).collect());
    if read.as_ref() != Some(&words) {
        return Err("the numbers of the file are not those of the list".to_string());
    }
    Ok(List { variables: told.variables, words, clauses, file })
}

/// The file, in a buffer of the length that the library tells.
fn written(dimacs: impl Fn(&mut [u8]) -> FileAnswer) -> Result<Vec<u8>, String> {
    let mut file = vec![0; dimacs(&mut []).bytes];
    let answer = dimacs(&mut file);
    if (answer.number, answer.bytes) != (0, file.len()) {
        return Err(format!("{} bytes are told, the file is refused: {answer:?}", file.len()));
    }
    Ok(file)
}

/// The unit clauses that fix an assignment's values.
pub fn fixing(assignment: &[u8]) -> Vec<Vec<i32>> {
    let literals = (1..).zip(assignment);
    literals.map(|(variable, value)| vec![if *value == 1 { variable } else { -variable }]).collect()
}

/// The clause that rules one assignment out.
pub fn blocking(assignment: &[u8]) -> Vec<i32> {
    let literals = (1..).zip(assignment);
    literals.map(|(variable, value)| if *value == 1 { -variable } else { variable }).collect()
}
