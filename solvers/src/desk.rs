//! Lists given to solvers, each call a process of its own.

use std::env;
use std::fs;
use std::io::{BufRead, BufReader};
use std::process::{Child, Command, Stdio};

use wirdoku::answer::competition;
use wirdoku::scratch::Scratch;
use wirdoku::solver::{self, Solver, Verdict};

use crate::list::List;

/// Counts the calls.
#[derive(Default)]
pub struct Desk {
    pub calls: usize,
}

impl Desk {
    /// What a solver says of a list and further clauses.
    pub fn solve(&mut self, solver: Solver, list: &List, further: &[Vec<i32>]) -> Result<Verdict, String> {
        self.calls += 1;
        let file = list.file_with(further);
        solver::solve(solver, list.variables, &file).map_err(|failure| failure.to_string())
    }

    /// All satisfying assignments of a list, by picosat's own enumeration, which
    /// is ended if there are more than `limit`.
    pub fn all(&mut self, list: &List, limit: usize) -> Result<Vec<Vec<u8>>, String> {
        self.calls += 1;
        let scratch = Scratch::under(&env::temp_dir()).map_err(|error| error.to_string())?;
        let path = scratch.file("list.cnf");
        fs::write(&path, list.file_with(&[])).map_err(|error| error.to_string())?;
        let mut command = Command::new("picosat");
        command.arg("--all").arg(&path).stdout(Stdio::piped());
        let mut child = command.spawn().map_err(|error| format!("picosat: {error}"))?;
        let written = first_answers(&mut child, limit);
        // Ends it where the limit was passed; a process that has ended is left as it is.
        let _ = child.kill();
        child.wait().map_err(|error| error.to_string())?;
        solutions(&written?, list.variables)
    }
}

/// What picosat writes; an error if it gives more than `limit` answers.
fn first_answers(child: &mut Child, limit: usize) -> Result<String, String> {
    let output = child.stdout.take().ok_or("picosat writes nothing")?;
    let (mut text, mut answers) = (String::new(), 0);
    for line in BufReader::new(output).lines() {
        let line = line.map_err(|error| error.to_string())?;
        answers += usize::from(line == "s SATISFIABLE");
        if answers > limit {
            return Err(format!("more than {limit} assignments"));
        }
        text.push_str(&line);
        text.push('\n');
    }
    Ok(text)
}

/// The answers one after the other, then their number: `s SOLUTIONS n`.
fn solutions(text: &str, variables: usize) -> Result<Vec<Vec<u8>>, String> {
    let (answers, number) = text.trim_end().rsplit_once("s SOLUTIONS ").ok_or("picosat --all did not come to its end")?;
    let mut solutions = Vec::new();
    for answer in answers.split("s SATISFIABLE\n").skip(1) {
        let answer = format!("s SATISFIABLE\n{answer}");
        match competition(answer.as_bytes(), variables)? {
            Verdict::Satisfiable(assignment) => solutions.push(assignment),
            Verdict::Unsatisfiable => return Err("an answer without values".to_string()),
        }
    }
    if number != solutions.len().to_string() {
        return Err(format!("{} answers, but picosat says {number}", solutions.len()));
    }
    Ok(solutions)
}
