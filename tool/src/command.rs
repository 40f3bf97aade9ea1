//! What each command does.

use std::io::{self, Write};

use crate::args::{Bounds, Command, Files, HELP};
use crate::library::Sizes;
use crate::model::Model;
use crate::solver::{solve, Solver, Verdict};
use crate::{explain, parts, trace};

/// The exit statuses; `args::HELP` says what each means.
pub mod status {
    pub const DONE: u8 = 0;
    pub const USAGE: u8 = 1;
    pub const REFUSED: u8 = 2;
    pub const NO_SOLVER: u8 = 3;
    pub const WRONG_ANSWER: u8 = 4;
    pub const FILE: u8 = 5;
    pub const RUN: u8 = 10;
    pub const NO_RUN: u8 = 20;
}

/// An ending before the answer: an exit status and what to say on standard error.
#[derive(Debug)]
pub struct Stop {
    pub status: u8,
    pub message: String,
}

impl Stop {
    fn new(status: u8, message: String) -> Stop {
        Stop { status, message }
    }
}

impl From<io::Error> for Stop {
    fn from(error: io::Error) -> Stop {
        Stop::new(status::FILE, format!("the output cannot be written: {}", error))
    }
}

/// The model of the files that a command names.
fn model(files: &Files) -> Result<Model, Stop> {
    Model::read(files).map_err(|message| Stop::new(status::FILE, message))
}

/// Stops if a call with this model was refused.
fn accepted(model: &Model, number: u8, line: usize) -> Result<(), Stop> {
    match number {
        0 => Ok(()),
        _ => Err(Stop::new(status::REFUSED, model.refusal(number, line))),
    }
}

fn sizes(model: &Model, bound: usize) -> Result<Sizes, Stop> {
    let sizes = model.counts(bound);
    accepted(model, sizes.number, sizes.line)?;
    Ok(sizes)
}

/// The clause list for a bound as the library writes it, in a buffer of the size that the library names.
fn file(model: &Model, bound: usize) -> Result<Vec<u8>, Stop> {
    let mut file = vec![0; model.dimacs(bound, &mut []).bytes];
    let answer = model.dimacs(bound, &mut file);
    accepted(model, answer.number, answer.line)?;
    Ok(file)
}

/// Carries out a command; the answer goes to `out`, progress to `log`. Returns the exit status.
pub fn run(command: &Command, out: &mut dyn Write, log: &mut dyn Write) -> Result<u8, Stop> {
    match command {
        Command::Help => write!(out, "{}", HELP)?,
        Command::Version => writeln!(out, "wirdoku {}", env!("CARGO_PKG_VERSION"))?,
        Command::Check { files, bounds, solver, quiet } => {
            let mut silence = io::sink();
            let log = if *quiet { &mut silence } else { log };
            return check(&model(files)?, *bounds, *solver, out, log);
        }
        Command::Size { files, bound } => size(&model(files)?, *bound, out)?,
        Command::Dimacs { files, bound } => out.write_all(&file(&model(files)?, *bound)?)?,
        Command::Walk { files, run } => return walk(&model(files)?, run, out),
        Command::Explain { number, files } => explain(*number, files.as_ref(), out)?,
    }
    Ok(status::DONE)
}

fn check(model: &Model, bounds: Bounds, solver: Option<Solver>, out: &mut dyn Write, log: &mut dyn Write) -> Result<u8, Stop> {
    let (first, last) = match bounds {
        Bounds::Exactly(bound) => (bound, bound),
        Bounds::UpTo(bound) => (0, bound),
    };
    sizes(model, last)?;
    let solver = chosen(solver)?;
    for bound in first..=last {
        if let Some(run) = run_at(model, bound, solver, log)? {
            writeln!(out, "a run of {} reaches the target", steps(bound))?;
            print_run(model, &run, out)?;
            return Ok(status::RUN);
        }
    }
    match bounds {
        Bounds::Exactly(bound) => writeln!(out, "no run of exactly {}", steps(bound))?,
        Bounds::UpTo(bound) => writeln!(out, "no run up to {}", steps(bound))?,
    }
    writeln!(out, "(the word of {}, which is not checked)", solver.name())?;
    Ok(status::NO_RUN)
}

fn chosen(solver: Option<Solver>) -> Result<Solver, Stop> {
    solver.or_else(Solver::first_installed).ok_or_else(|| {
        let message = "no solver is on the path: install one of Debian's packages cadical, minisat, picosat";
        Stop::new(status::NO_SOLVER, message.to_string())
    })
}

fn steps(count: usize) -> String {
    format!("{} step{}", count, if count == 1 { "" } else { "s" })
}

/// Asks the solver for a run of exactly `bound` steps, and believes an assignment only if the proved calls take it.
fn run_at(model: &Model, bound: usize, solver: Solver, log: &mut dyn Write) -> Result<Option<Vec<u8>>, Stop> {
    let (sizes, file) = (sizes(model, bound)?, file(model, bound)?);
    let verdict = solve(solver, sizes.variables, &file).map_err(|failure| Stop::new(status::NO_SOLVER, failure.to_string()))?;
    let said = match verdict {
        Verdict::Satisfiable(_) => "satisfiable",
        Verdict::Unsatisfiable => "unsatisfiable",
    };
    // Progress is a courtesy: an answer does not fail with it.
    let _ = writeln!(log, "bound {}: {} variables, {} clauses, {}", bound, sizes.variables, sizes.clauses, said);
    match verdict {
        Verdict::Satisfiable(assignment) => decoded(model, bound, solver, &file, &assignment).map(Some),
        Verdict::Unsatisfiable => Ok(None),
    }
}

fn decoded(model: &Model, bound: usize, solver: Solver, file: &[u8], assignment: &[u8]) -> Result<Vec<u8>, Stop> {
    let mut run = vec![0; bound];
    let mut answer = model.assignment_to_run(bound, assignment, &mut run);
    let mut clause = String::new();
    if answer.number == 26 {
        clause = format!("\n    {}", clause_at(file, answer.place));
    } else if answer.number == 0 {
        answer = model.walk(&run);
    }
    if answer.number == 0 {
        return Ok(run);
    }
    let reason = explain::refusal(answer.number, answer.place);
    let message = format!("the assignment of {} at bound {} is wrong: {}{}", solver.name(), bound, reason, clause);
    Err(Stop::new(status::WRONG_ANSWER, message))
}

/// The literals of a clause of a file, from its index from 0: the line after the first one and so many, less its 0.
fn clause_at(file: &[u8], index: usize) -> String {
    let line = file.split(|byte| *byte == b'\n').nth(index + 1).unwrap_or(&[]);
    String::from_utf8_lossy(line.strip_suffix(b" 0").unwrap_or(line)).to_string()
}

/// The trace of a run, as far as it is allowed, and its bytes.
fn print_run(model: &Model, run: &[u8], out: &mut dyn Write) -> Result<(), Stop> {
    let shape = model.shape();
    let rows = trace::rows(model, &shape, run);
    match model {
        Model::One(_) => write!(out, "{}", trace::table(&shape, &rows))?,
        Model::Two(first, second) => {
            writeln!(out, "first: {}; second: {}", first.name, second.name)?;
            write!(out, "{}", parts::table(&first.bytes, &second.bytes, &rows))?;
        }
    }
    let bytes: Vec<String> = run.iter().map(|byte| format!(" {}", byte)).collect();
    writeln!(out, "step bytes:{}", bytes.concat())?;
    Ok(())
}

fn walk(model: &Model, run: &[u8], out: &mut dyn Write) -> Result<u8, Stop> {
    let answer = model.walk(run);
    match answer.number {
        0 => writeln!(out, "this run of {} reaches the target", steps(run.len()))?,
        27..=30 => writeln!(out, "no run into the target: {}", explain::refusal(answer.number, answer.place))?,
        number => accepted(model, number, answer.place)?,
    }
    if answer.number != 29 {
        print_run(model, run, out)?;
    }
    Ok(if answer.number == 0 { status::RUN } else { status::NO_RUN })
}

fn size(model: &Model, bound: usize, out: &mut dyn Write) -> Result<(), Stop> {
    let sizes = sizes(model, bound)?;
    let shape = model.shape();
    writeln!(out, "variables={}\nclauses={}\nwords={}", sizes.variables, sizes.clauses, sizes.words)?;
    writeln!(out, "ceiling={}\nstate={}\nchoices={}", shape.ceiling, shape.state, shape.choices)?;
    Ok(())
}

fn explain(number: u8, files: Option<&Files>, out: &mut dyn Write) -> Result<(), Stop> {
    let sentence =
        explain::sentence(number).ok_or_else(|| Stop::new(status::USAGE, format!("no refusal has the number {}", number)))?;
    let model = files.map(model).transpose()?;
    writeln!(out, "refusal {}: {}", number, sentence)?;
    if let Some(model) = model {
        match (model.accepted(), &model) {
            ((0, _), Model::One(_)) => writeln!(out, "{}: the text is accepted", model.name())?,
            ((0, _), Model::Two(..)) => writeln!(out, "{}: both texts are accepted, and they compose", model.name())?,
            ((number, line), _) => writeln!(out, "{}", model.refusal(number, line))?,
        }
    }
    Ok(())
}
