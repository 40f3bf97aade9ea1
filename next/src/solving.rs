//! Runs a solver on clauses and takes its answer. Neither the solver nor this module is proved; what a solver prints in the
//! competitions' form is read by a proved call. A satisfying assignment is to be tested by the proved conversion; that a list cannot
//! be satisfied is the solver's own word.

use std::fmt;
use std::io;
use std::process::{Command, Output};
use std::time::Instant;

use crate::answer::{self, Refused, Verdict};
use crate::process::{self, Trouble};
use crate::solver::Solver;

/// The most that is read of what a solver prints, in bytes.
const MOST_PRINTED: usize = 16 << 20;
/// The longest part of a solver's message that is shown, in characters.
const SHOWN: usize = 160;

/// MiniSat writes its result to a file that it is named. It is named a pipe, the third descriptor, which is standard output for
/// us; what it prints otherwise is dropped.
const MINISAT: &str = "exec \"$0\" -verb=0 /dev/stdin /dev/fd/3 3>&1 >/dev/null";

/// What a solver is given: a DIMACS file, or for cadical a file of cubes, and the number of variables.
pub struct Task {
    pub input: Vec<u8>,
    pub cubes: bool,
    pub variables: usize,
}

/// Why there is no verdict; the first text is the solver's name.
#[derive(Debug)]
pub enum Failure {
    /// The program is not in a folder of PATH.
    Missing(String),
    /// The program could not be run, or its answer could not be fetched.
    Run(String, io::Error),
    /// The program printed more than is read.
    Flood(String),
    /// The program's answer is none: how the program ended, and why.
    Answer(String, String, Refused),
    /// The deadline has passed.
    Time(String),
}

impl fmt::Display for Failure {
    fn fmt(&self, out: &mut fmt::Formatter) -> fmt::Result {
        match self {
            Failure::Missing(name) => write!(out, "the solver {0} is not on the path (Debian's package {0})", name),
            Failure::Run(name, error) => write!(out, "the solver {} could not be run: {}", name, error),
            Failure::Flood(name) => {
                write!(out, "the solver {} printed more than {} MiB, and was ended", name, MOST_PRINTED >> 20)
            }
            Failure::Answer(name, end, refused) => {
                write!(out, "the solver {} gave no answer ({}): {}", name, end, refused.reason)
            }
            Failure::Time(name) => write!(out, "the solver {} was ended, since its time was over", name),
        }
    }
}

/// What a solver says of a DIMACS file with variables 1 to `variables`, however long it takes.
pub fn solve(solver: &Solver, variables: usize, file: &[u8]) -> Result<Verdict, Failure> {
    let task = Task { input: file.to_vec(), cubes: false, variables };
    ask(solver, task, None, &mut |_| {})
}

/// What a solver prints for a DIMACS file. Of MiniSat it is what it writes to its result file.
pub fn printed(solver: &Solver, file: &[u8]) -> Result<Output, Failure> {
    run(solver, file.to_vec(), false, None, &mut |_| {})
}

/// What a solver says of a task. It is ended at the deadline; `watch` sees what it prints while it runs.
pub fn ask(solver: &Solver, task: Task, deadline: Option<Instant>, watch: &mut dyn FnMut(&[u8])) -> Result<Verdict, Failure> {
    let output = run(solver, task.input, task.cubes, deadline, watch)?;
    let verdict = match solver {
        Solver::Minisat => answer::minisat(&String::from_utf8_lossy(&output.stdout), task.variables).map_err(Refused::from),
        _ => answer::competition(&output.stdout, task.variables),
    };
    judge(solver.name(), &output, verdict)
}

fn run(
    solver: &Solver,
    input: Vec<u8>,
    cubes: bool,
    deadline: Option<Instant>,
    watch: &mut dyn FnMut(&[u8]),
) -> Result<Output, Failure> {
    let name = || solver.name().to_string();
    let mut command = command(solver, cubes).ok_or_else(|| Failure::Missing(name()))?;
    process::run(&mut command, input, deadline, MOST_PRINTED, watch).map_err(|trouble| match trouble {
        Trouble::Run(error) => Failure::Run(name(), error),
        Trouble::Flood => Failure::Flood(name()),
        Trouble::Time => Failure::Time(name()),
    })
}

/// CaDiCaL is told to be quiet, unless it is given cubes: then its comments tell how far it is. PicoSAT is quiet by itself; with `-v`
/// it would print comments without a space, which are refused.
fn command(solver: &Solver, cubes: bool) -> Option<Command> {
    let program = solver.program()?;
    if *solver == Solver::Minisat {
        let mut command = Command::new("/bin/sh");
        command.args(["-c", MINISAT]).arg(program);
        return Some(command);
    }
    let mut command = Command::new(program);
    command.args(solver.arguments());
    if *solver == Solver::Cadical && !cubes {
        command.arg("-q");
    }
    Some(command)
}

/// An answer counts only with its exit status, 10 or 20.
fn judge(name: &str, output: &Output, answer: Result<Verdict, Refused>) -> Result<Verdict, Failure> {
    let agreed = match answer {
        Ok(Verdict::Satisfiable(_)) => Some(10),
        Ok(Verdict::Unsatisfiable) => Some(20),
        Err(_) => None,
    };
    let refused = match answer {
        Ok(verdict) if output.status.code() == agreed => return Ok(verdict),
        Ok(_) => Refused::from("its answer and its exit status differ".to_string()),
        Err(refused) => refused,
    };
    Err(Failure::Answer(name.to_string(), format!("{}{}", output.status, last_message(&output.stderr)), refused))
}

/// The last line of a solver's messages, cut, if there is one.
fn last_message(messages: &[u8]) -> String {
    let said = String::from_utf8_lossy(messages);
    let line = match said.lines().last() {
        Some(line) => line.escape_debug().to_string(),
        None => return String::new(),
    };
    let rest = if line.chars().nth(SHOWN).is_some() { " .." } else { "" };
    format!(", `{}{}`", line.chars().take(SHOWN).collect::<String>(), rest)
}

#[cfg(test)]
mod tests {
    use super::{judge, last_message, solve, Failure, Solver, Verdict};
    use std::os::unix::process::ExitStatusExt;
    use std::process::{ExitStatus, Output};

    fn ended(code: i32) -> Output {
        Output { status: ExitStatus::from_raw(code << 8), stdout: Vec::new(), stderr: b"one\ntwo\n".to_vec() }
    }

    #[test]
    fn every_solver_answers() {
        let others = ["picosat -s 1", "cadical -q"].map(|value| Solver::from_value(value).unwrap());
        for solver in Solver::ALL.iter().chain(&others) {
            // (1 or 2), not 1, (2 or not 3), not 3: one assignment
            let verdict = solve(solver, 3, b"p cnf 3 4\n1 2 0\n-1 0\n-3 2 0\n-3 0\n");
            assert_eq!(verdict.unwrap(), Verdict::Satisfiable(vec![0, 1, 0]), "{}", solver.name());
            let verdict = solve(solver, 1, b"p cnf 1 2\n1 0\n-1 0\n").unwrap();
            assert_eq!(verdict, Verdict::Unsatisfiable, "{}", solver.name());
            let verdict = solve(solver, 2, b"p cnf 2 1\n-1 0\n").unwrap();
            assert!(matches!(verdict, Verdict::Satisfiable(bytes) if bytes.len() == 2 && bytes[0] == 0));
        }
    }

    #[test]
    fn the_exit_status_must_agree() {
        let satisfiable = || Ok(Verdict::Satisfiable(vec![1]));
        assert!(judge("cadical", &ended(10), satisfiable()).is_ok());
        assert!(judge("cadical", &ended(20), Ok(Verdict::Unsatisfiable)).is_ok());
        for (code, answer) in [(0, satisfiable()), (20, satisfiable()), (10, Ok(Verdict::Unsatisfiable))] {
            let failure = judge("cadical", &ended(code), answer).unwrap_err();
            assert!(matches!(failure, Failure::Answer(..)));
        }
        let failure = judge("picosat", &ended(1), Err("no".to_string().into())).unwrap_err();
        assert_eq!(failure.to_string(), "the solver picosat gave no answer (exit status: 1, `two`): no");
    }

    #[test]
    fn messages_are_cut_to_a_line() {
        assert_eq!(last_message(b""), "");
        assert_eq!(last_message(b"one\n\x1b[1mtwo"), ", `\\u{1b}[1mtwo`");
        assert_eq!(last_message(&[b'x'; 160]), format!(", `{}`", "x".repeat(160)));
        assert_eq!(last_message(&[b'x'; 161]), format!(", `{} ..`", "x".repeat(160)));
    }
}
