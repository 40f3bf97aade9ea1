//! Runs a SAT solver on a clause list. Neither the solver nor this module is proved; what a solver prints in the competitions' form
//! is read by a proved call. A satisfying assignment is to be tested by the proved conversion; that a list cannot be satisfied is
//! the solver's own word.

use std::env;
use std::ffi::OsStr;
use std::fmt;
use std::fs;
use std::io::{self, Write};
use std::os::unix::fs::PermissionsExt;
use std::path::{Path, PathBuf};
use std::process::{Command, Output, Stdio};
use std::thread;

use crate::answer;
pub use crate::answer::Verdict;
use crate::scratch::Scratch;

/// The solvers that can be run, all of them packages of Debian.
#[derive(Clone, Copy, Debug, PartialEq, Eq)]
pub enum Solver {
    Cadical,
    Minisat,
    Picosat,
}

/// Why there is no verdict.
#[derive(Debug)]
pub enum Failure {
    /// The program is not in a folder of PATH.
    Missing(Solver),
    /// The program could not be run, or its answer could not be fetched.
    Run(Solver, io::Error),
    /// The program's answer is none: how the program ended, and why.
    Answer(Solver, String, String),
}

impl fmt::Display for Failure {
    fn fmt(&self, out: &mut fmt::Formatter) -> fmt::Result {
        match self {
            Failure::Missing(solver) => write!(out, "the solver {0} is not on the path (Debian's package {0})", solver.name()),
            Failure::Run(solver, error) => write!(out, "the solver {} could not be run: {}", solver.name(), error),
            Failure::Answer(solver, end, reason) => {
                write!(out, "the solver {} gave no answer ({}): {}", solver.name(), end, reason)
            }
        }
    }
}

impl Solver {
    /// In the order in which they are looked for.
    pub const ALL: [Solver; 3] = [Solver::Cadical, Solver::Minisat, Solver::Picosat];

    pub fn name(self) -> &'static str {
        match self {
            Solver::Cadical => "cadical",
            Solver::Minisat => "minisat",
            Solver::Picosat => "picosat",
        }
    }

    pub fn from_name(name: &str) -> Option<Solver> {
        Solver::ALL.iter().copied().find(|solver| solver.name() == name)
    }

    pub fn installed(self) -> bool {
        self.program().is_some()
    }

    /// The first of `ALL` that is installed.
    pub fn first_installed() -> Option<Solver> {
        Solver::ALL.iter().copied().find(|solver| solver.installed())
    }

    fn program(self) -> Option<PathBuf> {
        find(&env::var_os("PATH")?, self.name())
    }
}

/// The first executable file of that name in the folders of a PATH. An empty or relative entry is passed over: it would depend
/// on the current folder.
fn find(path: &OsStr, name: &str) -> Option<PathBuf> {
    env::split_paths(path).filter(|folder| folder.is_absolute()).map(|folder| folder.join(name)).find(|file| is_program(file))
}

fn is_program(file: &Path) -> bool {
    fs::metadata(file).map_or(false, |data| data.is_file() && data.permissions().mode() & 0o111 != 0)
}

/// Runs a solver on the bytes of a DIMACS file with variables 1 to `variables`.
pub fn solve(solver: Solver, variables: usize, file: &[u8]) -> Result<Verdict, Failure> {
    if solver == Solver::Minisat {
        return solve_by_file(variables, file);
    }
    let output = printed(solver, file)?;
    judge(solver, &output, answer::competition(&output.stdout, variables))
}

/// What a solver but MiniSat prints for a file that it reads at standard input: the competitions' form. CaDiCaL is told to be quiet;
/// PicoSAT is, unless it is told otherwise, and then it would print comments without a space, which are refused.
pub fn printed(solver: Solver, file: &[u8]) -> Result<Output, Failure> {
    let mut command = Command::new(solver.program().ok_or(Failure::Missing(solver))?);
    if solver == Solver::Cadical {
        command.arg("-q");
    }
    run(&mut command, file).map_err(|error| Failure::Run(solver, error))
}

/// MiniSat writes its answer to a file that it is named.
fn solve_by_file(variables: usize, file: &[u8]) -> Result<Verdict, Failure> {
    let program = Solver::Minisat.program().ok_or(Failure::Missing(Solver::Minisat))?;
    let failed = |error| Failure::Run(Solver::Minisat, error);
    let scratch = Scratch::under(&env::temp_dir()).map_err(failed)?;
    let result = scratch.file("result");
    let mut command = Command::new(program);
    command.arg("-verb=0").arg("/dev/stdin").arg(&result);
    let output = run(&mut command, file).map_err(failed)?;
    let text = fs::read(&result).unwrap_or_default();
    judge(Solver::Minisat, &output, answer::minisat(&String::from_utf8_lossy(&text), variables))
}

/// Runs the command with the file as its standard input, which a thread writes while the output is read.
fn run(command: &mut Command, file: &[u8]) -> io::Result<Output> {
    command.stdin(Stdio::piped()).stdout(Stdio::piped()).stderr(Stdio::piped());
    let mut child = command.spawn()?;
    let input = child.stdin.take();
    thread::scope(|scope| {
        // A solver that ends before it has read all is judged by its answer, so a failing write says nothing.
        scope.spawn(move || input.map(|mut pipe| pipe.write_all(file)));
        child.wait_with_output()
    })
}

/// An answer counts only with its exit status, 10 or 20.
fn judge(solver: Solver, output: &Output, answer: Result<Verdict, String>) -> Result<Verdict, Failure> {
    let agreed = match answer {
        Ok(Verdict::Satisfiable(_)) => Some(10),
        Ok(Verdict::Unsatisfiable) => Some(20),
        Err(_) => None,
    };
    let reason = match answer {
        Ok(verdict) if output.status.code() == agreed => return Ok(verdict),
        Ok(_) => "its answer and its exit status differ".to_string(),
        Err(reason) => reason,
    };
    let said = String::from_utf8_lossy(&output.stderr);
    let last = said.lines().last().map_or(String::new(), |line| format!(", `{}`", line.escape_debug()));
    Err(Failure::Answer(solver, format!("{}{}", output.status, last), reason))
}

#[cfg(test)]
mod tests {
    use super::{find, judge, solve, Failure, Solver, Verdict};
    use std::ffi::OsStr;
    use std::os::unix::process::ExitStatusExt;
    use std::path::PathBuf;
    use std::process::{ExitStatus, Output};

    fn ended(code: i32) -> Output {
        Output { status: ExitStatus::from_raw(code << 8), stdout: Vec::new(), stderr: b"one\ntwo\n".to_vec() }
    }

    #[test]
    fn every_solver_answers() {
        for solver in Solver::ALL {
            // (1 or 2), not 1, (2 or not 3), not 3: one assignment
            let verdict = solve(solver, 3, b"p cnf 3 4\n1 2 0\n-1 0\n-3 2 0\n-3 0\n").unwrap();
            assert_eq!(verdict, Verdict::Satisfiable(vec![0, 1, 0]), "{}", solver.name());
            let verdict = solve(solver, 1, b"p cnf 1 2\n1 0\n-1 0\n").unwrap();
            assert_eq!(verdict, Verdict::Unsatisfiable, "{}", solver.name());
            let verdict = solve(solver, 2, b"p cnf 2 1\n-1 0\n").unwrap();
            assert!(matches!(verdict, Verdict::Satisfiable(bytes) if bytes.len() == 2 && bytes[0] == 0));
        }
    }

    #[test]
    fn names_are_read_back() {
        for solver in Solver::ALL {
            assert_eq!(Solver::from_name(solver.name()), Some(solver));
        }
        assert_eq!(Solver::from_name("CaDiCaL"), None);
    }

    #[test]
    fn a_program_is_looked_for_in_absolute_folders_alone() {
        assert_eq!(find(OsStr::new("/nowhere:/bin:/usr/bin"), "sh"), Some(PathBuf::from("/bin/sh")));
        assert_eq!(find(OsStr::new(""), "sh"), None);
        assert_eq!(find(OsStr::new("bin:."), "Cargo.toml"), None);
        assert_eq!(find(OsStr::new("/"), "etc"), None);
        assert_eq!(find(OsStr::new("/etc"), "passwd"), None);
    }

    #[test]
    fn the_exit_status_must_agree() {
        let satisfiable = || Ok(Verdict::Satisfiable(vec![1]));
        assert!(judge(Solver::Cadical, &ended(10), satisfiable()).is_ok());
        assert!(judge(Solver::Cadical, &ended(20), Ok(Verdict::Unsatisfiable)).is_ok());
        for (code, answer) in [(0, satisfiable()), (20, satisfiable()), (10, Ok(Verdict::Unsatisfiable))] {
            let failure = judge(Solver::Cadical, &ended(code), answer).unwrap_err();
            assert!(matches!(failure, Failure::Answer(Solver::Cadical, _, _)));
        }
        let failure = judge(Solver::Picosat, &ended(1), Err("no".to_string())).unwrap_err();
        assert_eq!(failure.to_string(), "the solver picosat gave no answer (exit status: 1, `two`): no");
    }
}
