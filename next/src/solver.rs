//! Which solver is run: one of three by its name, or another program.

use std::env;
use std::ffi::OsStr;
use std::fs;
use std::os::unix::fs::PermissionsExt;
use std::path::{Path, PathBuf};

/// The solvers that can be run. The three are packages of Debian.
#[derive(Clone, Debug, PartialEq, Eq)]
pub enum Solver {
    Cadical,
    Minisat,
    Picosat,
    Other(Program),
}

/// A program that reads a DIMACS file at standard input and prints in the form of the competitions.
#[derive(Clone, Debug, PartialEq, Eq)]
pub struct Program {
    /// As it was named, for messages.
    name: String,
    file: PathBuf,
    arguments: Vec<String>,
}

impl Solver {
    /// Those that have a name, in the order in which they are looked for.
    pub const ALL: [Solver; 3] = [Solver::Cadical, Solver::Minisat, Solver::Picosat];

    pub fn name(&self) -> &str {
        match self {
            Solver::Cadical => "cadical",
            Solver::Minisat => "minisat",
            Solver::Picosat => "picosat",
            Solver::Other(program) => &program.name,
        }
    }

    /// The solver that a value of --solver names: one of the three, the path of a program, or a program and its arguments.
    pub fn from_value(value: &str) -> Result<Solver, String> {
        Solver::among(value, env::var_os("PATH").as_deref())
    }

    fn among(value: &str, path: Option<&OsStr>) -> Result<Solver, String> {
        if let Some(solver) = Solver::ALL.iter().find(|solver| solver.name() == value.trim()) {
            return Ok(solver.clone());
        }
        let named = |file, arguments| Ok(Solver::Other(Program { name: value.to_string(), file, arguments }));
        // A path may have spaces in it, if it is given alone.
        if value.contains('/') && is_program(Path::new(value)) {
            return named(PathBuf::from(value), Vec::new());
        }
        let mut words = value.split_whitespace();
        let program = words.next().unwrap_or("");
        match named_program(program, path) {
            Some(file) => named(file, words.map(str::to_string).collect()),
            None => Err(no_program(value, program)),
        }
    }

    /// The first of `ALL` that is installed.
    pub fn first_installed() -> Option<Solver> {
        Solver::ALL.iter().find(|solver| solver.program().is_some()).cloned()
    }

    /// The program's file; none if it is not on the path.
    pub fn program(&self) -> Option<PathBuf> {
        match self {
            Solver::Other(program) => Some(program.file.clone()),
            _ => find(&env::var_os("PATH")?, self.name()),
        }
    }

    /// The arguments that were given with the program.
    pub fn arguments(&self) -> &[String] {
        match self {
            Solver::Other(program) => &program.arguments,
            _ => &[],
        }
    }
}

/// The file of a program: with a slash in its name that file, else the one on the path.
fn named_program(program: &str, path: Option<&OsStr>) -> Option<PathBuf> {
    if program.contains('/') {
        return Some(PathBuf::from(program)).filter(|file| is_program(file));
    }
    find(path?, program)
}

fn no_program(value: &str, program: &str) -> String {
    let missing = match program {
        "" => "names no program".to_string(),
        _ if program.contains('/') => format!("`{}` is no file that can be run", program.escape_debug()),
        _ => format!("no program `{}` is on the path", program.escape_debug()),
    };
    format!("`{}` is none of cadical, minisat, picosat, and {}", value.escape_debug(), missing)
}

/// The first executable file of that name in the folders of a PATH. An empty or relative entry is passed over: it would depend
/// on the current folder.
fn find(path: &OsStr, name: &str) -> Option<PathBuf> {
    let folders = env::split_paths(path).filter(|folder| folder.is_absolute());
    folders.map(|folder| folder.join(name)).find(|file| is_program(file))
}

fn is_program(file: &Path) -> bool {
    fs::metadata(file).map_or(false, |data| data.is_file() && data.permissions().mode() & 0o111 != 0)
}

#[cfg(test)]
mod tests {
    use super::{find, Solver};
    use std::ffi::OsStr;
    use std::path::PathBuf;

    fn among(value: &str) -> Result<Solver, String> {
        Solver::among(value, Some(OsStr::new("/nowhere:/bin")))
    }

    #[test]
    fn names_are_read_back() {
        for solver in Solver::ALL {
            assert_eq!(Solver::from_value(solver.name()), Ok(solver));
        }
        assert_eq!(Solver::from_value(" minisat "), Ok(Solver::Minisat));
        assert!(among("CaDiCaL").is_err());
    }

    #[test]
    fn another_program_has_a_path_or_is_on_the_path() {
        for (value, file, arguments) in [
            ("/bin/sh", "/bin/sh", &[][..]),
            ("/bin/../bin/sh", "/bin/../bin/sh", &[]),
            (" /bin/sh  -c 'a b'", "/bin/sh", &["-c", "'a", "b'"]),
            ("sh", "/bin/sh", &[]),
            ("sh\t-c", "/bin/sh", &["-c"]),
        ] {
            let solver = among(value).unwrap();
            assert_eq!((solver.name(), solver.program()), (value, Some(PathBuf::from(file))));
            assert_eq!(solver.arguments(), arguments);
        }
    }

    #[test]
    fn what_is_no_program_is_told() {
        let none = "is none of cadical, minisat, picosat, and";
        for (value, missing) in [
            ("z9", "no program `z9` is on the path"),
            ("z9 -q", "no program `z9` is on the path"),
            ("z9 cadical", "no program `z9` is on the path"),
            ("/bin/z9", "`/bin/z9` is no file that can be run"),
            ("/bin", "`/bin` is no file that can be run"),
            ("/etc/passwd -q", "`/etc/passwd` is no file that can be run"),
            ("", "names no program"),
            (" ", "names no program"),
        ] {
            assert_eq!(among(value), Err(format!("`{}` {} {}", value, none, missing)));
        }
        assert!(Solver::among("sh", None).is_err());
    }

    #[test]
    fn a_program_is_looked_for_in_absolute_folders_alone() {
        assert_eq!(find(OsStr::new("/nowhere:/bin:/usr/bin"), "sh"), Some(PathBuf::from("/bin/sh")));
        assert_eq!(find(OsStr::new(""), "sh"), None);
        assert_eq!(find(OsStr::new("bin:."), "Cargo.toml"), None);
        assert_eq!(find(OsStr::new("/"), "etc"), None);
        assert_eq!(find(OsStr::new("/etc"), "passwd"), None);
    }
}
