//! The command line.

use std::ffi::{OsStr, OsString};
use std::path::PathBuf;

use crate::solver::Solver;

/// The greatest bound that a plain `check` tries.
pub const USUAL_BOUND: usize = 64;

pub const HELP: &str = "\
wirdoku: looks for a run of a timed automaton with counters into its target location

usage:
  wirdoku check MODEL [SECOND] [--up-to K | --bound K] [--solver NAME] [--quiet]
      tries the bounds 0 to K in order (K is 64 unless given), or K alone with --bound, and prints
      the first run that a solver finds, step by step; progress goes to standard error
  wirdoku walk MODEL [SECOND] [STEP]..
      walks a run given by its step bytes and says whether it is one
  wirdoku size MODEL [SECOND] --bound K
      prints the totals of the clause list for K steps, without writing it
  wirdoku dimacs MODEL [SECOND] --bound K
      prints the clause list for K steps as a DIMACS file
  wirdoku explain NUMBER [MODEL [SECOND]]
      says what a refusal's number means, and shows the line of a model file that is refused
  wirdoku help | --help | --version

MODEL is a file with a model text, or - for standard input. NAME is cadical, minisat or picosat; without
--solver the first of them that is on the path is run. A step byte is d for a delay of d ticks (0 to the
ceiling M) and M+1+e for edge e. In a trace a clock that shows M is printed as M+, since it means M or more,
and an edge whose label is not 0 is printed with it.

With SECOND, another such file, the two models are composed: their clocks and counters are apart, edges with
a label other than 0 that both have are taken together, in pairs, and every other edge by one model alone.
The target is reached when both are in theirs. A trace shows for each step what each model does, `stays` if
nothing, where it is (`at`) and its own counters and clocks. In walk a second place that begins with a digit
or + is a step: write ./5 for a file of the name 5.

exit status:
  0   size, dimacs, explain, help: done
  10  check: a run was found; walk: the run reaches the target
  20  check: the solver found no run; walk: it is no run into the target
  1   wrong usage
  2   a model text or the bound is refused, or two models are too large together (38); number, line and reason
      are on standard error
  3   the solver is missing or gave no answer, or its output is refused; number, line and reason as for 2
  4   the solver's assignment is refused by the proved conversion
  5   a file cannot be read, or the output cannot be written

What is proved: the calls that read the model text, or two texts and compose them, count the clause list and
write it as a DIMACS file, read what a solver prints, turn its assignment into a run, take a step, say what
the step is for each of two models, and walk a run. What is not proved: the solver, the reading of MiniSat's
result file, and this command, which hands bytes from one to the other. A solver's assignment is believed only
after the proved conversion has tested every clause and the proved walker has walked the run. `unsatisfiable`
is taken at its word: a wrong solver cannot be found out here, so ask a second one where it matters. A run of
fewer steps can always be drawn out by delays of 0, so no run of exactly K steps means none of fewer either.
";

/// The bounds that are tried.
#[derive(Clone, Copy, Debug, PartialEq, Eq)]
pub enum Bounds {
    Exactly(usize),
    UpTo(usize),
}

/// The model file, or two whose models are composed.
#[derive(Clone, Debug, PartialEq, Eq)]
pub struct Files {
    pub first: PathBuf,
    pub second: Option<PathBuf>,
}

/// What the command line asks for.
#[derive(Clone, Debug, PartialEq, Eq)]
pub enum Command {
    Help,
    Version,
    Check { files: Files, bounds: Bounds, solver: Option<Solver>, quiet: bool },
    Size { files: Files, bound: usize },
    Dimacs { files: Files, bound: usize },
    Walk { files: Files, run: Vec<u8> },
    Explain { number: u8, files: Option<Files> },
}

/// The arguments after the command's name, sorted.
#[derive(Default)]
struct Sorted {
    places: Vec<OsString>,
    bound: Option<usize>,
    up_to: Option<usize>,
    solver: Option<Solver>,
    quiet: bool,
}

/// Reads the arguments after the program's name.
pub fn parse(arguments: &[OsString]) -> Result<Command, String> {
    let (name, rest) = arguments.split_first().ok_or("a command is missing")?;
    if rest.iter().any(|argument| argument == "--help") {
        return Ok(Command::Help);
    }
    match name.to_str() {
        Some("help" | "--help" | "-h") => alone(rest, Command::Help),
        Some("--version" | "-V") => alone(rest, Command::Version),
        Some("check") => check(sort(rest, &["--bound", "--up-to", "--solver", "--quiet"])?),
        Some("size") => with_bound(rest, |files, bound| Command::Size { files, bound }),
        Some("dimacs") => with_bound(rest, |files, bound| Command::Dimacs { files, bound }),
        Some("walk") => walk(sort(rest, &[])?),
        Some("explain") => explain(sort(rest, &[])?),
        _ => Err(format!("there is no command `{}`", shown(name))),
    }
}

fn shown(argument: &OsStr) -> String {
    argument.to_string_lossy().escape_debug().to_string()
}

fn alone(rest: &[OsString], command: Command) -> Result<Command, String> {
    match rest.first() {
        None => Ok(command),
        Some(argument) => Err(unexpected(argument)),
    }
}

fn unexpected(argument: &OsStr) -> String {
    format!("`{}` is not expected", shown(argument))
}

/// Parts options from places. An option's value follows it, or stands after `=`.
fn sort(arguments: &[OsString], allowed: &[&str]) -> Result<Sorted, String> {
    let mut sorted = Sorted::default();
    let mut rest = arguments.iter();
    while let Some(argument) = rest.next() {
        let text = argument.to_string_lossy();
        if !text.starts_with('-') || text == "-" {
            sorted.places.push(argument.clone());
            continue;
        }
        let (option, value) = match text.split_once('=') {
            Some((option, value)) => (option, Some(value.to_string())),
            None => (text.as_ref(), None),
        };
        if !allowed.contains(&option) {
            return Err(unexpected(argument));
        }
        let mut next = || rest.next().map(|value| value.to_string_lossy().into_owned());
        let value = if option == "--quiet" { value } else { value.or_else(&mut next) };
        sorted.take(option, value)?;
    }
    Ok(sorted)
}

impl Sorted {
    fn take(&mut self, option: &str, value: Option<String>) -> Result<(), String> {
        let repeated = match (option, value) {
            ("--quiet", None) => std::mem::replace(&mut self.quiet, true),
            ("--bound", Some(value)) => self.bound.replace(bound(&value)?).is_some(),
            ("--up-to", Some(value)) => self.up_to.replace(bound(&value)?).is_some(),
            ("--solver", Some(value)) => self.solver.replace(solver(&value)?).is_some(),
            (_, None) => return Err(format!("{} needs a value", option)),
            (_, Some(_)) => return Err(format!("{} takes no value", option)),
        };
        if repeated {
            return Err(format!("{} is given twice", option));
        }
        Ok(())
    }

    fn at_most(&self, places: usize) -> Result<(), String> {
        self.places.get(places).map_or(Ok(()), |place| Err(unexpected(place)))
    }
}

/// The model files that some places name, one or two.
fn files(places: &[OsString]) -> Result<Files, String> {
    let first = places.first().map(PathBuf::from).ok_or("a model file is missing")?;
    let second = places.get(1).map(PathBuf::from);
    if first.as_os_str() == "-" && second.as_ref() == Some(&first) {
        return Err("`-` can stand for one model only".to_string());
    }
    Ok(Files { first, second })
}

/// A bound in digits. One that is too great for a number is as good as the greatest: both are refused with 21.
fn bound(value: &str) -> Result<usize, String> {
    if value.is_empty() || !value.bytes().all(|byte| byte.is_ascii_digit()) {
        return Err(format!("`{}` is not a bound", value.escape_debug()));
    }
    Ok(value.parse().unwrap_or(usize::MAX))
}

fn solver(value: &str) -> Result<Solver, String> {
    Solver::from_name(value).ok_or_else(|| format!("`{}` is none of cadical, minisat, picosat", value.escape_debug()))
}

fn byte(place: &OsStr, what: &str) -> Result<u8, String> {
    let digits = place.to_str().filter(|text| text.bytes().all(|byte| byte.is_ascii_digit()));
    digits.and_then(|text| text.parse().ok()).ok_or_else(|| format!("`{}` is not {} (0 to 255)", shown(place), what))
}

fn check(sorted: Sorted) -> Result<Command, String> {
    sorted.at_most(2)?;
    let bounds = match (sorted.bound, sorted.up_to) {
        (Some(_), Some(_)) => return Err("--bound and --up-to exclude each other".to_string()),
        (Some(bound), None) => Bounds::Exactly(bound),
        (None, up_to) => Bounds::UpTo(up_to.unwrap_or(USUAL_BOUND)),
    };
    Ok(Command::Check { files: files(&sorted.places)?, bounds, solver: sorted.solver, quiet: sorted.quiet })
}

fn with_bound(rest: &[OsString], command: fn(Files, usize) -> Command) -> Result<Command, String> {
    let sorted = sort(rest, &["--bound"])?;
    sorted.at_most(2)?;
    let files = files(&sorted.places)?;
    let bound = sorted.bound.ok_or("--bound K is missing")?;
    Ok(command(files, bound))
}

fn walk(sorted: Sorted) -> Result<Command, String> {
    let is_step = |place: &OsString| place.to_string_lossy().starts_with(|first: char| first.is_ascii_digit() || first == '+');
    let models = match sorted.places.get(1) {
        Some(place) if !is_step(place) => 2,
        _ => 1,
    };
    let (models, steps) = sorted.places.split_at(models.min(sorted.places.len()));
    let files = files(models)?;
    let run = steps.iter().map(|place| byte(place, "a step byte")).collect::<Result<_, _>>()?;
    Ok(Command::Walk { files, run })
}

fn explain(sorted: Sorted) -> Result<Command, String> {
    sorted.at_most(3)?;
    let (number, models) = sorted.places.split_first().ok_or("a refusal's number is missing")?;
    let number = byte(number, "a refusal's number")?;
    let files = if models.is_empty() { None } else { Some(files(models)?) };
    Ok(Command::Explain { number, files })
}

#[cfg(test)]
mod tests {
    use super::{parse, Bounds, Command, Files};
    use crate::solver::Solver;
    use std::ffi::OsString;
    use std::path::PathBuf;

    fn parsed(line: &str) -> Result<Command, String> {
        let arguments: Vec<OsString> = line.split_whitespace().map(OsString::from).collect();
        parse(&arguments)
    }

    fn one(path: &str) -> Files {
        Files { first: PathBuf::from(path), second: None }
    }

    fn two(first: &str, second: &str) -> Files {
        Files { first: PathBuf::from(first), second: Some(PathBuf::from(second)) }
    }

    fn check(bounds: Bounds, solver: Option<Solver>, quiet: bool) -> Result<Command, String> {
        Ok(Command::Check { files: one("m"), bounds, solver, quiet })
    }

    #[test]
    fn check_and_its_options() {
        assert_eq!(parsed("check m"), check(Bounds::UpTo(64), None, false));
        assert_eq!(parsed("check --bound 7 m"), check(Bounds::Exactly(7), None, false));
        assert_eq!(parsed("check m --bound=0"), check(Bounds::Exactly(0), None, false));
        assert_eq!(parsed("check m --quiet --up-to 9 --solver picosat"), check(Bounds::UpTo(9), Some(Solver::Picosat), true));
        let huge = "check m --bound 99999999999999999999999999";
        assert_eq!(parsed(huge), check(Bounds::Exactly(usize::MAX), None, false));
    }

    #[test]
    fn the_other_commands() {
        assert_eq!(parsed("size m --bound 3"), Ok(Command::Size { files: one("m"), bound: 3 }));
        assert_eq!(parsed("dimacs --bound 3 m"), Ok(Command::Dimacs { files: one("m"), bound: 3 }));
        assert_eq!(parsed("walk m"), Ok(Command::Walk { files: one("m"), run: vec![] }));
        assert_eq!(parsed("walk m 5 3 255"), Ok(Command::Walk { files: one("m"), run: vec![5, 3, 255] }));
        assert_eq!(parsed("explain 4"), Ok(Command::Explain { number: 4, files: None }));
        assert_eq!(parsed("explain 4 m"), Ok(Command::Explain { number: 4, files: Some(one("m")) }));
        assert_eq!(parsed("size - --bound 3"), Ok(Command::Size { files: one("-"), bound: 3 }));
        for line in ["help", "--help", "-h", "check --help", "size m --help"] {
            assert_eq!(parsed(line), Ok(Command::Help));
        }
        assert_eq!(parsed("--version"), Ok(Command::Version));
    }

    #[test]
    fn two_models() {
        let (bounds, solver, quiet) = (Bounds::UpTo(9), None, true);
        let expected = Ok(Command::Check { files: two("m", "n"), bounds, solver, quiet });
        assert_eq!(parsed("check m n --up-to 9 --quiet"), expected);
        assert_eq!(parsed("check m --up-to 9 n --quiet"), expected);
        assert_eq!(parsed("size m - --bound 3"), Ok(Command::Size { files: two("m", "-"), bound: 3 }));
        assert_eq!(parsed("dimacs --bound 3 m m"), Ok(Command::Dimacs { files: two("m", "m"), bound: 3 }));
        assert_eq!(parsed("walk m n"), Ok(Command::Walk { files: two("m", "n"), run: vec![] }));
        assert_eq!(parsed("walk 5 ./6 7 8"), Ok(Command::Walk { files: two("5", "./6"), run: vec![7, 8] }));
        assert_eq!(parsed("walk - n 7"), Ok(Command::Walk { files: two("-", "n"), run: vec![7] }));
        assert_eq!(parsed("explain 38 m n"), Ok(Command::Explain { number: 38, files: Some(two("m", "n")) }));
    }

    #[test]
    fn wrong_usage_is_named() {
        let cases = [
            ("", "a command is missing"),
            ("run m", "there is no command `run`"),
            ("help m", "`m` is not expected"),
            ("check", "a model file is missing"),
            ("check m n o", "`o` is not expected"),
            ("check - -", "`-` can stand for one model only"),
            ("check m --fast", "`--fast` is not expected"),
            ("check m --bound", "--bound needs a value"),
            ("check m --bound 3 --bound 4", "--bound is given twice"),
            ("check m --quiet --quiet", "--quiet is given twice"),
            ("check m --quiet=yes", "--quiet takes no value"),
            ("check m --bound 3 --up-to 4", "--bound and --up-to exclude each other"),
            ("check m --bound -3", "`-3` is not a bound"),
            ("check m --bound=", "`` is not a bound"),
            ("check m --bound +3", "`+3` is not a bound"),
            ("check m --solver glucose", "`glucose` is none of cadical, minisat, picosat"),
            ("size m", "--bound K is missing"),
            ("size --bound 3", "a model file is missing"),
            ("size m --bound 3 --solver minisat", "`--solver` is not expected"),
            ("walk", "a model file is missing"),
            ("walk m 256", "`256` is not a step byte (0 to 255)"),
            ("walk m +1", "`+1` is not a step byte (0 to 255)"),
            ("walk m -1", "`-1` is not expected"),
            ("walk m n o", "`o` is not a step byte (0 to 255)"),
            ("walk m n 5 o", "`o` is not a step byte (0 to 255)"),
            ("walk - - 5", "`-` can stand for one model only"),
            ("explain", "a refusal's number is missing"),
            ("explain four", "`four` is not a refusal's number (0 to 255)"),
            ("explain 4 m n o", "`o` is not expected"),
            ("explain 4 - -", "`-` can stand for one model only"),
        ];
        for (line, reason) in cases {
            assert_eq!(parsed(line), Err(reason.to_string()), "{}", line);
        }
    }
}
