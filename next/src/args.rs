//! The command line.

use std::ffi::{OsStr, OsString};
use std::path::PathBuf;

use crate::options::{bound, byte, digits, is_number, shown, sort, unexpected, Sorted};
use crate::solver::Solver;

/// The greatest bound that a plain `check` looks at.
pub const USUAL_BOUND: usize = 64;
/// The states after which a plain `reach` gives up.
pub const USUAL_STATES: usize = 100_000;

pub const HELP: &str = include_str!("help.txt");

/// The bounds that are looked at.
#[derive(Clone, Copy, Debug, PartialEq, Eq)]
pub enum Bounds {
    Exactly(usize),
    UpTo(usize),
}

/// The model file, or two whose models are composed.
#[derive(Clone, Debug, PartialEq, Eq)]
pub struct Files {
    pub first: PathBuf,
    pub second: Option<PathBuf>,
}

/// Whether proved code is to check a refutation where there is no run.
#[derive(Clone, Copy, Debug, PartialEq, Eq)]
pub enum Proof {
    Always,
    Never,
    /// If cadical is asked and the list is short.
    IfSmall,
}

/// How `check` goes about it.
#[derive(Clone, Debug, PartialEq, Eq)]
pub struct Check {
    pub bounds: Bounds,
    pub solver: Option<Solver>,
    pub proof: Proof,
    /// Seconds after which the search ends.
    pub timeout: Option<u64>,
    pub quiet: bool,
}

/// How `reach` goes about it.
#[derive(Clone, Copy, Debug, PartialEq, Eq)]
pub struct Reach {
    pub states: usize,
    pub timeout: Option<u64>,
    pub quiet: bool,
}

/// What is asked of a model.
#[derive(Clone, Debug, PartialEq, Eq)]
pub enum Question {
    Check(Check),
    Reach(Reach),
    Walk(Vec<u8>),
    Size(usize),
    Dimacs(usize),
    /// A bound, and the file with a solver's output.
    Decode(usize, PathBuf),
    Encode(Vec<u8>),
    /// A bound, and numbers of variables.
    Variables(usize, Vec<usize>),
    Dot(Vec<u8>),
}

/// What the command line asks for.
#[derive(Clone, Debug, PartialEq, Eq)]
pub enum Command {
    Help,
    Version,
    /// What a refusal's number means.
    Explain {
        number: u8,
        files: Option<Files>,
    },
    Ask {
        files: Files,
        question: Question,
    },
}

/// A command line: the command, its name, and whether it answers by JSON.
#[derive(Clone, Debug, PartialEq, Eq)]
pub struct Line {
    pub name: String,
    pub json: bool,
    pub command: Command,
}

/// How sorted arguments become a command.
type Reading = fn(&Sorted) -> Result<Command, String>;

/// Reads the arguments after the program's name.
pub fn parse(arguments: &[OsString]) -> Result<Line, String> {
    let (name, rest) = arguments.split_first().ok_or("a command is missing")?;
    let name = name.to_str().ok_or_else(|| format!("there is no command `{}`", shown(name)))?;
    let plain = |command| Line { name: name.to_string(), json: false, command };
    if rest.iter().any(|argument| argument == "--help") {
        return Ok(plain(Command::Help));
    }
    let (allowed, of): (&[&str], Reading) = match name {
        "help" | "--help" | "-h" => return alone(rest, plain(Command::Help)),
        "--version" | "-V" => return alone(rest, plain(Command::Version)),
        "check" => (&["--bound", "--up-to", "--solver", "--prove", "--no-prove", "--timeout", "--quiet", "--json"], check),
        "reach" => (&["--states", "--timeout", "--quiet", "--json"], reach),
        "walk" => (&["--json"], |sorted| with_steps(sorted, Question::Walk)),
        "size" => (&["--bound", "--json"], |sorted| with_bound(sorted, Question::Size)),
        "dimacs" => (&["--bound"], |sorted| with_bound(sorted, Question::Dimacs)),
        "decode" => (&["--json"], decode),
        "encode" => (&["--json"], |sorted| with_steps(sorted, Question::Encode)),
        "explain" => (&["--json"], explain),
        "dot" => (&[], |sorted| with_steps(sorted, Question::Dot)),
        _ => return Err(format!("there is no command `{}`", name.escape_debug())),
    };
    let sorted = sort(rest, allowed)?;
    Ok(Line { json: sorted.json, ..plain(of(&sorted)?) })
}

fn alone(rest: &[OsString], line: Line) -> Result<Line, String> {
    rest.first().map_or(Ok(line), |argument| Err(unexpected(argument)))
}

/// The model files that some places name, one or two.
fn files(places: &[OsString]) -> Result<Files, String> {
    let first = places.first().map(PathBuf::from).ok_or("a model file is missing")?;
    let second = places.get(1).map(PathBuf::from);
    if first.as_os_str() == "-" && second.as_ref() == Some(&first) {
        return Err("`-` can stand for one model only".to_string());
    }
    Ok(Files { first, second })
}

/// Parts the model files from what follows them, which begins with a number: a second place is a file if it is none.
fn files_before_numbers(places: &[OsString]) -> Result<(Files, &[OsString]), String> {
    let count = match places.get(1) {
        Some(place) if !is_number(place) => 2,
        _ => 1,
    };
    let (models, rest) = places.split_at(count.min(places.len()));
    Ok((files(models)?, rest))
}

fn check(sorted: &Sorted) -> Result<Command, String> {
    sorted.at_most(2)?;
    let bounds = match (sorted.bound, sorted.up_to) {
        (Some(_), Some(_)) => return Err("--bound and --up-to exclude each other".to_string()),
        (Some(bound), None) => Bounds::Exactly(bound),
        (None, up_to) => Bounds::UpTo(up_to.unwrap_or(USUAL_BOUND)),
    };
    let proof = match (sorted.prove, sorted.no_prove) {
        (true, true) => return Err("--prove and --no-prove exclude each other".to_string()),
        (true, false) => Proof::Always,
        (false, true) => Proof::Never,
        (false, false) => Proof::IfSmall,
    };
    let check = Check { bounds, solver: sorted.solver.clone(), proof, timeout: sorted.timeout, quiet: sorted.quiet };
    Ok(Command::Ask { files: files(&sorted.places)?, question: Question::Check(check) })
}

fn reach(sorted: &Sorted) -> Result<Command, String> {
    sorted.at_most(2)?;
    let reach = Reach { states: sorted.states.unwrap_or(USUAL_STATES), timeout: sorted.timeout, quiet: sorted.quiet };
    Ok(Command::Ask { files: files(&sorted.places)?, question: Question::Reach(reach) })
}

fn with_bound(sorted: &Sorted, question: fn(usize) -> Question) -> Result<Command, String> {
    sorted.at_most(2)?;
    let files = files(&sorted.places)?;
    let bound = sorted.bound.ok_or("--bound K is missing")?;
    Ok(Command::Ask { files, question: question(bound) })
}

fn with_steps(sorted: &Sorted, question: fn(Vec<u8>) -> Question) -> Result<Command, String> {
    let (files, steps) = files_before_numbers(&sorted.places)?;
    let run = steps.iter().map(|place| byte(place, "a step byte")).collect::<Result<_, _>>()?;
    Ok(Command::Ask { files, question: question(run) })
}

/// The bound that stands after the model files.
fn leading_bound(places: &[OsString]) -> Result<(usize, &[OsString]), String> {
    let (place, rest) = places.split_first().ok_or("the bound is missing")?;
    Ok((bound(&place.to_string_lossy())?, rest))
}

fn decode(sorted: &Sorted) -> Result<Command, String> {
    let (files, rest) = files_before_numbers(&sorted.places)?;
    let (bound, rest) = leading_bound(rest)?;
    let output = match rest {
        [] => return Err("the file with the solver's output is missing".to_string()),
        [output] => PathBuf::from(output),
        [_, other, ..] => return Err(unexpected(other)),
    };
    if output.as_os_str() == "-" && [Some(&files.first), files.second.as_ref()].contains(&Some(&output)) {
        return Err("`-` can stand for one file only".to_string());
    }
    Ok(Command::Ask { files, question: Question::Decode(bound, output) })
}

/// A first place in digits is a refusal's number, any other a model file.
fn explain(sorted: &Sorted) -> Result<Command, String> {
    let (first, rest) = sorted.places.split_first().ok_or("a refusal's number or a model file is missing")?;
    if !is_number(first) {
        return variables(sorted);
    }
    sorted.at_most(3)?;
    let number = byte(first, "a refusal's number")?;
    let files = if rest.is_empty() { None } else { Some(files(rest)?) };
    Ok(Command::Explain { number, files })
}

fn variables(sorted: &Sorted) -> Result<Command, String> {
    let (files, rest) = files_before_numbers(&sorted.places)?;
    let (bound, rest) = leading_bound(rest)?;
    if rest.is_empty() {
        return Err("a variable is missing".to_string());
    }
    let number = |place: &OsString| variable(place).ok_or_else(|| format!("`{}` is not a variable", shown(place)));
    let variables = rest.iter().map(number).collect::<Result<_, _>>()?;
    Ok(Command::Ask { files, question: Question::Variables(bound, variables) })
}

fn variable(place: &OsStr) -> Option<usize> {
    place.to_str().and_then(digits)
}
