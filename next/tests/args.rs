//! The command line: what each asks for, and what is wrong with those that ask for nothing.

use std::ffi::OsString;
use std::path::PathBuf;

use wirdoku_next::args::{parse, Bounds, Check, Command, Files, Proof, Question, Reach};
use wirdoku_next::solver::Solver;

fn parsed(line: &str) -> Result<Command, String> {
    let arguments: Vec<OsString> = line.split_whitespace().map(OsString::from).collect();
    parse(&arguments).map(|line| line.command)
}

fn one(path: &str) -> Files {
    Files { first: PathBuf::from(path), second: None }
}

fn two(first: &str, second: &str) -> Files {
    Files { first: PathBuf::from(first), second: Some(PathBuf::from(second)) }
}

fn ask(files: Files, question: Question) -> Result<Command, String> {
    Ok(Command::Ask { files, question })
}

fn check(bounds: Bounds, solver: Option<Solver>, timeout: Option<u64>, quiet: bool) -> Result<Command, String> {
    ask(one("m"), Question::Check(Check { bounds, solver, proof: Proof::IfSmall, timeout, quiet }))
}

#[test]
fn check_and_its_options() {
    assert_eq!(parsed("check m"), check(Bounds::UpTo(64), None, None, false));
    assert_eq!(parsed("check --bound 7 m"), check(Bounds::Exactly(7), None, None, false));
    assert_eq!(parsed("check m --bound=0 --timeout 5"), check(Bounds::Exactly(0), None, Some(5), false));
    let picosat = Some(Solver::from_value("picosat").unwrap());
    assert_eq!(parsed("check m --quiet --up-to 9 --solver picosat"), check(Bounds::UpTo(9), picosat, None, true));
    for (line, expected) in [("check m --prove", Proof::Always), ("check --no-prove m", Proof::Never)] {
        match parsed(line) {
            Ok(Command::Ask { question: Question::Check(how), .. }) => assert_eq!(how.proof, expected),
            other => panic!("{:?}", other),
        }
    }
    let huge = "check m --bound 99999999999999999999999999";
    assert_eq!(parsed(huge), check(Bounds::Exactly(usize::MAX), None, None, false));
}

#[test]
fn the_other_commands() {
    assert_eq!(parsed("size m --bound 3"), ask(one("m"), Question::Size(3)));
    assert_eq!(parsed("dimacs --bound 3 m"), ask(one("m"), Question::Dimacs(3)));
    assert_eq!(parsed("walk m"), ask(one("m"), Question::Walk(vec![])));
    assert_eq!(parsed("walk m 5 3 255"), ask(one("m"), Question::Walk(vec![5, 3, 255])));
    assert_eq!(parsed("encode m 5 3"), ask(one("m"), Question::Encode(vec![5, 3])));
    assert_eq!(parsed("dot m 5"), ask(one("m"), Question::Dot(vec![5])));
    assert_eq!(parsed("decode m 3 f"), ask(one("m"), Question::Decode(3, PathBuf::from("f"))));
    assert_eq!(parsed("decode m 3 -"), ask(one("m"), Question::Decode(3, PathBuf::from("-"))));
    assert_eq!(parsed("explain 4"), Ok(Command::Explain { number: 4, files: None }));
    assert_eq!(parsed("explain 4 m"), Ok(Command::Explain { number: 4, files: Some(one("m")) }));
    assert_eq!(parsed("explain m 3 1 68"), ask(one("m"), Question::Variables(3, vec![1, 68])));
    assert_eq!(parsed("size - --bound 3"), ask(one("-"), Question::Size(3)));
    let reach = |states, timeout, quiet| ask(one("m"), Question::Reach(Reach { states, timeout, quiet }));
    assert_eq!(parsed("reach m"), reach(100_000, None, false));
    assert_eq!(parsed("reach m --states 7 --timeout 1 --quiet"), reach(7, Some(1), true));
    for line in ["help", "--help", "-h", "check --help", "size m --help"] {
        assert_eq!(parsed(line), Ok(Command::Help));
    }
    assert_eq!(parsed("--version"), Ok(Command::Version));
}

#[test]
fn two_models() {
    let how = Check { bounds: Bounds::UpTo(9), solver: None, proof: Proof::IfSmall, timeout: None, quiet: true };
    let expected = ask(two("m", "n"), Question::Check(how));
    assert_eq!(parsed("check m n --up-to 9 --quiet"), expected);
    assert_eq!(parsed("check m --up-to 9 n --quiet"), expected);
    assert_eq!(parsed("size m - --bound 3"), ask(two("m", "-"), Question::Size(3)));
    assert_eq!(parsed("dimacs --bound 3 m m"), ask(two("m", "m"), Question::Dimacs(3)));
    assert_eq!(parsed("walk m n"), ask(two("m", "n"), Question::Walk(vec![])));
    assert_eq!(parsed("walk 5 ./6 7 8"), ask(two("5", "./6"), Question::Walk(vec![7, 8])));
    assert_eq!(parsed("walk - n 7"), ask(two("-", "n"), Question::Walk(vec![7])));
    assert_eq!(parsed("decode m n 3 f"), ask(two("m", "n"), Question::Decode(3, PathBuf::from("f"))));
    assert_eq!(parsed("explain m n 3 1"), ask(two("m", "n"), Question::Variables(3, vec![1])));
    assert_eq!(parsed("explain 38 m n"), Ok(Command::Explain { number: 38, files: Some(two("m", "n")) }));
}

#[test]
fn json_is_asked_for_where_there_is_an_answer() {
    let json = |line: &str| parse(&line.split(' ').map(OsString::from).collect::<Vec<_>>()).map(|line| line.json);
    for line in ["check m", "reach m", "walk m", "size m --bound 1", "decode m 1 f", "encode m", "explain 4", "explain m 1 1"] {
        assert_eq!((json(line), json(&format!("{} --json", line))), (Ok(false), Ok(true)), "{}", line);
    }
    for line in ["dimacs m --bound 1 --json", "dot m --json", "help --json", "--version --json"] {
        assert_eq!(json(line), Err("`--json` is not expected".to_string()), "{}", line);
    }
}

#[test]
fn wrong_usage_is_named() {
    let cases = [
        ("", "a command is missing"),
        ("run m", "there is no command `run`"),
        ("help m", "`m` is not expected"),
        ("check", "a model file is missing"),
        ("check m n o", "`o` is not expected"),
        ("check - -", "`-` can stand for one model only"),
        ("check m --fast", "`--fast` is not expected"),
        ("check m --bound", "--bound needs a value"),
        ("check m --bound 3 --bound 4", "--bound is given twice"),
        ("check m --quiet --quiet", "--quiet is given twice"),
        ("check m --quiet=yes", "--quiet takes no value"),
        ("check m --json=yes", "--json takes no value"),
        ("check m --bound 3 --up-to 4", "--bound and --up-to exclude each other"),
        ("check m --prove --no-prove", "--prove and --no-prove exclude each other"),
        ("check m --prove=yes", "--prove takes no value"),
        ("reach m --prove", "`--prove` is not expected"),
        ("check m --bound -3", "`-3` is not a bound"),
        ("check m --bound=", "`` is not a bound"),
        ("check m --bound +3", "`+3` is not a bound"),
        ("check m --timeout 0", "`0` is not a number of seconds"),
        ("check m --timeout 1.5", "`1.5` is not a number of seconds"),
        ("reach m --states 0", "`0` is not a number of states"),
        ("reach m --bound 3", "`--bound` is not expected"),
        ("size m", "--bound K is missing"),
        ("size --bound 3", "a model file is missing"),
        ("size m --bound 3 --solver minisat", "`--solver` is not expected"),
        ("walk", "a model file is missing"),
        ("walk m 256", "`256` is not a step byte (0 to 255)"),
        ("walk m +1", "`+1` is not a step byte (0 to 255)"),
        ("walk m -1", "`-1` is not expected"),
        ("walk m n o", "`o` is not a step byte (0 to 255)"),
        ("walk m n 5 o", "`o` is not a step byte (0 to 255)"),
        ("walk - - 5", "`-` can stand for one model only"),
        ("decode m", "the bound is missing"),
        ("decode m n f", "`f` is not a bound"),
        ("decode m 3", "the file with the solver's output is missing"),
        ("decode m 3 f g", "`g` is not expected"),
        ("decode - 3 -", "`-` can stand for one file only"),
        ("decode m - 3 -", "`-` can stand for one file only"),
        ("explain", "a refusal's number or a model file is missing"),
        ("explain m", "the bound is missing"),
        ("explain m 3", "a variable is missing"),
        ("explain m 3 x", "`x` is not a variable"),
        ("explain 300", "`300` is not a refusal's number (0 to 255)"),
        ("explain 4 m n o", "`o` is not expected"),
        ("explain 4 - -", "`-` can stand for one model only"),
    ];
    for (line, reason) in cases {
        assert_eq!(parsed(line), Err(reason.to_string()), "{}", line);
    }
}
