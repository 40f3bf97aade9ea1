//! Inputs that are refused, with numbers and lines; wrong usage; files that cannot be read or written.

mod common;

use std::fs::OpenOptions;
use std::process::Stdio;

use common::{command, model, model_text, wirdoku, wirdoku_with_input, Folder};

/// Every command that takes a model, for a model file.
fn calls(path: &str) -> Vec<Vec<&str>> {
    vec![
        vec!["check", path],
        vec!["check", path, "--bound", "3"],
        vec!["size", path, "--bound", "3"],
        vec!["dimacs", path, "--bound", "3"],
        vec!["walk", path, "5", "3", "7"],
    ]
}

/// A change of the logger's text, and the number, the line and the line's text that are reported.
struct Case {
    old: &'static str,
    new: &'static str,
    number: u8,
    line: usize,
    shown: &'static str,
}

const fn case(old: &'static str, new: &'static str, number: u8, line: usize, shown: &'static str) -> Case {
    Case { old, new, number, line, shown }
}

const CASES: [Case; 29] = [
    case("locations=4\n", "places=4\n", 2, 1, "places=4\n    due here: locations="),
    case("var=1,0\n", "", 2, 6, "inv=-\n    due here: var="),
    case("edges=3", "edge=3", 2, 11, "edge=3\n    due here: edges="),
    case("set=v0:=v0+1\n", "", 2, 22, "reset=-\n    due here: set="),
    case("when=x0>=3\nset=-\nreset=-\n", "when=x0>=3\n", 2, 28, "(the text ends before this line)\n    due here: set="),
    case("set=-\nreset=-\n", "set=-\nreset=-", 2, 29, "reset=-\n    due here: reset=\n    the line has no LF at its end"),
    case("to=3\nlabel=0\n", "to=3\n", 2, 26, "when=x0>=3\n    due here: label="),
    case("to=1\nlabel=0\n", "to=1\nLabel=1\n", 2, 14, "Label=1\n    due here: label="),
    case("init=0", "init=00", 3, 2, "init=00"),
    case("init=0", "init= 0", 3, 2, "init= 0"),
    case("init=0", "init=\t\u{e9}\"", 3, 2, "init=\\t\\xc3\\xa9\""),
    case("inv=x0<=3", "inv=x0!=3", 3, 8, "inv=x0!=3"),
    case("inv=x0<=3", "inv=v0<=1", 3, 8, "inv=v0<=1"),
    case("reset=x0", "reset=x0:=0", 3, 17, "reset=x0:=0"),
    case("to=2\nlabel=0\n", "to=2\nlabel=-\n", 3, 20, "label=-"),
    case("to=2\nlabel=0\n", "to=2\nlabel=015\n", 3, 20, "label=015"),
    case("locations=4", "locations=17", 4, 1, "locations=17"),
    case("inv=x0<=3", "inv=x0<=31", 4, 8, "inv=x0<=31"),
    case("var=1,0", "var=1,2", 4, 6, "var=1,2"),
    case("to=1\nlabel=0\n", "to=1\nlabel=16\n", 4, 14, "label=16"),
    case("target=3", "target=4", 5, 3, "target=4"),
    case("when=x0>=3", "when=x1>=3", 5, 27, "when=x1>=3"),
    case("reset=x0", "reset=x0:=x1", 5, 17, "reset=x0:=x1"),
    case("reset=x0", "reset=x1:=x0", 5, 17, "reset=x1:=x0"),
    case("set=v0:=v0+1", "set=v0:=v0+1,v0:=1", 6, 22, "set=v0:=v0+1,v0:=1"),
    case("reset=x0", "reset=x0,x0", 6, 17, "reset=x0,x0"),
    case("reset=x0", "reset=x0:=x0,x0", 6, 17, "reset=x0:=x0,x0"),
    case("inv=x0<=3", "inv=x0<=3,x0<=3,x0<=3,x0<=3,x0<=3", 7, 8, "inv=x0<=3,x0<=3,x0<=3,x0<=3,x0<=3"),
    case("when=x0>=3\nset=-\nreset=-\n", "when=x0>=3\nset=-\nreset=-\n\n", 8, 30, "(an empty line)"),
];

#[test]
fn texts_are_refused_with_number_line_and_the_line_itself() {
    let folder = Folder::new();
    for Case { old, new, number, line, shown } in &CASES {
        let text = model_text("logger_b.txt");
        // the last place, so that the last edge's lines can be meant
        let place = text.rfind(old).unwrap_or_else(|| panic!("{}", old));
        let changed = format!("{}{}{}", &text[..place], new, &text[place + old.len()..]);
        let path = folder.file("model.txt", changed.as_bytes());
        for arguments in calls(&path) {
            let outcome = wirdoku(&arguments);
            outcome.assert_stopped(2, &format!("{}: refusal {}, line {}: ", path, number, line));
            let (_, rest) = outcome.err.split_once('\n').unwrap();
            assert_eq!(rest, format!("    {}\n", shown), "{:?}", outcome);
        }
    }
}

#[test]
fn every_sort_of_text_refusal_is_among_the_cases() {
    for number in 2..=8 {
        assert!(CASES.iter().any(|case| case.number == number), "{}", number);
    }
}

#[test]
fn files_that_are_no_model() {
    let folder = Folder::new();
    let cases = [
        (Vec::new(), "refusal 2, line 1: "),
        (vec![b'7'; 1_000_000], "refusal 1: "),
        (vec![b'\n'; 8_193], "refusal 1: "),
        (vec![b'\n'; 8_192], "refusal 2, line 1: "),
        (model_text("a.txt").replace('\n', "\r\n").into_bytes(), "refusal 3, line 1: "),
        (vec![0xff, 0x00, b'\n'], "refusal 2, line 1: "),
    ];
    for (content, message) in cases {
        let path = folder.file("model.txt", &content);
        for arguments in calls(&path) {
            let outcome = wirdoku(&arguments);
            outcome.assert_stopped(2, &format!("{}: {}", path, message));
            assert!(outcome.err.len() < 1_000, "{:?}", outcome);
        }
        for arguments in calls("-") {
            wirdoku_with_input(&arguments, &content).assert_stopped(2, &format!("-: {}", message));
        }
    }
    let path = folder.file("model.txt", model_text("a.txt").replace('\n', "\r\n").as_bytes());
    let outcome = wirdoku(&["check", &path]);
    assert!(
        outcome.err.ends_with("\n    locations=2\\r\n    the line ends with CR LF; lines end with LF alone\n"),
        "{:?}",
        outcome
    );
}

#[test]
fn files_that_cannot_be_read() {
    let folder = Folder::new();
    let missing = folder.path().join("missing").to_str().unwrap().to_string();
    let place = folder.path().to_str().unwrap().to_string();
    for path in [missing, place] {
        for arguments in calls(&path).into_iter().chain([vec!["explain", "4", &path]]) {
            wirdoku(&arguments).assert_stopped(5, &format!("{} cannot be read: ", path));
        }
    }
}

#[test]
fn an_endless_file_is_not_read_to_its_end() {
    wirdoku(&["check", "/dev/zero"]).assert_stopped(2, "/dev/zero: refusal 1: ");
}

#[test]
fn bounds_and_runs_above_64() {
    let path = model("a.txt");
    let mut walk = vec!["walk", &path];
    walk.extend(["0"; 65]);
    let huge = "340282366920938463463374607431768211456";
    let cases = [
        vec!["check", &path, "--bound", "65"],
        vec!["check", &path, "--up-to", "65"],
        vec!["check", &path, "--up-to", huge],
        vec!["size", &path, "--bound", "65"],
        vec!["size", &path, "--bound", huge],
        vec!["dimacs", &path, "--bound", "65"],
        walk,
    ];
    for arguments in cases {
        wirdoku(&arguments).assert_stopped(2, &format!("{}: refusal 21: ", path));
    }
    // the text is tested before the bound
    wirdoku_with_input(&["check", "-", "--bound", "65"], b"\n").assert_stopped(2, "-: refusal 2, line 1: ");
}

#[test]
fn wrong_usage() {
    let cases: [(&[&str], &str); 6] = [
        (&[], "a command is missing\n"),
        (&["prove", "m"], "there is no command `prove`\n"),
        (&["check"], "a model file is missing\n"),
        (&["check", "m", "--bound", "x"], "`x` is not a bound\n"),
        (&["check", "m", "--solver", "z3"], "`z3` is none of cadical, minisat, picosat\n"),
        (&["size", "m"], "--bound K is missing\n"),
    ];
    for (arguments, message) in cases {
        let outcome = wirdoku(arguments);
        outcome.assert_stopped(1, message);
        assert!(outcome.err.ends_with("`wirdoku --help` says how it is used\n"), "{:?}", outcome);
    }
}

#[test]
fn numbers_are_explained() {
    for number in (1..=10).chain(20..=35).chain([38]) {
        let outcome = wirdoku(&["explain", &number.to_string()]);
        assert_eq!((outcome.status, outcome.err.as_str()), (0, ""));
        assert!(outcome.out.starts_with(&format!("refusal {}: ", number)));
        assert_eq!(outcome.out.lines().count(), 1);
    }
    for number in ["0", "11", "19", "36", "37", "39", "255"] {
        wirdoku(&["explain", number]).assert_stopped(1, &format!("no refusal has the number {}\n", number));
    }
}

#[test]
fn a_model_is_explained() {
    let text = model_text("a.txt").replace("edges=1", "edges=33");
    let outcome = wirdoku_with_input(&["explain", "4", "-"], text.as_bytes());
    assert_eq!((outcome.status, outcome.err.as_str()), (0, ""));
    let lines: Vec<&str> = outcome.out.lines().collect();
    assert!(lines[1].starts_with("-: refusal 4, line 8: a number is outside its range"), "{:?}", outcome);
    assert_eq!(lines[2..], ["    edges=33"]);
    let outcome = wirdoku(&["explain", "4", &model("a.txt")]);
    assert!(outcome.out.ends_with("a.txt: the text is accepted\n"), "{:?}", outcome);
}

#[test]
fn an_output_that_cannot_be_written() {
    let path = model("logger_b.txt");
    let cases = [vec!["--help"], vec!["explain", "4"]];
    for arguments in calls(&path).into_iter().chain(cases) {
        let full = OpenOptions::new().write(true).open("/dev/full").unwrap();
        let output = command(&arguments).stdin(Stdio::null()).stdout(full).output().unwrap();
        let err = String::from_utf8(output.stderr).unwrap();
        assert_eq!(output.status.code(), Some(5), "{:?}: {}", arguments, err);
        assert!(err.contains("wirdoku: the output cannot be written: "), "{:?}: {}", arguments, err);
    }
}
