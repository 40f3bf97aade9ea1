//! Inputs that are refused, with numbers and lines; wrong usage; files that cannot be read or written.

mod common;

use std::fs::OpenOptions;
use std::process::Stdio;

use common::{calls, command, model, model_text, wirdoku, wirdoku_with_input, Folder};

#[test]
fn files_that_are_no_model() {
    let folder = Folder::new();
    let cases = [
        (Vec::new(), "refusal 2, line 1: "),
        (vec![b'7'; 1_000_000], "refusal 1: "),
        (vec![b'\n'; 8_193], "refusal 1: "),
        (vec![b'\n'; 8_192], "refusal 2, line 1: "),
        (model_text("a.txt").replace('\n', "\r\n").into_bytes(), "refusal 3, line 1: "),
        (vec![0xff, 0x00, b'\n'], "refusal 2, line 1: "),
    ];
    for (content, message) in cases {
        let path = folder.file("model.txt", &content);
        for arguments in calls(&path) {
            let outcome = wirdoku(&arguments);
            outcome.assert_stopped(2, &format!("{}: {}", path, message));
            assert!(outcome.err.len() < 1_000, "{:?}", outcome);
        }
        for arguments in calls("-") {
            wirdoku_with_input(&arguments, &content).assert_stopped(2, &format!("-: {}", message));
        }
    }
    let path = folder.file("model.txt", model_text("a.txt").replace('\n', "\r\n").as_bytes());
    let outcome = wirdoku(&["check", &path]);
    assert!(
        outcome.err.ends_with("\n    locations=2\\r\n    the line ends with CR LF; lines end with LF alone\n"),
        "{:?}",
        outcome
    );
}

#[test]
fn files_that_cannot_be_read() {
    let folder = Folder::new();
    let missing = folder.path().join("missing").to_str().unwrap().to_string();
    let place = folder.path().to_str().unwrap().to_string();
    for path in [missing, place] {
        for arguments in calls(&path).into_iter().chain([vec!["explain", "4", &path]]) {
            wirdoku(&arguments).assert_stopped(5, &format!("{} cannot be read: ", path));
        }
    }
}

#[test]
fn an_endless_file_is_not_read_to_its_end() {
    wirdoku(&["check", "/dev/zero"]).assert_stopped(2, "/dev/zero: refusal 1: ");
}

#[test]
fn bounds_and_runs_above_64() {
    let path = model("a.txt");
    let mut walk = vec!["walk", &path];
    walk.extend(["0"; 65]);
    let huge = "340282366920938463463374607431768211456";
    let cases = [
        vec!["check", &path, "--bound", "65"],
        vec!["check", &path, "--up-to", "65"],
        vec!["check", &path, "--up-to", huge],
        vec!["size", &path, "--bound", "65"],
        vec!["size", &path, "--bound", huge],
        vec!["dimacs", &path, "--bound", "65"],
        walk,
    ];
    for arguments in cases {
        wirdoku(&arguments).assert_stopped(2, &format!("{}: refusal 21: ", path));
    }
    // the text is tested before the bound
    wirdoku_with_input(&["check", "-", "--bound", "65"], b"\n").assert_stopped(2, "-: refusal 2, line 1: ");
}

#[test]
fn wrong_usage() {
    let cases: [(&[&str], &str); 6] = [
        (&[], "a command is missing\n"),
        (&["prove", "m"], "there is no command `prove`\n"),
        (&["check"], "a model file is missing\n"),
        (&["check", "m", "--bound", "x"], "`x` is not a bound\n"),
        (&["check", "m", "--solver", "z-9"], "`z-9` is none of cadical, minisat, picosat, and no program `z-9` is on the path\n"),
        (&["size", "m"], "--bound K is missing\n"),
    ];
    for (arguments, message) in cases {
        let outcome = wirdoku(arguments);
        outcome.assert_stopped(1, message);
        assert!(outcome.err.ends_with("`wirdoku --help` says how it is used\n"), "{:?}", outcome);
    }
}

#[test]
fn numbers_are_explained() {
    for number in (1..=10).chain(20..=35).chain([38]) {
        let outcome = wirdoku(&["explain", &number.to_string()]);
        assert_eq!((outcome.status, outcome.err.as_str()), (0, ""));
        assert!(outcome.out.starts_with(&format!("refusal {}: ", number)));
        assert_eq!(outcome.out.lines().count(), 1);
    }
    for number in ["0", "11", "19", "36", "37", "39", "255"] {
        wirdoku(&["explain", number]).assert_stopped(1, &format!("no refusal has the number {}\n", number));
    }
}

#[test]
fn a_model_is_explained() {
    let text = model_text("a.txt").replace("edges=1", "edges=33");
    let outcome = wirdoku_with_input(&["explain", "4", "-"], text.as_bytes());
    assert_eq!((outcome.status, outcome.err.as_str()), (0, ""));
    let lines: Vec<&str> = outcome.out.lines().collect();
    assert!(lines[1].starts_with("-: refusal 4, line 8: a number is outside its range"), "{:?}", outcome);
    assert_eq!(lines[2..], ["    edges=33", "    33 edges, and a model has at most 32"]);
    let outcome = wirdoku(&["explain", "4", &model("a.txt")]);
    assert!(outcome.out.ends_with("a.txt: the text is accepted\n"), "{:?}", outcome);
}

#[test]
fn an_output_that_cannot_be_written() {
    let path = model("logger_b.txt");
    let cases = [vec!["--help"], vec!["explain", "4"]];
    for arguments in calls(&path).into_iter().chain(cases) {
        let full = OpenOptions::new().write(true).open("/dev/full").unwrap();
        let output = command(&arguments).stdin(Stdio::null()).stdout(full).output().unwrap();
        let err = String::from_utf8(output.stderr).unwrap();
        assert_eq!(output.status.code(), Some(5), "{:?}: {}", arguments, err);
        assert!(err.contains("wirdoku: the output cannot be written: "), "{:?}: {}", arguments, err);
    }
}
