//! Progress where a person would see it: in a terminal that the program `script` makes.

mod common;

use std::fs;
use std::io::Write;
use std::process::{Child, Command, Stdio};
use std::thread::sleep;
use std::time::{Duration, Instant};

use common::{installed, model, with_path, Folder, READ_ALL};

/// Starts the command in a terminal, with a PATH of one folder.
fn in_terminal(folder: &Folder, arguments: &[&str]) -> Child {
    let words: Vec<String> = arguments.iter().map(|word| format!("'{}'", word)).collect();
    // a key that interrupts is to do so, whatever is ignored here
    let start = format!("'{}' --default-signal=INT 'PATH={}'", installed("env").display(), folder.path().display());
    let line = format!("{} '{}' {}", start, env!("CARGO_BIN_EXE_wirdoku-next"), words.join(" "));
    let mut command = Command::new(installed("script"));
    command.args(["-qec", &line, "/dev/null"]).env("SHELL", "/bin/sh");
    command.stdin(Stdio::piped()).stdout(Stdio::piped()).stderr(Stdio::null());
    command.spawn().unwrap()
}

/// A solver that decides two bounds at once and takes more than a second for the rest.
const SLOW: &str = "echo 'c CUBE 1 UNSATISFIABLE in 0.1 sec'\necho 'c CUBE 2 UNSATISFIABLE in 0.1 sec'\n/bin/sleep 1.6\n\
                    echo 's UNSATISFIABLE'\nexit 20";

#[test]
fn one_line_is_written_anew_and_cleared() {
    let folder = Folder::new();
    folder.script("cadical", &format!("{}\n{}", READ_ALL, SLOW));
    let mut child = in_terminal(&folder, &["check", &model("logger_b.txt")]);
    let input = child.stdin.take();
    let output = child.wait_with_output().unwrap();
    drop(input);
    let text = String::from_utf8(output.stdout).unwrap();
    assert_eq!(output.status.code(), Some(20), "{:?}", text);
    // the progress comes first: each line of it begins with CR alone
    let (progress, answer) = text.split_at(text.find("no run of at most 64 steps").unwrap());
    let lines: Vec<&str> = progress.split('\r').collect();
    assert_eq!((lines[0], lines[lines.len() - 1]), ("", ""), "{:?}", text);
    let (cleared, shown) = lines[1..lines.len() - 1].split_last().unwrap();
    assert!(shown.len() >= 3, "{:?}", text);
    assert_eq!(shown[0].trim_end(), "cadical: bound 1 of 64, 0 s");
    assert!(shown.iter().all(|line| line.starts_with("cadical: bound ")), "{:?}", text);
    // it stays at the third bound, and the time goes on
    let last = shown[shown.len() - 1];
    assert!(last.starts_with("cadical: bound 3 of 64, ") && !last.contains(" 0 s"), "{:?}", text);
    assert_eq!(**cleared, " ".repeat(shown.iter().map(|line| line.len()).max().unwrap()));
    assert_eq!(answer.lines().count(), 2, "{:?}", text);
}

#[test]
fn quiet_is_quiet_in_a_terminal_too() {
    let folder = Folder::new();
    folder.script("cadical", &format!("{}\necho 's UNSATISFIABLE'\nexit 20", READ_ALL));
    let mut child = in_terminal(&folder, &["check", &model("logger_b.txt"), "--quiet"]);
    let input = child.stdin.take();
    let output = child.wait_with_output().unwrap();
    drop(input);
    assert!(output.stdout.starts_with(b"no run of at most 64 steps"), "{:?}", String::from_utf8_lossy(&output.stdout));
}

#[test]
fn lines_stay_where_there_is_no_terminal() {
    let folder = Folder::new();
    folder.script("cadical", &format!("{}\n{}", READ_ALL, SLOW));
    let outcome = with_path(&folder, &["check", &model("logger_b.txt")]);
    let expected = "bounds 1 to 64 in one file: 1227 variables, 8536 clauses\nbound 1: unsatisfiable\nbound 2: unsatisfiable\n";
    assert_eq!(outcome.progress(), expected);
}

/// The key that interrupts reaches the command alone; the solver is gone with it.
#[test]
fn an_interrupt_at_the_terminal_leaves_no_solver() {
    let folder = Folder::new();
    let started = folder.path().join("started");
    folder.script("cadical", &format!("{}\necho $$ >'{}'\nexec /bin/sleep 1000", READ_ALL, started.display()));
    let mut child = in_terminal(&folder, &["check", &model("logger_b.txt")]);
    let start = Instant::now();
    let waited = |what: &str| {
        assert!(start.elapsed() < Duration::from_secs(20), "{}", what);
        sleep(Duration::from_millis(10));
    };
    let number = loop {
        match fs::read_to_string(&started) {
            Ok(text) if text.ends_with('\n') => break text.trim().to_string(),
            _ => waited("the solver is started"),
        }
    };
    let mut keys = child.stdin.take().unwrap();
    keys.write_all(b"\x03").unwrap();
    keys.flush().unwrap();
    // 128 and the signal's number, as a shell tells it
    assert_eq!(child.wait().unwrap().code(), Some(130));
    let state = |number: &str| fs::read_to_string(format!("/proc/{}/stat", number)).unwrap_or_default();
    while !(state(&number).is_empty() || state(&number).contains(") Z ")) {
        waited("the solver is gone");
    }
}
