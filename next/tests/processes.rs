//! Solvers that hang, flood or leave children, and commands that are killed: nothing stays behind, no process and no file.

mod common;

use std::fs;
use std::path::PathBuf;
use std::process::{Child, Command, Stdio};
use std::thread::{self, sleep};
use std::time::{Duration, Instant};

use common::{installed, model, outcome, with_path, Folder, Outcome, READ_ALL, SOLVERS};

/// How long something is waited for that is to happen at once.
const PATIENCE: Duration = Duration::from_secs(20);

/// Waits until something holds.
fn wait_until(what: &str, holds: impl Fn() -> bool) {
    let start = Instant::now();
    while !holds() {
        assert!(start.elapsed() < PATIENCE, "{}", what);
        sleep(Duration::from_millis(10));
    }
}

/// The state and the group of a process; none if there is no such process.
fn state(process: &str) -> Option<(String, String)> {
    let text = fs::read_to_string(format!("/proc/{}/stat", process)).ok()?;
    let mut words = text.rsplit_once(')')?.1.split_whitespace();
    Some((words.next()?.to_string(), words.nth(1)?.to_string()))
}

/// Whether a process runs; one that has ended may be there still, until it is waited for.
fn runs(process: &str) -> bool {
    state(process).map_or(false, |(state, _)| state != "Z" && state != "X")
}

/// The processes of a group that run.
fn group(number: &str) -> Vec<String> {
    let entries = fs::read_dir("/proc").unwrap().map(|entry| entry.unwrap().file_name().into_string().unwrap());
    entries.filter(|process| runs(process) && state(process).map_or(false, |(_, group)| group == number)).collect()
}

/// A folder with a script in place of a solver that starts a child and hangs with it, and writes down both numbers.
struct Hanging {
    folder: Folder,
    started: PathBuf,
}

impl Hanging {
    fn new(solver: &str, before: &str) -> Hanging {
        let folder = Folder::new();
        let started = folder.path().join("started");
        let lines = format!("{}\n/bin/sleep 1000 &\necho $$ $! >'{}'\nwait", before, started.display());
        folder.script(solver, &lines);
        Hanging { folder, started }
    }

    fn numbers(&self) -> Vec<String> {
        let text = fs::read_to_string(&self.started).unwrap_or_default();
        text.split_whitespace().map(str::to_string).collect()
    }

    /// The command at work, when the solver hangs; and the solver's group, with the solver, its child and the guard in it. The
    /// program `env` sees to it that signals which are ignored here are not ignored there.
    fn begin(&self, temporary: &Folder) -> (Child, String) {
        let mut command = Command::new(installed("env"));
        command.args(["--default-signal=HUP,INT,TERM", env!("CARGO_BIN_EXE_wirdoku-next"), "check", &model("logger_b.txt")]);
        command.env("PATH", self.folder.path()).env("TMPDIR", temporary.path());
        let child = command.stdin(Stdio::null()).stdout(Stdio::null()).stderr(Stdio::null()).spawn().unwrap();
        wait_until("the solver is started", || self.numbers().len() == 2);
        let (_, number) = state(&self.numbers()[0]).unwrap();
        let members = group(&number);
        assert!(members.len() == 3 && self.numbers().iter().all(|process| members.contains(process)), "{:?}", members);
        (child, number)
    }

    fn assert_gone(&self) {
        let numbers = self.numbers();
        assert_eq!(numbers.len(), 2);
        wait_until("solver and child are gone", || !numbers.iter().any(|process| runs(process)));
    }
}

/// Checks the logger with a script in place of cadical, for a second.
fn for_a_second(folder: &Folder, further: &[&str]) -> Outcome {
    let path = model("logger_b.txt");
    with_path(folder, &[&["check", &path, "--timeout", "1", "--quiet"], further].concat())
}

#[test]
fn a_killed_command_leaves_no_solver_and_no_file() {
    for solver in SOLVERS {
        for signal in ["KILL", "TERM", "INT", "HUP"] {
            let (hanging, temporary) = (Hanging::new(solver, READ_ALL), Folder::new());
            let (mut child, number) = hanging.begin(&temporary);
            let kill = format!("kill -{} {}", signal, child.id());
            assert!(Command::new("/bin/sh").args(["-c", &kill]).status().unwrap().success());
            wait_until("the command is gone", || !runs(&child.id().to_string()));
            assert_eq!(child.wait().unwrap().code(), None, "{} {}", solver, signal);
            wait_until("the group is gone", || group(&number).is_empty());
            hanging.assert_gone();
            assert_eq!(temporary.names(), Vec::<String>::new());
        }
    }
}

#[test]
fn a_solver_that_hangs_is_ended_when_its_time_is_over() {
    let hangs = |solver: &str, before: &str, further: &[&str], said: &str| {
        let hanging = Hanging::new(solver, before);
        let outcome = for_a_second(&hanging.folder, further);
        assert_eq!((outcome.status, outcome.out), (7, format!("not decided within 1 s: {}\n", said)));
        hanging.assert_gone();
    };
    thread::scope(|scope| {
        for solver in SOLVERS {
            // whether it reads its input or not, and with its output closed
            for before in ["", READ_ALL, "exec >&-", "trap '' TERM INT HUP"] {
                scope.spawn(move || hangs(solver, before, &["--bound", "5"], "bound 5 was being solved"));
            }
        }
        let said = "the empty run is none (walked by proved code), bound 1 was being solved";
        scope.spawn(move || hangs("picosat", "", &[], said));
    });
}

/// How far cadical is, is known from its comments.
#[test]
fn the_bounds_that_were_decided_in_time_are_told() {
    let comments = "echo 'c CUBE 1 UNSATISFIABLE in 0.1 sec'\necho 'c CUBE 2 UNSATISFIABLE in 0.1 sec'";
    let hanging = Hanging::new("cadical", comments);
    let outcome = for_a_second(&hanging.folder, &["--json"]);
    let fields = "\"verdict\": \"undecided\", \"bound\": null, \"exactly\": null, \"up_to\": 64, \"none_up_to\": 2, \"none_checked\": false, \
                  \"solver\": \"cadical\", ";
    assert!(outcome.status == 7 && outcome.out.contains(fields), "{:?}", outcome);
    let outcome = for_a_second(&hanging.folder, &[]);
    let said = "not decided within 1 s: no run of at most 2 steps (the word of cadical), bound 3 was being solved\n";
    assert_eq!((outcome.status, outcome.out.as_str()), (7, said));
}

/// A run that is found before the time is over is told, and what is not known of shorter ones.
#[test]
fn a_run_that_was_found_in_time_is_told() {
    let folder = Folder::new();
    let picosat = installed("picosat");
    // the logger's list for 3 steps is too much for this one, and its run for 4 begins with a delay
    let lines = format!(
        "read -r first\ncase \"$first\" in\n'p cnf 68 424') exec /bin/sleep 1000;;\n\
         'p cnf 87 557') {{ echo 'p cnf 87 558'; /bin/cat; echo '12 0'; }} | '{0}';;\n\
         *) {{ echo \"$first\"; /bin/cat; }} | '{0}';;\nesac",
        picosat.display()
    );
    folder.script("picosat", &lines);
    let outcome = for_a_second(&folder, &[]);
    assert_eq!(outcome.status, 10, "{:?}", outcome);
    assert!(outcome.out.starts_with("a run of 4 steps reaches the target\n"), "{:?}", outcome);
    let said = "\n(walked by proved code; whether a shorter run does was not decided within 1 s: no run of at most 2 steps \
                (the word of picosat), bound 3 was being solved)\n";
    assert!(outcome.out.ends_with(said), "{:?}", outcome);
    let outcome = for_a_second(&folder, &["--json"]);
    let fields = "\"verdict\": \"run\", \"bound\": 4, \"exactly\": null, \"up_to\": 64, \"none_up_to\": 2, ";
    assert!(outcome.status == 10 && outcome.out.contains(fields), "{:?}", outcome);
}

/// A solver that ends while its child holds the pipes open is not waited for any longer, and the child is ended.
#[test]
fn a_child_that_stays_is_ended() {
    let folder = Folder::new();
    let started = folder.path().join("started");
    let lines = format!("{}\n/bin/sleep 1000 &\necho $! >'{}'\necho 's UNSATISFIABLE'\nexit 20", READ_ALL, started.display());
    folder.script("cadical", &lines);
    let start = Instant::now();
    assert_eq!(with_path(&folder, &["check", &model("a.txt"), "--quiet"]).status, 20);
    assert!(start.elapsed() < PATIENCE);
    let number = fs::read_to_string(&started).unwrap();
    wait_until("the child is gone", || !runs(number.trim()));
}

/// One that has left its group is ended by its number, and is not waited for if it has a child there that holds the pipes.
#[test]
fn a_solver_that_leaves_its_group_is_ended() {
    let folder = Folder::new();
    let started = folder.path().join("started");
    folder.script(
        "cadical",
        &format!("echo $$ >'{}'\nexec '{}' /bin/sleep 1000", started.display(), installed("setsid").display()),
    );
    assert_eq!(for_a_second(&folder, &[]).status, 7);
    let number = fs::read_to_string(&started).unwrap();
    wait_until("the solver is gone", || !runs(number.trim()));
    let lines = format!("'{}' /bin/sleep 30 &\necho 's UNSATISFIABLE'\nexit 20", installed("setsid").display());
    folder.script("cadical", &lines);
    let start = Instant::now();
    assert_eq!(with_path(&folder, &["check", &model("a.txt"), "--quiet"]).status, 20);
    assert!(start.elapsed() < PATIENCE);
}

#[test]
fn a_solver_that_prints_without_end_is_ended() {
    for solver in SOLVERS {
        let folder = Folder::new();
        // MiniSat's result is what counts of it, and what it prints otherwise is dropped
        folder.script(solver, "case \"$3\" in\n'') exec /bin/cat /dev/zero;;\n*) exec /bin/cat /dev/zero >\"$3\";;\nesac");
        let message = format!("the solver {} printed more than 16 MiB, and was ended\n", solver);
        with_path(&folder, &["check", &model("a.txt"), "--quiet"]).assert_stopped(3, &message);
    }
}

/// A gigabyte of messages, with half of that for the command to live in, and then an answer; and messages without end.
#[test]
fn messages_are_kept_in_part() {
    let folder = Folder::new();
    let many = format!("{} -c 1000000000 /dev/zero >&2", installed("head").display());
    folder.script("cadical", &format!("{}\n{}\necho 's UNSATISFIABLE'\nexit 20", READ_ALL, many));
    let mut limited = Command::new("/bin/sh");
    limited.args(["-c", "ulimit -v 500000; exec \"$@\"", "sh", env!("CARGO_BIN_EXE_wirdoku-next")]);
    limited.args(["check", &model("a.txt"), "--quiet"]).env("PATH", folder.path());
    let outcome = outcome(&mut limited);
    assert_eq!(outcome.status, 20, "{:?}", outcome);
    folder.script("cadical", "exec /bin/cat /dev/zero >&2");
    assert_eq!(for_a_second(&folder, &[]).status, 7);
    // one line of them is shown, and not all of it
    folder.script("cadical", "echo one >&2\nprintf '%0500d\\033\\n' 7 >&2\nexit 3");
    let outcome = for_a_second(&folder, &["--bound", "1"]);
    outcome.assert_stopped(3, &format!("the solver cadical gave no answer (exit status: 3, `{} ..`): ", "0".repeat(160)));
}
