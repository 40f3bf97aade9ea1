//! Runs the command and looks at all that it leaves: output, progress and messages, exit status.
#![allow(dead_code)] // each test file uses a part

pub mod generated;

use std::env;
use std::fs;
use std::io::Write;
use std::path::{Path, PathBuf};
use std::process::{self, Command, Output, Stdio};
use std::sync::atomic::{AtomicUsize, Ordering};
use std::thread;

pub const SOLVERS: [&str; 3] = ["cadical", "minisat", "picosat"];

/// Reads the list to its end without any other program, as a solver does.
pub const READ_ALL: &str = "while read -r line; do :; done";

/// What the command leaves.
#[derive(Debug)]
pub struct Outcome {
    pub status: i32,
    pub out: String,
    pub err: String,
}

impl Outcome {
    fn of(output: Output) -> Outcome {
        Outcome {
            status: output.status.code().unwrap(),
            out: String::from_utf8(output.stdout).unwrap(),
            err: String::from_utf8(output.stderr).unwrap(),
        }
    }

    /// Asserts an ending before the answer: nothing on standard output, and a message that begins like this.
    pub fn assert_stopped(&self, status: i32, message: &str) {
        assert_eq!(self.status, status, "{:?}", self);
        assert_eq!(self.out, "", "{:?}", self);
        assert!(self.err.starts_with(&format!("wirdoku: {}", message)), "{:?}", self);
    }

    /// The lines of progress without their times, which are all that may differ from run to run.
    pub fn progress(&self) -> String {
        self.err.lines().map(|line| format!("{}\n", untimed(line))).collect()
    }
}

fn untimed(line: &str) -> &str {
    match line.rsplit_once(", ") {
        Some((rest, time)) if time.strip_suffix(" s").map_or(false, |time| time.parse::<f64>().is_ok()) => rest,
        _ => line,
    }
}

/// A model of the repository.
pub fn model(name: &str) -> String {
    format!("{}/../models/{}", env!("CARGO_MANIFEST_DIR"), name)
}

/// A copy of a model of the repository in a folder where no names stand beside it.
pub fn bare_model(name: &str) -> String {
    let path = Path::new(env!("CARGO_TARGET_TMPDIR")).join(name);
    // Written whole under a name of its own first, since other tests may read the copy meanwhile.
    let own = path.with_extension(format!("{}-{:?}", process::id(), thread::current().id()));
    fs::write(&own, model_text(name)).unwrap();
    fs::rename(&own, &path).unwrap();
    path.to_str().unwrap().to_string()
}

pub fn model_text(name: &str) -> String {
    fs::read_to_string(model(name)).unwrap()
}

/// The command as it is called. `check` is not to ask for a refutation unless the call says so: tests/proving.rs is about these.
pub fn command(arguments: &[&str]) -> Command {
    let mut command = plain_command(arguments);
    if arguments.first() == Some(&"check") && !arguments.contains(&"--prove") && !arguments.contains(&"--help") {
        command.arg("--no-prove");
    }
    command
}

/// The command with these arguments alone.
pub fn plain_command(arguments: &[&str]) -> Command {
    let mut command = Command::new(env!("CARGO_BIN_EXE_wirdoku-next"));
    command.args(arguments);
    command
}

pub fn outcome(command: &mut Command) -> Outcome {
    Outcome::of(command.stdin(Stdio::null()).output().unwrap())
}

pub fn wirdoku(arguments: &[&str]) -> Outcome {
    outcome(&mut command(arguments))
}

/// Every command that takes a model, for a model file.
pub fn calls(path: &str) -> Vec<Vec<&str>> {
    vec![
        vec!["check", path],
        vec!["check", path, "--bound", "3"],
        vec!["size", path, "--bound", "3"],
        vec!["dimacs", path, "--bound", "3"],
        vec!["walk", path, "5", "3", "7"],
    ]
}

/// Runs the command with a PATH of one folder.
pub fn with_path(folder: &Folder, arguments: &[&str]) -> Outcome {
    outcome(command(arguments).env("PATH", folder.path()))
}

/// Runs the command with a text at standard input.
pub fn wirdoku_with_input(arguments: &[&str], input: &[u8]) -> Outcome {
    let mut child = command(arguments).stdin(Stdio::piped()).stdout(Stdio::piped()).stderr(Stdio::piped()).spawn().unwrap();
    // A text that is too long is not read to its end, so the write may fail.
    let _ = child.stdin.take().unwrap().write_all(input);
    Outcome::of(child.wait_with_output().unwrap())
}

/// A folder of the test's own, with files in it; it is removed afterwards.
pub struct Folder(PathBuf);

static NEXT: AtomicUsize = AtomicUsize::new(0);

impl Folder {
    pub fn new() -> Folder {
        let name = format!("wirdoku-test-{}-{}", process::id(), NEXT.fetch_add(1, Ordering::Relaxed));
        let path = env::temp_dir().join(name);
        fs::create_dir(&path).unwrap();
        Folder(path)
    }

    pub fn path(&self) -> &Path {
        &self.0
    }

    pub fn file(&self, name: &str, content: &[u8]) -> String {
        let path = self.0.join(name);
        fs::write(&path, content).unwrap();
        path.to_str().unwrap().to_string()
    }

    pub fn script(&self, name: &str, lines: &str) -> String {
        self.program(name, &format!("#!/bin/sh\n{}\n", lines))
    }

    /// A program. A process of its own writes it: a file that this process has open for writing while
    /// another test's thread starts a program could not be run at once.
    pub fn program(&self, name: &str, content: &str) -> String {
        let path = self.0.join(name);
        let write = "printf '%s' \"$1\" >\"$2\" && chmod 755 \"$2\"";
        let done = Command::new("/bin/sh").args(["-c", write, "sh", content]).arg(&path).status().unwrap();
        assert!(done.success());
        path.to_str().unwrap().to_string()
    }

    pub fn names(&self) -> Vec<String> {
        let entries = fs::read_dir(&self.0).unwrap();
        entries.map(|entry| entry.unwrap().file_name().into_string().unwrap()).collect()
    }
}

impl Drop for Folder {
    fn drop(&mut self) {
        let _ = fs::remove_dir_all(&self.0);
    }
}

/// The path of an installed program.
pub fn installed(name: &str) -> PathBuf {
    let path = env::var_os("PATH").unwrap();
    let found = env::split_paths(&path).map(|folder| folder.join(name)).find(|file| Path::is_file(file));
    found.unwrap_or_else(|| panic!("{} is not installed, and these tests need it", name))
}
