//! Runs the command and looks at all that it leaves: output, progress and messages, exit status.
#![allow(dead_code)] // each test file uses a part

use std::env;
use std::fs;
use std::io::Write;
use std::path::{Path, PathBuf};
use std::process::{Command, Output, Stdio};
use wirdoku::scratch::Scratch;

pub const SOLVERS: [&str; 3] = ["cadical", "minisat", "picosat"];

/// What the command leaves.
#[derive(Debug)]
pub struct Outcome {
    pub status: i32,
    pub out: String,
    pub err: String,
}

impl Outcome {
    fn of(output: Output) -> Outcome {
        Outcome {
            status: output.status.code().unwrap(),
            out: String::from_utf8(output.stdout).unwrap(),
            err: String::from_utf8(output.stderr).unwrap(),
        }
    }

    /// Asserts an ending before the answer: nothing on standard output, and a message that begins like this.
    pub fn assert_stopped(&self, status: i32, message: &str) {
        assert_eq!(self.status, status, "{:?}", self);
        assert_eq!(self.out, "", "{:?}", self);
        assert!(self.err.starts_with(&format!("wirdoku: {}", message)), "{:?}", self);
    }
}

/// A model of the repository.
pub fn model(name: &str) -> String {
    format!("{}/../models/{}", env!("CARGO_MANIFEST_DIR"), name)
}

pub fn model_text(name: &str) -> String {
    fs::read_to_string(model(name)).unwrap()
}

pub fn command(arguments: &[&str]) -> Command {
    let mut command = Command::new(env!("CARGO_BIN_EXE_wirdoku"));
    command.args(arguments);
    command
}

pub fn outcome(command: &mut Command) -> Outcome {
    Outcome::of(command.stdin(Stdio::null()).output().unwrap())
}

pub fn wirdoku(arguments: &[&str]) -> Outcome {
    outcome(&mut command(arguments))
}

/// Runs the command with a text at standard input.
pub fn wirdoku_with_input(arguments: &[&str], input: &[u8]) -> Outcome {
    let mut child = command(arguments).stdin(Stdio::piped()).stdout(Stdio::piped()).stderr(Stdio::piped()).spawn().unwrap();
    // A text that is too long is not read to its end, so the write may fail.
    let _ = child.stdin.take().unwrap().write_all(input);
    Outcome::of(child.wait_with_output().unwrap())
}

/// A folder of the test's own, with files in it.
pub struct Folder(Scratch);

impl Folder {
    pub fn new() -> Folder {
        Folder(Scratch::under(&env::temp_dir()).unwrap())
    }

    pub fn path(&self) -> PathBuf {
        self.0.file("")
    }

    pub fn file(&self, name: &str, content: &[u8]) -> String {
        let path = self.0.file(name);
        fs::write(&path, content).unwrap();
        path.to_str().unwrap().to_string()
    }

    pub fn script(&self, name: &str, lines: &str) -> String {
        self.program(name, &format!("#!/bin/sh\n{}\n", lines))
    }

    /// A program. A process of its own writes it: a file that this process has open for writing while
    /// another test's thread starts a program could not be run at once.
    pub fn program(&self, name: &str, content: &str) -> String {
        let path = self.0.file(name);
        let write = "printf '%s' \"$1\" >\"$2\" && chmod 755 \"$2\"";
        let done = Command::new("/bin/sh").args(["-c", write, "sh", content]).arg(&path).status().unwrap();
        assert!(done.success());
        path.to_str().unwrap().to_string()
    }

    pub fn names(&self) -> Vec<String> {
        let entries = fs::read_dir(self.path()).unwrap();
        entries.map(|entry| entry.unwrap().file_name().into_string().unwrap()).collect()
    }
}

/// The path of an installed program.
pub fn installed(name: &str) -> PathBuf {
    let path = env::var_os("PATH").unwrap();
    let found = env::split_paths(&path).map(|folder| folder.join(name)).find(|file| Path::is_file(file));
    found.unwrap_or_else(|| panic!("{} is not installed, and these tests need it", name))
}
