//! The command `wirdoku`: `wirdoku --help` says what it does and what of it is proved.

use std::env;
use std::ffi::OsString;
use std::io::{self, Write};
use std::process::ExitCode;

use wirdoku_next::args::{self, Line};
use wirdoku_next::command;
use wirdoku_next::report::{self, status, Stop};

fn main() -> ExitCode {
    let arguments: Vec<OsString> = env::args_os().skip(1).collect();
    let status = match args::parse(&arguments) {
        Ok(line) => answer(&line),
        Err(reason) => misused(&arguments, reason),
    };
    ExitCode::from(status)
}

/// Wrong usage: `--json` counts wherever it stands, and the first argument as the command's name.
fn misused(arguments: &[OsString], reason: String) -> u8 {
    let message = format!("{}\n`wirdoku --help` says how it is used", reason);
    if arguments.iter().any(|argument| argument == "--json") {
        // The message says the same, so a failure here is passed over.
        let _ = report::write_stop(&arguments[0].to_string_lossy(), &Stop::new(status::USAGE, reason), &mut io::stdout());
    }
    end(&Stop::new(status::USAGE, message))
}

fn answer(line: &Line) -> u8 {
    let mut out = io::stdout().lock();
    let outcome = command::run(line, &mut out, &mut io::stderr());
    if let (Err(stop), true) = (&outcome, line.json) {
        // The message below says the same, so a failure here is passed over.
        let _ = report::write_stop(&line.name, stop, &mut out);
    }
    match (outcome, out.flush()) {
        (Err(stop), _) => end(&stop),
        (Ok(_), Err(error)) => end(&error.into()),
        (Ok(status), Ok(())) => status,
    }
}

fn end(stop: &Stop) -> u8 {
    // Standard error is the last place to say anything, so a failure there is passed over.
    let _ = writeln!(io::stderr(), "wirdoku: {}", stop.message);
    stop.status
}
