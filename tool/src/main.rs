//! The command `wirdoku`: `wirdoku --help` says what it does and what of it is proved.

use std::env;
use std::ffi::OsString;
use std::io::{self, Write};
use std::process::ExitCode;

use wirdoku::args;
use wirdoku::command::{self, status};

fn main() -> ExitCode {
    let arguments: Vec<OsString> = env::args_os().skip(1).collect();
    let outcome = match args::parse(&arguments) {
        Ok(command) => command::run(&command, &mut io::stdout().lock(), &mut io::stderr()),
        Err(reason) => {
            let message = format!("{}\n`wirdoku --help` says how it is used", reason);
            Err(command::Stop { status: status::USAGE, message })
        }
    };
    let flushed = io::stdout().flush();
    ExitCode::from(match (outcome, flushed) {
        (Err(stop), _) => end(&stop),
        (Ok(_), Err(error)) => end(&error.into()),
        (Ok(status), Ok(())) => status,
    })
}

fn end(stop: &command::Stop) -> u8 {
    // Standard error is the last place to say anything, so a failure there is passed over.
    let _ = writeln!(io::stderr(), "wirdoku: {}", stop.message);
    stop.status
}
