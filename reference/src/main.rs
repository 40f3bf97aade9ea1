//! The program `reference`: the library's answers on the command line. See
//! `reference help`.

mod command;

use std::io::{self, BufWriter, ErrorKind, Write};
use std::process::ExitCode;

fn main() -> ExitCode {
    let arguments: Vec<String> = std::env::args().skip(1).collect();
    let mut out = BufWriter::new(io::stdout().lock());
    let outcome = command::perform(&arguments, &mut out).and_then(|()| out.flush().map_err(command::Failure::from));
    match outcome {
        Ok(()) => ExitCode::SUCCESS,
        Err(command::Failure::Io(error)) if error.kind() == ErrorKind::BrokenPipe => ExitCode::SUCCESS,
        Err(failure) => {
            eprintln!("reference: {failure}");
            ExitCode::from(2)
        }
    }
}
