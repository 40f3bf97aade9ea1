//! The proved library's clause lists given to SAT solvers. What the solvers say
//! is compared with the reference program, and every assignment that they give
//! goes through the proved conversion and both walkers. What they print is read by
//! the proved call and by the reference program, as it stands and damaged. The same
//! for lists of two models that are composed. The next command's searches for a
//! shortest run, with a solver and without, must find the length that the reference
//! program finds. Refutations are checked three times.
//!
//! The last line says how many tests passed and failed; the exit status is 0
//! only if none failed. The only argument is the folder with the shipped models.

mod command;
mod composed;
mod desk;
mod every;
mod judge;
mod list;
mod longer;
mod made;
mod outputs;
mod pairs;
mod refuted;
mod smallest;
mod tally;

use std::path::PathBuf;
use std::process::ExitCode;
use std::time::Instant;

use desk::Desk;
use reference::subject;
use tally::Tally;

fn main() -> ExitCode {
    let mut tally = Tally::default();
    if let Err(cause) = run(&mut tally) {
        println!("FAILED: {cause}");
        tally.failed += 1;
    }
    println!("{} passed, {} failed", tally.passed, tally.failed);
    if tally.failed == 0 {
        ExitCode::SUCCESS
    } else {
        ExitCode::FAILURE
    }
}

fn run(tally: &mut Tally) -> Result<(), String> {
    let began = Instant::now();
    let folder = std::env::args_os().nth(1).map(PathBuf::from);
    let folder = folder.ok_or("the folder with the models is missing: solvers FOLDER")?;
    let shipped = subject::shipped(&folder)?;
    let mut desk = Desk::default();
    tally.share("shipped models", shipped.len(), 2);
    let pairs = pairs::pairs(&shipped)?;
    pairs::test(&mut desk, tally, &pairs);
    smallest::test(&mut desk, tally, &shipped)?;
    every::test(&mut desk, tally, &shipped)?;
    longer::test(&mut desk, tally, &pairs);
    outputs::test(&mut desk, tally, &pairs);
    refuted::test(&mut desk, tally, &pairs, &shipped);
    composed::test(&mut desk, tally, &subject::shipped_pairs(&folder)?)?;
    let seconds = began.elapsed().as_secs();
    println!("{} solver processes, {seconds} seconds", desk.calls);
    Ok(())
}
