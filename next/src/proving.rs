//! That a list has no run, checked by proved code: cadical's refutation of it, turned into lemmas with hints (`refutation`), and the
//! library's call, which writes the list itself and follows the hints. Whatever cadical and this module hand on, the call answers
//! `refuted` only if the list cannot be satisfied.

use std::process::Command;
use std::time::{Duration, Instant};

use crate::args::{Check, Proof};
use crate::command::{file, sizes};
use crate::library;
use crate::model::Model;
use crate::process::{self, Trouble};
use crate::refutation::prove::{prove, times, Account, CADICAL};
use crate::refutation::{Limits, Why};
use crate::report::Stop;
use crate::solver::Solver;

/// The longest list that is refuted without being asked to, in words.
const SMALL: usize = 250_000;
/// The most that is read of a refutation, in bytes: where it was not asked for, and where it was.
const USUAL_BYTES: usize = 64 << 20;
const MOST_BYTES: usize = 1 << 30;

/// What became of a refutation: checked, or why not.
pub type Checked = Result<(Account, Duration), String>;

/// Whether a refutation of the list for a bound is looked for: always, never, or where cadical was asked anyway and the list is short.
pub fn is_due(model: &Model, how: &Check, solver: &Solver, bound: usize) -> Result<bool, Stop> {
    Ok(match how.proof {
        Proof::Always => true,
        Proof::Never => false,
        Proof::IfSmall => *solver == Solver::Cadical && sizes(model, bound)?.words <= SMALL,
    })
}

/// Has the list for a bound refuted and checked.
pub fn refuted(model: &Model, how: &Check, bound: usize, deadline: Option<Instant>) -> Result<Checked, Stop> {
    let program = match Solver::Cadical.program() {
        Some(program) => program,
        None => return Ok(Err("cadical is not on the path".to_string())),
    };
    let most = if how.proof == Proof::Always { MOST_BYTES } else { USUAL_BYTES };
    let mut list = vec![0; sizes(model, bound)?.words];
    model.emit(bound, &mut list);
    let began = Instant::now();
    let mut command = Command::new("/bin/sh");
    command.args(["-c", CADICAL]).arg(program).arg("--binary");
    let output = match process::run(&mut command, file(model, bound)?, deadline, most, &mut |_| {}) {
        Ok(output) if output.status.code() == Some(20) => output,
        Ok(output) => return Ok(Err(format!("cadical ended without one ({})", output.status))),
        Err(Trouble::Time) => return Ok(Err(Why::Time.to_string())),
        Err(Trouble::Flood) => return Ok(Err(Why::Bytes(most).to_string())),
        Err(Trouble::Run(error)) => return Ok(Err(format!("cadical could not be run: {}", error))),
    };
    let solving = began.elapsed();
    let limits = Limits { until: deadline, bytes: most, ..Limits::default() };
    let told = |words: &mut [i32], hints: &[u32]| model.refute(bound, words, hints).outcome == library::REFUTED;
    Ok(prove(&list, &output.stdout, limits, told).map(|account| (account, solving)).map_err(|why| why.to_string()))
}

/// A line on the times of the parts.
pub fn told(checked: &Checked) -> Option<String> {
    checked.as_ref().ok().map(|(account, solving)| times("cadical", *solving, account))
}
