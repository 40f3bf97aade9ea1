//! What cadical and picosat print, byte for byte, and damaged copies of it: the
//! proved call reads them as the reference program does.

use std::collections::BTreeMap;

use reference::gen::outputs::damaged;
use reference::gen::rng::Rng;
use reference::output::output_to_assignment;
use wirdoku::library::{self, SATISFIABLE, UNSATISFIABLE};
use wirdoku::solver::{printed, Solver};

use crate::desk::Desk;
use crate::judge::decoded;
use crate::list::emitted;
use crate::pairs::Pair;
use crate::tally::Tally;

/// The solvers that print the competitions' form.
const SOLVERS: [Solver; 2] = [Solver::Cadical, Solver::Picosat];
/// Every so many pairs.
const EVERY: usize = 4;
/// Damaged copies of each output.
const COPIES: u64 = 40;
/// What a buffer holds before a call.
const HELD: u8 = 9;

/// How often each refusal number and outcome was answered, of outputs as they
/// stand and of damaged ones.
#[derive(Default)]
struct Met {
    right: BTreeMap<(u8, u8), usize>,
    damaged: BTreeMap<(u8, u8), usize>,
}

pub fn test(desk: &mut Desk, tally: &mut Tally, pairs: &[Pair]) {
    println!("outputs of cadical and picosat: every {EVERY}th pair of the above, {COPIES} damaged copies of each");
    let mut met = Met::default();
    for (index, pair) in pairs.iter().enumerate().step_by(EVERY) {
        for solver in SOLVERS {
            let test = format!("output of {} at bound {}", solver.name(), pair.bound);
            tally.about(&pair.subject, &test, outputs(desk, solver, pair, index as u64, &mut met));
        }
    }
    shares(tally, &met);
}

/// The output of a solver is accepted and says what is right; its damaged copies
/// are read alike.
fn outputs(desk: &mut Desk, solver: Solver, pair: &Pair, seed: u64, met: &mut Met) -> Result<(), String> {
    let list = emitted(&pair.subject, pair.bound)?;
    desk.calls += 1;
    let output = printed(solver, &list.file_with(&[])).map_err(|failure| failure.to_string())?;
    let (outcome, assignment) = read_alike(&output.stdout, list.variables)?;
    let due = if pair.has_run { SATISFIABLE } else { UNSATISFIABLE };
    if outcome != (0, due) || output.status.code() != Some(i32::from(due)) {
        return Err(format!("{outcome:?} and {}, but {due} is right", output.status));
    }
    if pair.has_run {
        decoded(&pair.subject, pair.bound, &assignment)?;
    }
    *met.right.entry(outcome).or_default() += 1;
    let mut rng = Rng::new(seed);
    for _ in 0..COPIES {
        let mut copy = output.stdout.clone();
        for _ in 0..=rng.below(2) {
            copy = damaged(&mut rng, copy);
        }
        let (outcome, _) = read_alike(&copy, list.variables + rng.below(12) / 11)?;
        *met.damaged.entry(outcome).or_default() += 1;
    }
    Ok(())
}

/// Number and outcome, and the buffer after the call, which the reference program
/// leaves in the same way.
fn read_alike(output: &[u8], variables: usize) -> Result<((u8, u8), Vec<u8>), String> {
    let mut assignment = vec![HELD; variables];
    let mut expected = assignment.clone();
    let told = library::output_to_assignment(output, &mut assignment);
    let reading = output_to_assignment(output, &mut expected);
    let same =
        (u32::from(told.number), told.line, u32::from(told.outcome)) == (reading.refusal, reading.line as usize, reading.outcome);
    if !same || assignment != expected {
        let output = String::from_utf8_lossy(output);
        return Err(format!("{variables} variables: {told:?}, but the reference {reading:?}; output {output:?}"));
    }
    Ok(((told.number, told.outcome), assignment))
}

/// Too few answers of a kind fail.
fn shares(tally: &mut Tally, met: &Met) {
    let count = |met: &BTreeMap<(u8, u8), usize>, answer| met.get(&answer).copied().unwrap_or(0);
    tally.share("outputs, satisfiable", count(&met.right, (0, SATISFIABLE)), 60);
    tally.share("outputs, unsatisfiable", count(&met.right, (0, UNSATISFIABLE)), 60);
    tally.share("damaged outputs, satisfiable", count(&met.damaged, (0, SATISFIABLE)), 50);
    tally.share("damaged outputs, unsatisfiable", count(&met.damaged, (0, UNSATISFIABLE)), 50);
    for number in 33..=35 {
        tally.share(&format!("damaged outputs refused with {number}"), count(&met.damaged, (number, 0)), 50);
    }
}
