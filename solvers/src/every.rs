//! All satisfying assignments of small lists: as many as there are runs, and
//! each one the assignment of a different run.

use std::ops::RangeInclusive;

use reference::search::{all_runs, count_runs};
use reference::subject::Subject;
use wirdoku::solver::{Solver, Verdict};

use crate::desk::Desk;
use crate::judge::decoded;
use crate::list::{blocking, emitted};
use crate::made::tiny;
use crate::tally::Tally;

const SEEDS: RangeInclusive<u64> = 2_001..=2_120;
const BOUNDS: RangeInclusive<usize> = 0..=6;
const STATES: usize = 2_000;
/// Most runs of a list whose assignments are ruled out one by one.
const BLOCKED: u128 = 40;
/// Most runs of a list for picosat's own enumeration.
const ENUMERATED: u128 = 1_500;
/// How many lists of either kind.
const LISTS: usize = 45;

pub fn test(desk: &mut Desk, tally: &mut Tally, shipped: &[Subject]) -> Result<(), String> {
    println!("all assignments: seeds {SEEDS:?}, shipped models, bounds {BOUNDS:?}");
    let mut subjects = shipped.to_vec();
    for seed in SEEDS {
        subjects.push(tiny(seed)?);
    }
    let (mut blocked, mut enumerated) = (Vec::new(), Vec::new());
    for (index, subject) in subjects.iter().enumerate() {
        // Shipped models at every bound, generated ones at a bound in turn.
        let generated = index >= shipped.len();
        for bound in BOUNDS.filter(|bound| !generated || bound % 7 == index % 7) {
            let runs = runs_of(subject, bound)?;
            if (1..=BLOCKED).contains(&runs) && blocked.len() < LISTS {
                let solver = Solver::ALL[blocked.len() % Solver::ALL.len()];
                let test = format!("all assignments at bound {bound}, {}", solver.name());
                tally.about(subject, &test, by_blocking(desk, solver, subject, bound, runs));
                blocked.push(runs);
            } else if (BLOCKED..=ENUMERATED).contains(&runs) && enumerated.len() < LISTS {
                let test = format!("all assignments at bound {bound}, picosat --all");
                tally.about(subject, &test, by_enumeration(desk, subject, bound, runs));
                enumerated.push(runs);
            }
        }
    }
    let several = blocked.iter().filter(|runs| **runs >= 5).count();
    tally.share("lists, assignments ruled out one by one", blocked.len(), 20);
    tally.share("of these with 5 runs or more", several, 8);
    tally.share("lists by picosat --all", enumerated.len(), 15);
    let total: u128 = blocked.iter().chain(&enumerated).sum();
    tally.share("assignments in all", total as usize, 2_000);
    Ok(())
}

/// The number of runs; more than any limit if the reference cannot tell.
fn runs_of(subject: &Subject, bound: usize) -> Result<u128, String> {
    let counted = count_runs(&subject.model, bound, STATES);
    let counted = counted.map_err(|refusal| format!("{}: {refusal:?}", subject.name))?;
    Ok(counted.unwrap_or(u128::MAX))
}

/// Asks again and again, each assignment ruled out by a further clause, until
/// the solver finds no more.
fn by_blocking(desk: &mut Desk, solver: Solver, subject: &Subject, bound: usize, runs: u128) -> Result<(), String> {
    let list = emitted(subject, bound)?;
    let (mut found, mut ruled_out) = (Vec::new(), Vec::new());
    while let Verdict::Satisfiable(assignment) = desk.solve(solver, &list, &ruled_out)? {
        ruled_out.push(blocking(&assignment));
        found.push(assignment);
        if found.len() as u128 > runs {
            return Err(format!("more than {runs} assignments"));
        }
    }
    compare(subject, bound, &found, runs)
}

fn by_enumeration(desk: &mut Desk, subject: &Subject, bound: usize, runs: u128) -> Result<(), String> {
    let list = emitted(subject, bound)?;
    let found = desk.all(&list, runs as usize)?;
    compare(subject, bound, &found, runs)
}

/// The assignments' runs are all runs, each once.
fn compare(subject: &Subject, bound: usize, found: &[Vec<u8>], runs: u128) -> Result<(), String> {
    if found.len() as u128 != runs {
        return Err(format!("{} assignments, {runs} runs", found.len()));
    }
    let mut decodings = Vec::new();
    for assignment in found {
        decodings.push(decoded(subject, bound, assignment)?);
    }
    decodings.sort();
    let expected = all_runs(&subject.model, bound).map_err(|refusal| format!("{refusal:?}"))?;
    if decodings != expected {
        return Err(format!("the runs differ: {decodings:?}, reference {expected:?}"));
    }
    Ok(())
}
