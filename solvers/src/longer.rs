//! Longer bounds: a list begins with the shorter one's less its last clause, an
//! assignment for j goes on to one for k, and one for k cut after step j
//! satisfies the list for j exactly if its run stands in the target there.

use reference::model::{variables, MAX_BOUND};
use reference::step::states_of_prefix;
use reference::subject::Subject;
use wirdoku::library;
use wirdoku::solver::{Solver, Verdict};

use crate::desk::Desk;
use crate::judge::decoded;
use crate::list::{emitted, fixing, List};
use crate::pairs::Pair;
use crate::tally::Tally;

const PAIRS: usize = 100;

/// The satisfiable pairs, every second one, up to a number.
pub fn test(desk: &mut Desk, tally: &mut Tally, pairs: &[Pair]) {
    println!("longer bounds: every second satisfiable pair of the above");
    let chosen = pairs.iter().filter(|pair| pair.has_run).step_by(2);
    let (mut tried, mut inside, mut outside) = (0, 0, 0);
    for (index, pair) in chosen.take(PAIRS).enumerate() {
        let longer = (pair.bound + 1 + index % 4).min(MAX_BOUND);
        let solver = Solver::ALL[index % Solver::ALL.len()];
        let test = format!("bounds {} and {longer}, {}", pair.bound, solver.name());
        let outcome = goes_on(desk, solver, &pair.subject, pair.bound, longer);
        let outcome = outcome.and_then(|assignment| cuts(&pair.subject, longer, &assignment));
        if let Ok((in_target, elsewhere)) = &outcome {
            inside += in_target;
            outside += elsewhere;
        }
        tally.about(&pair.subject, &test, outcome.map(|_| ()));
        tried += 1;
    }
    tally.share("pairs of bounds", tried, 40);
    tally.share("cuts in the target", inside, 100);
    tally.share("cuts elsewhere", outside, 100);
}

/// A solver's assignment for `bound`, fixed value by value in the list for
/// `longer`; returns a free assignment for `longer`.
fn goes_on(desk: &mut Desk, solver: Solver, subject: &Subject, bound: usize, longer: usize) -> Result<Vec<u8>, String> {
    let (short, long) = (emitted(subject, bound)?, emitted(subject, longer)?);
    let kept = &short.words[..short.words.len() - 2];
    if !long.words.starts_with(kept) {
        return Err("the longer list does not begin with the shorter one's".to_string());
    }
    let assignment = satisfying(desk, solver, &short, &[])?;
    let further = satisfying(desk, solver, &long, &fixing(&assignment))?;
    if !further.starts_with(&assignment) {
        return Err(format!("{further:?} does not begin with {assignment:?}"));
    }
    decoded(subject, longer, &further)?;
    satisfying(desk, solver, &long, &[])
}

fn satisfying(desk: &mut Desk, solver: Solver, list: &List, further: &[Vec<i32>]) -> Result<Vec<u8>, String> {
    match desk.solve(solver, list, further)? {
        Verdict::Satisfiable(assignment) => Ok(assignment),
        Verdict::Unsatisfiable => Err(format!("unsatisfiable with {} values fixed", further.len())),
    }
}

/// Cuts an assignment after each step; returns how many of the cuts stand in
/// the target and how many elsewhere.
fn cuts(subject: &Subject, bound: usize, assignment: &[u8]) -> Result<(usize, usize), String> {
    let run = decoded(subject, bound, assignment)?;
    let states = states_of_prefix(&subject.model, &run).map_err(|cause| format!("{cause:?}"))?;
    let (mut inside, mut outside) = (0, 0);
    for (step, state) in states.iter().enumerate() {
        let cut = &assignment[..variables(&subject.model, step) as usize];
        let answer = library::assignment_to_run(&subject.text, step, cut, &mut [0; MAX_BOUND]);
        let in_target = state.location == subject.model.target;
        if answer.number != if in_target { 0 } else { 26 } {
            return Err(format!("run {run:?} cut after step {step}: {answer:?}"));
        }
        inside += usize::from(in_target);
        outside += usize::from(!in_target);
    }
    Ok((inside, outside))
}
