//! The smallest bound whose list is satisfiable is the length of a shortest run.

use std::ops::RangeInclusive;

use reference::model::MAX_BOUND;
use reference::search::{shortest, Shortest};
use reference::subject::Subject;
use wirdoku::solver::{Solver, Verdict};

use crate::command;
use crate::desk::Desk;
use crate::judge::decoded;
use crate::list::emitted;
use crate::made::{generated, there_and_back};
use crate::tally::Tally;

const SEEDS: RangeInclusive<u64> = 1_001..=1_240;
const STATES: usize = 100_000;
/// Longest shortest run of a generated model in this test.
const LONGEST: usize = 16;
/// How many generated models without a run are tried at every bound.
const WITHOUT_RUN: usize = 6;

/// Models with what the reference finds: its search knows nothing of clauses.
fn subjects(shipped: &[Subject]) -> Result<Vec<(Subject, Shortest)>, String> {
    let mut chosen = shipped.to_vec();
    for (top, more) in [(3, 0), (7, 1), (31, 0), (31, 1)] {
        chosen.push(there_and_back(top, more)?);
    }
    let (mut subjects, mut without) = (Vec::new(), 0);
    for subject in chosen {
        match search(&subject)? {
            Shortest::Unknown => {
                println!("  left out, more than {STATES} states: {}", subject.name)
            }
            found => subjects.push((subject, found)),
        }
    }
    for seed in SEEDS {
        let (subject, _) = generated(seed)?;
        match search(&subject)? {
            Shortest::Steps(steps) if (2..=LONGEST).contains(&steps) => {
                subjects.push((subject, Shortest::Steps(steps)));
            }
            Shortest::None if without < WITHOUT_RUN && subject.name.contains("tiny") => {
                without += 1;
                subjects.push((subject, Shortest::None));
            }
            _ => {}
        }
    }
    Ok(subjects)
}

fn search(subject: &Subject) -> Result<Shortest, String> {
    shortest(&subject.model, STATES).map_err(|refusal| format!("{}: {refusal:?}", subject.name))
}

pub fn test(desk: &mut Desk, tally: &mut Tally, shipped: &[Subject]) -> Result<(), String> {
    println!("smallest bound: seeds {SEEDS:?}, shipped models, models made by hand");
    let subjects = subjects(shipped)?;
    for (index, (subject, found)) in subjects.iter().enumerate() {
        let solver = Solver::ALL[index % Solver::ALL.len()];
        let test = format!("smallest bound by {}", solver.name());
        let outcome = smallest(desk, solver, subject).and_then(|bound| match (bound, *found) {
            (Some(bound), Shortest::Steps(steps)) if bound == steps => Ok(()),
            (None, Shortest::None) => Ok(()),
            _ => Err(format!("{bound:?}, but the reference's search: {found:?}")),
        });
        tally.about(subject, &test, outcome);
        command::test(desk, tally, subject, *found, index);
    }
    let lengths: Vec<usize> = subjects
        .iter()
        .filter_map(|(_, found)| match found {
            Shortest::Steps(steps) => Some(*steps),
            _ => None,
        })
        .collect();
    let least = |steps: usize| lengths.iter().filter(|length| **length >= steps).count();
    tally.share("models with a run", lengths.len(), 25);
    tally.share("shortest run of 3 steps or more", least(3), 12);
    tally.share("shortest run of 8 steps or more", least(8), 3);
    tally.share("shortest run of 64 steps", least(MAX_BOUND), 1);
    tally.share("no run of 64 steps or fewer", subjects.len() - lengths.len(), 4);
    Ok(())
}

/// The first bound from 0 up whose list is satisfiable, its assignment a run's.
fn smallest(desk: &mut Desk, solver: Solver, subject: &Subject) -> Result<Option<usize>, String> {
    for bound in 0..=MAX_BOUND {
        let list = emitted(subject, bound)?;
        if let Verdict::Satisfiable(assignment) = desk.solve(solver, &list, &[])? {
            decoded(subject, bound, &assignment)?;
            return Ok(Some(bound));
        }
    }
    Ok(None)
}
