//! Satisfying assignments and runs are one to one: all assignments of small
//! lists are compared with all runs found without any clause.

mod common;

use std::collections::BTreeSet;

use common::{model, LIGHT, MODEL_A, MODEL_B, SAVES};
use reference::assign::{assignment_of, is_true, run_of};
use reference::gen::models::{self, Size};
use reference::gen::rng::Rng;
use reference::gen::runs::{model_and_assignment, model_and_walk};
use reference::list::{clauses, totals};
use reference::model::{variables, Model};
use reference::search::{all_runs, count_runs};
use reference::solve::all_solutions;
use reference::step::walk;

const STATES: usize = 100_000;
const SOLUTIONS: usize = 3_000;

type Assignments = BTreeSet<Vec<u8>>;

/// The assignments of all runs of `bound` steps.
fn of_runs(model: &Model, bound: usize) -> Assignments {
    let runs = all_runs(model, bound).unwrap();
    let assignments: Assignments = runs.iter().map(|run| assignment_of(model, run).unwrap()).collect();
    assert_eq!(assignments.len(), runs.len(), "two runs with one assignment");
    assert_eq!(count_runs(model, bound, STATES), Ok(Some(runs.len() as u128)));
    for run in &runs {
        assert_eq!(run_of(model, bound, &assignment_of(model, run).unwrap()).as_ref(), Ok(run));
    }
    assignments
}

/// The satisfying ones of all 2^N assignments.
fn by_trying_all(clauses: &[Vec<i32>], variables: usize) -> Assignments {
    let assignment = |bits: u32| -> Vec<u8> { (0..variables).map(|v| (bits >> v & 1) as u8).collect() };
    let satisfies = |a: &Vec<u8>| clauses.iter().all(|clause| clause.iter().any(|literal| is_true(*literal, a)));
    (0..1 << variables).map(assignment).filter(satisfies).collect()
}

#[test]
fn all_assignments_of_small_lists() {
    let mut compared = 0;
    for seed in 0..400 {
        let model = models::model(&mut Rng::new(seed), Size::Tiny);
        for bound in 0..=2 {
            let n = variables(&model, bound) as usize;
            if n > 14 {
                continue;
            }
            let list = clauses(&model, bound).unwrap();
            let found = by_trying_all(&list, n);
            assert_eq!(found, of_runs(&model, bound), "seed {seed} bound {bound}");
            let solved: Assignments = all_solutions(&list, n, SOLUTIONS).unwrap().into_iter().collect();
            assert_eq!(found, solved);
            compared += 1;
        }
    }
    assert!(compared >= 200, "{compared}");
}

/// Compares by backtracking where there are not too many runs; tells whether.
fn compare_by_backtracking(model: &Model, bound: usize) -> bool {
    let few = |count: u128| count <= SOLUTIONS as u128;
    if !count_runs(model, bound, STATES).unwrap().map_or(false, few) {
        return false;
    }
    let list = clauses(model, bound).unwrap();
    let solutions = all_solutions(&list, variables(model, bound) as usize, SOLUTIONS).unwrap();
    let solutions: Assignments = solutions.into_iter().collect();
    assert_eq!(solutions, of_runs(model, bound));
    true
}

#[test]
fn all_solutions_of_tiny_models() {
    let mut compared = 0;
    for seed in 1_000..1_500 {
        let model = models::model(&mut Rng::new(seed), Size::Tiny);
        compared += (0..=4).filter(|bound| compare_by_backtracking(&model, *bound)).count();
    }
    assert!(compared >= 2_000, "{compared}");
}

#[test]
fn all_solutions_of_medium_models() {
    let mut compared = 0;
    for seed in 2_000..2_150 {
        let model = models::model(&mut Rng::new(seed), Size::Medium);
        compared += (0..=2).filter(|bound| compare_by_backtracking(&model, *bound)).count();
    }
    assert!(compared >= 400, "{compared}");
}

#[test]
fn all_solutions_of_full_models_at_small_bounds() {
    for seed in 3_000..3_040 {
        let model = models::model(&mut Rng::new(seed), Size::Full);
        assert!(compare_by_backtracking(&model, 0));
        assert!(compare_by_backtracking(&model, 1));
    }
}

#[test]
fn all_solutions_of_the_known_models() {
    for text in [MODEL_A, MODEL_B, LIGHT, SAVES] {
        for bound in 0..=5 {
            assert!(compare_by_backtracking(&model(text), bound));
        }
    }
}

#[test]
fn walks_up_to_64_steps_go_there_and_back() {
    let mut runs = 0;
    for seed in 0..400 {
        let (model, run) = model_and_walk(&mut Rng::new(seed), 64);
        if walk(&model, &run) != (0, 0) {
            continue;
        }
        let assignment = assignment_of(&model, &run).unwrap();
        assert_eq!(assignment.len() as u32, totals(&model, run.len()).unwrap().variables);
        assert_eq!(run_of(&model, run.len(), &assignment).as_ref(), Ok(&run), "seed {seed}");
        runs += 1;
    }
    assert!(runs >= 200, "{runs}");
}

#[test]
fn the_first_false_clause_is_the_list_s_first() {
    let mut refused = 0;
    for seed in 0..600 {
        let (model, bound, assignment) = model_and_assignment(&mut Rng::new(seed), 6);
        let right_length = assignment.len() as u32 == variables(&model, bound);
        if !right_length || assignment.iter().any(|byte| *byte > 1) {
            continue;
        }
        let list = clauses(&model, bound).unwrap();
        let is_false = |clause: &Vec<i32>| !clause.iter().any(|literal| is_true(*literal, &assignment));
        match (list.iter().position(is_false), run_of(&model, bound, &assignment)) {
            (None, Ok(run)) => assert_eq!(walk(&model, &run), (0, 0)),
            (Some(index), Err(refusal)) => {
                assert_eq!((refusal.number, refusal.place as usize), (26, index), "seed {seed}");
                refused += 1;
            }
            other => panic!("seed {seed}: {other:?}"),
        }
    }
    assert!(refused >= 100, "{refused}");
}
