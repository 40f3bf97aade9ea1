//! The longer-bound rule: lists begin with the shorter lists, assignments go on
//! and can be cut, and the smallest satisfiable bound is the shortest run.

mod common;

use common::{model, LIGHT, MODEL_A, MODEL_B, SAVES};
use reference::assign::{assignment_of, run_of};
use reference::gen::models::{self, Size};
use reference::gen::rng::Rng;
use reference::gen::runs::model_and_walk;
use reference::list::{clauses, words};
use reference::model::{variables, Model};
use reference::search::{shortest, Shortest};
use reference::solve::all_solutions;
use reference::step::{states_of_prefix, walk};

/// The list for k begins, word for word, with the list for j less its last
/// clause, which is one literal and a 0.
fn check_prefix(model: &Model, j: usize, k: usize) {
    let shorter = words(model, j).unwrap();
    let longer = words(model, k).unwrap();
    let common = shorter.len() - 2;
    assert_eq!(shorter[..common], longer[..common]);
    assert_eq!(shorter[shorter.len() - 1], 0);
}

#[test]
fn lists_begin_with_the_shorter_lists() {
    for seed in 0..60 {
        let size = [Size::Tiny, Size::Medium, Size::Full][seed as usize % 3];
        let model = models::model(&mut Rng::new(seed), size);
        for k in 0..=4 {
            for j in 0..=k {
                check_prefix(&model, j, k);
            }
        }
    }
    for text in [MODEL_A, MODEL_B, LIGHT, SAVES] {
        for k in 0..=64 {
            check_prefix(&model(text), k / 2, k);
            check_prefix(&model(text), k.saturating_sub(1), k);
        }
    }
}

#[test]
fn assignments_go_on_with_no_value_changed() {
    for seed in 0..200 {
        let (model, run) = model_and_walk(&mut Rng::new(seed), 20);
        let assignment = match assignment_of(&model, &run) {
            Ok(assignment) => assignment,
            Err(_) => continue,
        };
        for more in [1, 2, 64 - run.len()] {
            let mut longer = run.clone();
            longer.resize(run.len() + more, 0);
            let extended = assignment_of(&model, &longer).unwrap();
            assert_eq!(extended[..assignment.len()], assignment);
            assert_eq!(run_of(&model, longer.len(), &extended), Ok(longer));
        }
    }
}

#[test]
fn cut_assignments_satisfy_exactly_in_the_target() {
    let (mut inside, mut outside) = (0, 0);
    for seed in 0..400 {
        let (model, run) = model_and_walk(&mut Rng::new(seed), 24);
        let assignment = match assignment_of(&model, &run) {
            Ok(assignment) => assignment,
            Err(_) => continue,
        };
        let states = states_of_prefix(&model, &run).unwrap();
        for (j, state) in states.iter().enumerate() {
            let cut = &assignment[..variables(&model, j) as usize];
            let satisfied = run_of(&model, j, cut);
            assert_eq!(satisfied.is_ok(), state.location == model.target, "seed {seed} step {j}");
            match satisfied {
                Ok(found) => {
                    assert_eq!(found, run[..j]);
                    inside += 1;
                }
                Err(refusal) => {
                    // The last clause, the target's, is the one that fails.
                    let last = clauses(&model, j).unwrap().len() as u32 - 1;
                    assert_eq!((refusal.number, refusal.place), (26, last));
                    assert_eq!(walk(&model, &run[..j]), (30, 0));
                    outside += 1;
                }
            }
        }
    }
    assert!(inside > 100 && outside > 100, "{inside} {outside}");
}

#[test]
fn the_smallest_satisfiable_bound_is_the_shortest_run() {
    for seed in 0..150 {
        let model = models::model(&mut Rng::new(seed), Size::Tiny);
        let satisfiable = |bound: &usize| {
            let list = clauses(&model, *bound).unwrap();
            all_solutions(&list, variables(&model, *bound) as usize, 0).is_none()
        };
        let smallest = (0..=4).find(satisfiable);
        let steps = match shortest(&model, 100_000).unwrap() {
            Shortest::Steps(steps) => Some(steps).filter(|steps| *steps <= 4),
            Shortest::None => None,
            Shortest::Unknown => panic!("seed {seed}"),
        };
        assert_eq!(smallest, steps, "seed {seed}");
    }
}
