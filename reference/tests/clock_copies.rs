//! Copies of clocks: all read the values before the edge. The worked cases, each
//! clock against the one that its update names, and what generated models have.

mod common;

use std::collections::BTreeSet;

use common::{clocks_after, model, with_line, SAVES};
use reference::assign::{assignment_of, run_of};
use reference::gen::models::{any_model, saving};
use reference::gen::records::state_in_groups;
use reference::gen::rng::Rng;
use reference::list::{clauses, totals, Clause, Totals};
use reference::model::{ceiling, choice_length, state_length, ClockUpdate, Edge, Model};
use reference::search::all_runs;
use reference::solve::all_solutions;
use reference::state::State;
use reference::step::{edge, states_of_run, step_call};
use reference::text::write;

/// SAVES with another guard and other reset items.
fn with(when: &str, reset: &str) -> Model {
    let text = with_line(SAVES, 12, &format!("when={when}"));
    model(&with_line(&text, 14, &format!("reset={reset}")))
}

fn state(location: u8, x0: u8, x1: u8) -> State {
    State { location, counters: [0; 4], clocks: [x0, x1, 0, 0] }
}

/// The clauses of edge 0 in step 1.
fn edge_clauses(model: &Model) -> Vec<Clause> {
    let edge = (state_length(model) + choice_length(model)) as i32;
    clauses(model, 1).unwrap().into_iter().filter(|clause| clause[0] == -edge).collect()
}

/// The satisfying assignments of the list are those of these runs, and of no other.
fn check_runs(model: &Model, bound: usize, runs: &[Vec<u8>]) {
    assert_eq!(all_runs(model, bound).as_deref(), Ok(runs));
    let variables = totals(model, bound).unwrap().variables as usize;
    let solutions = all_solutions(&clauses(model, bound).unwrap(), variables, 100).unwrap();
    let expected: BTreeSet<Vec<u8>> = runs.iter().map(|run| assignment_of(model, run).unwrap()).collect();
    assert_eq!(solutions.into_iter().collect::<BTreeSet<Vec<u8>>>(), expected);
}

#[test]
fn the_value_before_a_reset_is_saved() {
    let saves = model(SAVES);
    assert_eq!(saves, saving());
    assert_eq!(write(&saves).as_deref(), Ok(SAVES));
    assert_eq!((ceiling(&saves), state_length(&saves), choice_length(&saves)), (2, 8, 4));
    assert_eq!(totals(&saves, 1), Ok(Totals { variables: 20, clauses: 62, words: 215 }));
    assert_eq!(totals(&saves, 2), Ok(Totals { variables: 32, clauses: 110, words: 390 }));
    let expected: [&[i32]; 7] = [&[-12, 1], &[-12, 14], &[-12, -3], &[-12, 15], &[-12, -3, 18], &[-12, -4, 19], &[-12, -5, 20]];
    assert_eq!(edge_clauses(&saves), expected);
    check_runs(&saves, 1, &[]);
    check_runs(&saves, 2, &[vec![1, 3], vec![2, 3]]);
    assert_eq!(step_call(&saves, state(0, 1, 2), 3), (0, state(1, 0, 1)));
    assert_eq!(states_of_run(&saves, &[2, 3]).unwrap()[2], state(1, 0, 2));
}

#[test]
fn two_copies_exchange_two_clocks() {
    let exchange = with("-", "x0:=x1,x1:=x0");
    assert_eq!(totals(&exchange, 1), Ok(Totals { variables: 15, clauses: 38, words: 127 }));
    let expected: [&[i32]; 6] = [&[-9, 1], &[-9, 11], &[-9, -5, 12], &[-9, -6, 13], &[-9, -3, 14], &[-9, -4, 15]];
    assert_eq!(edge_clauses(&exchange), expected);
    check_runs(&exchange, 1, &[vec![2]]);
    assert_eq!(step_call(&exchange, state(0, 0, 1), 2), (0, state(1, 1, 0)));
    assert_eq!(step_call(&exchange, state(0, 1, 0), 2), (0, state(1, 0, 1)));
}

/// The list and the steps are those of the clock unchanged, the record and the text
/// are not.
#[test]
fn a_copy_to_itself_keeps_the_value_and_stays_a_copy() {
    let (copied, unchanged) = (with("x0>=1", "x1:=x1"), with("x0>=1", "-"));
    assert_eq!(copied.edge[0].clock_updates[1], ClockUpdate::Copy(1));
    assert_ne!(copied, unchanged);
    assert_ne!(write(&copied), write(&unchanged));
    assert_eq!(clauses(&copied, 2), clauses(&unchanged, 2));
    assert_eq!(step_call(&copied, state(0, 1, 2), 3), (0, state(1, 1, 2)));
}

/// What the other clock does makes no difference to a copy of it.
#[test]
fn copies_read_beside_every_update_of_their_source() {
    for (reset, x0) in [("x1:=x0", 1), ("x0,x1:=x0", 0), ("x0:=x0,x1:=x0", 1), ("x0:=x1,x1:=x0", 2)] {
        assert_eq!(step_call(&with("x0>=1", reset), state(0, 1, 2), 3), (0, state(1, x0, 1)), "{reset}");
    }
    assert_eq!(step_call(&with("x0>=1", "x0:=x1,x1"), state(0, 1, 2), 3), (0, state(1, 2, 0)));
}

/// A guard is tested before the copies and the target's invariant after them.
#[test]
fn guards_come_before_copies_and_invariants_after() {
    let text = with_line(&with_line(SAVES, 12, "when=x1<=1"), 7, "inv=x1<=1");
    let tested = model(&text);
    assert_eq!(step_call(&tested, state(0, 1, 1), 3), (0, state(1, 0, 1)));
    assert_eq!(step_call(&tested, state(0, 1, 2), 3), (28, state(0, 1, 2)));
    assert_eq!(step_call(&tested, state(0, 2, 1), 3), (28, state(0, 2, 1)));
}

#[test]
fn a_wrong_value_of_the_copy_makes_a_clause_false() {
    let saves = model(SAVES);
    let mut assignment = assignment_of(&saves, &[1, 3]).unwrap();
    // The last three bytes are the values 0 to 2 of x1 in the last state.
    for values in [[1, 0, 0], [0, 0, 1]] {
        assignment[29..].copy_from_slice(&values);
        assert_eq!(run_of(&saves, 2, &assignment).map_err(|refusal| refusal.number), Err(26), "{values:?}");
    }
    assignment[29..].copy_from_slice(&[0, 1, 0]);
    assert_eq!(run_of(&saves, 2, &assignment), Ok(vec![1, 3]));
}

#[test]
fn texts_with_copies_are_written_as_they_are_read() {
    for reset in ["x0:=x1", "x0:=x0", "x0,x1:=x0", "x0:=x1,x1", "x0:=x1,x1:=x0", "x1:=x1"] {
        let text = with_line(SAVES, 14, &format!("reset={reset}"));
        assert_eq!(write(&model(&text)).as_ref(), Ok(&text));
    }
}

/// Sorts of copies: plain, to itself, one of two that exchange, beside a reset of
/// its source.
fn sort(edge: &Edge, clock: u8, source: u8) -> usize {
    match edge.clock_updates[usize::from(source)] {
        _ if source == clock => 1,
        ClockUpdate::Copy(back) if back == clock => 2,
        ClockUpdate::Reset => 3,
        ClockUpdate::Unchanged | ClockUpdate::Copy(_) => 0,
    }
}

/// Each clock has the value that its update gives from the state before; edges with
/// copies of every sort are among those taken, and with values that tell them apart.
#[test]
fn each_clock_is_the_one_that_its_update_gives() {
    let (mut sorts, mut moved) = ([0; 4], [0; 4]);
    for seed in 0..6_000 {
        let mut rng = Rng::new(seed);
        let model = any_model(&mut rng);
        for one in model.used_edges() {
            let before = State { location: one.source, ..state_in_groups(&mut rng, &model) };
            let after = match edge(&model, before, one) {
                Some(after) => after,
                None => continue,
            };
            assert_eq!(after.clocks, clocks_after(one, &before), "{one:?} from {before:?}");
            for (clock, source) in one.copies() {
                let found = sort(one, clock, source);
                sorts[found] += 1;
                moved[found] += usize::from(after.clocks[usize::from(clock)] != before.clocks[usize::from(clock)]);
            }
        }
    }
    assert!(sorts.iter().all(|count| *count >= 200), "{sorts:?}");
    assert!(moved[1] == 0 && [0, 2, 3].iter().all(|sort| moved[*sort] >= 100), "{moved:?}");
}
