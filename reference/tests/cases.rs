//! The cases P1 to P10 of the document, whole, and the further cases beside
//! them.

mod common;

use common::{model, with_line, LIGHT, MODEL_A, MODEL_B};
use reference::assign::{assignment_of, decode, run_of};
use reference::gen::models::{model_a, model_b};
use reference::list::{clauses, emit, totals, words, Totals};
use reference::model::{ceiling, choice_length, state_length, variables};
use reference::search::{all_runs, count_runs, shortest, Shortest};
use reference::solve::all_solutions;
use reference::step::walk;
use reference::text::write;

const STATES: usize = 10_000;

#[test]
fn texts_of_a_and_b_are_the_records() {
    assert_eq!(model(MODEL_A), model_a());
    assert_eq!(model(MODEL_B), model_b());
    assert_eq!((MODEL_A.lines().count(), MODEL_B.lines().count()), (14, 29));
    assert_eq!(write(&model_a()).as_deref(), Ok(MODEL_A));
    assert_eq!(write(&model_b()).as_deref(), Ok(MODEL_B));
}

#[test]
fn p1_model_a_at_0() {
    let a = model(MODEL_A);
    assert_eq!(totals(&a, 0), Ok(Totals { variables: 2, clauses: 4, words: 10 }));
    assert_eq!(words(&a, 0), Ok(vec![1, 2, 0, -1, -2, 0, 1, 0, 2, 0]));
    assert_eq!(all_solutions(&clauses(&a, 0).unwrap(), 2, 10), Some(vec![]));
    assert_eq!(all_runs(&a, 0), Ok(vec![]));
}

#[test]
fn p2_model_a_at_1_clauses_in_order() {
    let expected: Vec<Vec<i32>> = vec![
        vec![1, 2],
        vec![-1, -2],
        vec![1],
        vec![3, 4, 5],
        vec![-3, -4],
        vec![-3, -5],
        vec![-4, -5],
        vec![-3, -1, 6],
        vec![-3, -2, 7],
        vec![-4, -1, 6],
        vec![-4, -2, 7],
        vec![-5, 1],
        vec![-5, 7],
        vec![6, 7],
        vec![-6, -7],
        vec![7],
    ];
    let a = model(MODEL_A);
    assert_eq!(clauses(&a, 1), Ok(expected));
    assert_eq!(totals(&a, 1), Ok(Totals { variables: 7, clauses: 16, words: 51 }));
}

#[test]
fn p3_the_one_assignment_of_model_a_at_1() {
    let a = model(MODEL_A);
    let only = vec![1, 0, 0, 0, 1, 0, 1];
    assert_eq!(all_solutions(&clauses(&a, 1).unwrap(), 7, 10), Some(vec![only.clone()]));
    assert_eq!(run_of(&a, 1, &only), Ok(vec![2]));
    assert_eq!(assignment_of(&a, &[2]), Ok(only));
}

#[test]
fn p4_a_false_clause() {
    let mut run = [9];
    assert_eq!(decode(&model(MODEL_A), 1, &[1, 0, 1, 0, 0, 1, 0], &mut run), (26, 15));
    assert_eq!(run, [9]);
}

#[test]
fn p5_model_a_at_2() {
    let a = model(MODEL_A);
    assert_eq!(totals(&a, 2), Ok(Totals { variables: 12, clauses: 28, words: 92 }));
    assert_eq!(all_runs(&a, 2), Ok(vec![vec![0, 2], vec![1, 2], vec![2, 0], vec![2, 1]]));
    assert_eq!(count_runs(&a, 2, STATES), Ok(Some(4)));
    assert_eq!(all_solutions(&clauses(&a, 2).unwrap(), 12, 10).map(|s| s.len()), Some(4));
}

#[test]
fn p6_model_b() {
    let b = model(MODEL_B);
    assert_eq!((ceiling(&b), state_length(&b), choice_length(&b)), (4, 11, 8));
    assert_eq!(variables(&b, 3), 68);
    assert_eq!(all_runs(&b, 3), Ok(vec![vec![5, 3, 7]]));
    let solutions = all_solutions(&clauses(&b, 3).unwrap(), 68, 10);
    assert_eq!(solutions, Some(vec![assignment_of(&b, &[5, 3, 7]).unwrap()]));
    for fewer in 0..3 {
        assert_eq!(all_runs(&b, fewer), Ok(vec![]));
    }
    assert_eq!(shortest(&b, STATES), Ok(Shortest::Steps(3)));
}

#[test]
fn p7_p8_p9_walks_of_model_b() {
    let b = model(MODEL_B);
    assert_eq!(walk(&b, &[5, 3, 7]), (0, 0));
    assert_eq!(walk(&b, &[5, 4, 7]), (28, 2));
    assert_eq!(walk(&b, &[5, 3]), (30, 0));
    assert_eq!(walk(&b, &[5, 3, 8]), (27, 3));
}

#[test]
fn p10_initial_invariant_fails() {
    let text = with_line(&with_line(MODEL_A, 4, "clocks=1"), 6, "inv=x0>=1");
    let refused = model(&text);
    assert_eq!(walk(&refused, &[]), (29, 0));
    assert_eq!(shortest(&refused, STATES), Ok(Shortest::None));
    assert_eq!(count_runs(&refused, 0, STATES), Ok(Some(0)));
    let allowed = model(&with_line(&text, 6, "inv=x0>=0"));
    assert_eq!(walk(&allowed, &[]), (30, 0));
}

#[test]
fn words_of_model_a_at_1_suffice_or_not() {
    let a = model(MODEL_A);
    let mut room = [7; 52];
    let emission = emit(&a, 1, &mut room[..51]);
    assert_eq!((emission.refusal, emission.totals.words), (0, 51));
    assert_eq!(room[..51], words(&a, 1).unwrap());
    assert_eq!(room[51], 7);
    let mut short = [7; 50];
    let emission = emit(&a, 1, &mut short);
    assert_eq!(emission.refusal, 22);
    assert_eq!(emission.totals, Totals { variables: 0, clauses: 0, words: 51 });
    assert_eq!(short, [7; 50]);
}

#[test]
fn light_switch() {
    let light = model(LIGHT);
    assert_eq!(shortest(&light, STATES), Ok(Shortest::Steps(2)));
    assert_eq!(all_runs(&light, 1), Ok(vec![]));
    assert_eq!(all_runs(&light, 2), Ok(vec![vec![5, 7]]));
    assert_eq!(totals(&light, 2), Ok(Totals { variables: 42, clauses: 260, words: 913 }));
    assert_eq!(all_solutions(&clauses(&light, 1).unwrap(), 25, 10), Some(vec![]));
    let solutions = all_solutions(&clauses(&light, 2).unwrap(), 42, 10);
    assert_eq!(solutions, Some(vec![assignment_of(&light, &[5, 7]).unwrap()]));
}

#[test]
fn counts_of_runs() {
    assert_eq!(count_runs(&model(MODEL_A), 3, STATES), Ok(Some(12)));
    assert_eq!(count_runs(&model(MODEL_B), 4, STATES), Ok(Some(14)));
    assert_eq!(count_runs(&model(LIGHT), 3, STATES), Ok(Some(14)));
}
