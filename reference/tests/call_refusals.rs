//! Refusals 10 and 21 to 31 of the calls, each on both sides of its limit, and
//! what the lent buffers hold afterwards.

mod common;

use common::{model, with_line, MODEL_A, MODEL_B};
use reference::assign::{assignment_of, decode, encode, run_of};
use reference::list::{emit, totals, words, Totals};
use reference::model::Model;
use reference::refusal::Refusal;
use reference::state::State;
use reference::step::{step_call, walk};

fn state(location: u8, counter: u8, clock: u8) -> State {
    State { location, counters: [counter, 0, 0, 0], clocks: [clock, 0, 0, 0] }
}

/// Model A with an edge back, a clock and an invariant of the target.
fn with_invariant() -> Model {
    let text = with_line(&with_line(MODEL_A, 4, "clocks=1"), 7, "inv=x0>=1");
    model(&text)
}

#[test]
fn refusal_10_numbers_of_the_state() {
    let b = model(MODEL_B);
    for byte in 0..=255 {
        let expected = |allowed: bool| if allowed { 0 } else { 10 };
        // Location 1 has an invariant, which holds at 0.
        assert_eq!(step_call(&b, state(byte, 0, 0), 0).0, expected(byte < 4));
        assert_eq!(step_call(&b, state(0, byte, 0), 0).0, expected(byte <= 1));
        assert_eq!(step_call(&b, state(0, 0, byte), 0).0, expected(byte <= 4));
        for slot in 1..4 {
            let mut unused = state(0, 0, 0);
            unused.counters[slot] = byte;
            assert_eq!(step_call(&b, unused, 0).0, expected(byte == 0));
            let mut unused = state(0, 0, 0);
            unused.clocks[slot] = byte;
            assert_eq!(step_call(&b, unused, 0).0, expected(byte == 0));
        }
    }
}

#[test]
fn step_call_tries_10_then_27_then_28() {
    let b = model(MODEL_B);
    let outside = state(9, 0, 0);
    assert_eq!(step_call(&b, outside, 255), (10, outside));
    assert_eq!(step_call(&b, state(0, 0, 0), 8), (27, state(0, 0, 0)));
    assert_eq!(step_call(&b, state(0, 0, 0), 255), (27, state(0, 0, 0)));
    assert_eq!(step_call(&b, state(0, 0, 0), 7), (28, state(0, 0, 0)));
    assert_eq!(step_call(&b, state(0, 1, 2), 5), (0, state(1, 1, 0)));
    assert_eq!(step_call(&b, state(1, 0, 2), 6), (0, state(2, 1, 2)));
}

#[test]
fn step_call_delays() {
    let b = model(MODEL_B);
    assert_eq!(step_call(&b, state(0, 1, 3), 4), (0, state(0, 1, 4)));
    assert_eq!(step_call(&b, state(0, 1, 4), 4), (0, state(0, 1, 4)));
    assert_eq!(step_call(&b, state(1, 0, 1), 2), (0, state(1, 0, 3)));
    assert_eq!(step_call(&b, state(1, 0, 1), 3), (28, state(1, 0, 1)));
}

#[test]
fn a_state_that_breaks_its_invariant_is_still_judged() {
    let b = model(MODEL_B);
    // Delay 0 does not mend the invariant; an edge asks for the target's alone.
    assert_eq!(step_call(&b, state(1, 0, 4), 0).0, 28);
    assert_eq!(step_call(&b, state(1, 0, 4), 7), (0, state(3, 0, 4)));
}

#[test]
fn edges_block_out_of_range_counters_and_failing_guards() {
    let b = model(MODEL_B);
    assert_eq!(step_call(&b, state(1, 1, 2), 6).0, 28);
    assert_eq!(step_call(&b, state(1, 0, 3), 6).0, 28);
    let down = model(&with_line(MODEL_B, 22, "set=v0:=v0-1"));
    assert_eq!(step_call(&down, state(1, 0, 2), 6).0, 28);
    assert_eq!(step_call(&down, state(1, 1, 2), 6), (0, state(2, 0, 2)));
    let constant = model(&with_line(MODEL_B, 22, "set=v0:=31"));
    assert_eq!(step_call(&constant, state(1, 1, 2), 6).0, 28);
}

#[test]
fn edges_ask_for_the_invariant_after_their_resets() {
    let entered = with_invariant();
    assert_eq!(step_call(&entered, state(0, 0, 0), 3).0, 28);
    assert_eq!(step_call(&entered, state(0, 0, 1), 3), (0, state(1, 0, 1)));
    let text = with_line(&with_line(MODEL_A, 4, "clocks=1"), 7, "inv=x0>=1");
    let reset = model(&with_line(&text, 14, "reset=x0"));
    assert_eq!(step_call(&reset, state(0, 0, 1), 3).0, 28);
}

#[test]
fn unused_clocks_stay_0_in_a_delay() {
    let a = model(MODEL_A);
    assert_eq!(step_call(&a, state(0, 0, 0), 1), (0, state(0, 0, 0)));
}

#[test]
fn refusal_21_bound_64_is_taken_and_65_is_not() {
    let b = model(MODEL_B);
    let refusal = Refusal::plain(21);
    assert!(totals(&b, 64).is_ok());
    assert_eq!(totals(&b, 65), Err(refusal));
    let mut run = vec![0; 64];
    (run[61], run[62], run[63]) = (5, 3, 7);
    assert_eq!(walk(&b, &run), (0, 0));
    let assignment = assignment_of(&b, &run).unwrap();
    assert_eq!(run_of(&b, 64, &assignment), Ok(run.clone()));
    run.insert(0, 0);
    assert_eq!(walk(&b, &run), (21, 0));
    assert_eq!(encode(&b, &run, &mut vec![0; 30_000]), (21, 0));
    assert_eq!(decode(&b, 65, &assignment, &mut [0; 65]), (21, 0));
    assert_eq!(emit(&b, 65, &mut []).refusal, 21);
    assert_eq!(emit(&b, 65, &mut []).totals, Totals::default());
}

#[test]
fn refusal_21_comes_before_29() {
    let text = with_line(&with_line(MODEL_A, 4, "clocks=1"), 6, "inv=x0>=1");
    let refused = model(&text);
    assert_eq!(walk(&refused, &[0; 64]), (29, 0));
    assert_eq!(walk(&refused, &[0; 65]), (21, 0));
    assert_eq!(walk(&refused, &[255]), (29, 0));
}

#[test]
fn refusal_22_words_at_both_sides() {
    let b = model(MODEL_B);
    for bound in [0, 1, 2, 7] {
        let list = words(&b, bound).unwrap();
        let mut room = vec![77; list.len() + 3];
        assert_eq!(emit(&b, bound, &mut room).totals, totals(&b, bound).unwrap());
        assert_eq!(room[..list.len()], list);
        assert_eq!(room[list.len()..], [77; 3]);
        let mut short = vec![77; list.len() - 1];
        let refused = emit(&b, bound, &mut short);
        assert_eq!(refused.refusal, 22);
        let needed = list.len() as u32;
        assert_eq!(refused.totals, Totals { variables: 0, clauses: 0, words: needed });
        assert!(short.iter().all(|word| *word == 77));
    }
}

#[test]
fn refusals_23_to_26_in_their_order() {
    let a = model(MODEL_A);
    let good = [1, 0, 0, 0, 1, 0, 1];
    let answer = |assignment: &[u8], room: usize| {
        let mut run = vec![77; room];
        let answer = decode(&a, 1, assignment, &mut run);
        let written = if answer == (0, 0) { vec![2] } else { vec![] };
        assert_eq!(run[..written.len()], written);
        assert!(run[written.len()..].iter().all(|byte| *byte == 77));
        answer
    };
    assert_eq!(answer(&good, 1), (0, 0));
    assert_eq!(answer(&good, 3), (0, 0));
    assert_eq!(answer(&good[..6], 0), (23, 0));
    assert_eq!(answer(&[1, 0, 0, 0, 1, 0, 1, 0], 0), (23, 0));
    assert_eq!(answer(&[], 1), (23, 0));
    assert_eq!(answer(&[9, 9, 9], 0), (23, 0));
    assert_eq!(answer(&[2, 0, 0, 0, 1, 0, 1], 0), (24, 0));
    assert_eq!(answer(&[1, 0, 0, 0, 1, 0, 255], 0), (24, 6));
    assert_eq!(answer(&[0, 0, 0, 3, 1, 2, 1], 1), (24, 3));
    assert_eq!(answer(&good, 0), (25, 0));
    assert_eq!(answer(&[0; 7], 0), (25, 0));
    assert_eq!(answer(&[0; 7], 1), (26, 0));
    assert_eq!(answer(&[1; 7], 1), (26, 1));
    assert_eq!(answer(&[0, 1, 0, 0, 1, 0, 1], 1), (26, 2));
    assert_eq!(answer(&[1, 0, 1, 0, 0, 1, 0], 1), (26, 15));
}

#[test]
fn an_assignment_for_bound_0_needs_no_run_buffer() {
    let target_is_initial = model(&with_line(MODEL_A, 3, "target=0"));
    assert_eq!(decode(&target_is_initial, 0, &[1, 0], &mut []), (0, 0));
    assert_eq!(decode(&model(MODEL_A), 0, &[1, 0], &mut []), (26, 3));
}

#[test]
fn refusals_27_to_30_of_runs() {
    let b = model(MODEL_B);
    assert_eq!(walk(&b, &[7]), (28, 1));
    assert_eq!(walk(&b, &[8]), (27, 1));
    assert_eq!(walk(&b, &[255, 255]), (27, 1));
    assert_eq!(walk(&b, &[5, 5]), (28, 2));
    assert_eq!(walk(&b, &[5, 5, 255]), (28, 2));
    assert_eq!(walk(&b, &[]), (30, 0));
    assert_eq!(walk(&b, &[5, 2, 6]), (30, 0));
    assert_eq!(walk(&b, &[5, 3, 7, 4]), (0, 0));
}

#[test]
fn refusal_31_after_the_walk() {
    let b = model(MODEL_B);
    let assignment = assignment_of(&b, &[5, 3, 7]).unwrap();
    assert_eq!(assignment.len(), 68);
    let mut room = [77; 70];
    assert_eq!(encode(&b, &[5, 3, 7], &mut room[..68]), (0, 0));
    assert_eq!(room[..68], assignment);
    assert_eq!(room[68..], [77, 77]);
    let mut short = vec![77; 67];
    assert_eq!(encode(&b, &[5, 3, 7], &mut short), (31, 0));
    assert_eq!(encode(&b, &[5, 3], &mut short), (30, 0));
    assert_eq!(encode(&b, &[5, 4, 7], &mut short), (28, 2));
    assert_eq!(encode(&b, &[5, 3, 8], &mut short), (27, 3));
    assert!(short.iter().all(|byte| *byte == 77));
}
