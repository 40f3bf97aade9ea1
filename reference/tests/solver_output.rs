//! A solver's output: the worked cases, each form of a line, numbers of any length,
//! and which refusal comes first.

use reference::output::{output_to_assignment, read_output, Reading, Verdict, SATISFIABLE, UNSATISFIABLE};

/// The answer for a buffer of so many 9s, and the buffer after it.
fn read(output: &str, variables: usize) -> (Reading, Vec<u8>) {
    let mut assignment = vec![9; variables];
    let reading = output_to_assignment(output.as_bytes(), &mut assignment);
    (reading, assignment)
}

/// Lines after `s SATISFIABLE`, each given its LF.
fn satisfiable(lines: &[&str]) -> String {
    let lines: String = lines.iter().map(|line| format!("{line}\n")).collect();
    format!("s SATISFIABLE\n{lines}")
}

fn assert_accepted(output: &str, expected: &[u8]) {
    let accepted = Reading { refusal: 0, line: 0, outcome: SATISFIABLE };
    assert_eq!(read(output, expected.len()), (accepted, expected.to_vec()), "{output:?}");
}

fn assert_unsatisfiable(output: &str, variables: usize) {
    let accepted = Reading { refusal: 0, line: 0, outcome: UNSATISFIABLE };
    assert_eq!(read(output, variables), (accepted, vec![9; variables]), "{output:?}");
}

fn assert_refused(output: &str, variables: usize, refusal: u32, line: u32) {
    let refused = Reading { refusal, line, outcome: 0 };
    assert_eq!(read(output, variables), (refused, vec![9; variables]), "{output:?}");
}

#[test]
fn accepted_outputs() {
    let expected = [1, 0, 0, 0, 1, 0, 1];
    assert_accepted(&satisfiable(&["v 1 -2 -3 -4 5 -6 7 0"]), &expected);
    let split = "c x\ns SATISFIABLE\nc \nv 7 -6\nv 5 -4 -3\nc y\nv -2 1\nv 0\nc z\n";
    assert_accepted(split, &expected);
    assert_accepted(&satisfiable(&["c x\r", "v 1 0", "c \u{0}\u{ff}"]), &[1]);
}

#[test]
fn unsatisfiable_is_an_outcome_of_its_own() {
    assert_unsatisfiable("s UNSATISFIABLE\n", 7);
    assert_unsatisfiable("c x\ns UNSATISFIABLE\nc y\n", 7);
    assert_unsatisfiable("s UNSATISFIABLE\n", 0);
    assert_eq!(read_output(b"s UNSATISFIABLE\n", 3), Ok(Verdict::Unsatisfiable));
    for lines in ["v 1 0\n", "v 0\n", "s UNSATISFIABLE\n", "s SATISFIABLE\n", "x\n", "\n"] {
        assert_refused(&format!("s UNSATISFIABLE\n{lines}"), 2, 33, 2);
    }
}

#[test]
fn an_end_that_comes_too_early_is_35() {
    assert_refused("", 2, 35, 1);
    assert_refused("c x\nc y\n", 2, 35, 3);
    assert_refused(&satisfiable(&[]), 2, 35, 2);
    assert_refused(&satisfiable(&["v 1 2"]), 2, 35, 3);
    assert_refused(&satisfiable(&["v 1 2", "c x"]), 2, 35, 4);
}

#[test]
fn a_closing_0_with_a_variable_unnamed_is_35_at_once() {
    assert_refused(&satisfiable(&["v 1 0"]), 2, 35, 2);
    assert_refused(&satisfiable(&["v 2 0"]), 2, 35, 2);
    assert_refused(&satisfiable(&["v 1 0", "x"]), 2, 35, 2);
    assert_refused(&satisfiable(&["v 1 0", "v 2 0"]), 2, 35, 2);
    assert_refused(&satisfiable(&["c x", "v 1", "v 0"]), 2, 35, 4);
}

#[test]
fn variables_named_before_or_above_are_34() {
    assert_refused(&satisfiable(&["v 1 1", "x"]), 2, 34, 2);
    assert_refused(&satisfiable(&["v 1 -1 2 0"]), 2, 34, 2);
    assert_refused(&satisfiable(&["v 3 0"]), 2, 34, 2);
    assert_refused(&satisfiable(&["v 1 2", "v -1", "v 0"]), 2, 34, 3);
    assert_refused(&satisfiable(&["v 1 3 1 0"]), 2, 34, 2);
}

#[test]
fn numbers_do_not_wrap() {
    let numbers =
        ["257", "65537", "4294967297", "-4294967297", "18446744073709551617", "340282366920938463463374607431768211457"];
    for number in numbers {
        assert_refused(&satisfiable(&[&format!("v {number} 2 0")]), 2, 34, 2);
    }
    let longest = format!("v 1 2 1{}", "0".repeat(5000));
    assert_refused(&satisfiable(&[&longest]), 2, 34, 2);
    assert_refused(&satisfiable(&[&format!("{longest} 0 x")]), 2, 33, 2);
}

#[test]
fn lines_of_no_form_are_33() {
    for words in
        ["-0", "01", "+1", "0 1 2", "1  2 0", "1 2 0 ", " 1 2 0", "0 0", "1 x", "-", "--1", "1-", "00", "", "1\t2 0", "1,2 0"]
    {
        assert_refused(&satisfiable(&[&format!("v {words}")]), 2, 33, 2);
    }
    for line in ["v", "v ", "", "c", "cx", " c x", "C x", "V 1 2 0", "x", "v1 2 0", "v 1 2 0\r", "\r", "s", "s UNKNOWN"] {
        assert_refused(&satisfiable(&[line]), 2, 33, 2);
        assert_refused(&format!("{line}\n{}", satisfiable(&["v 1 2 0"])), 2, 33, 1);
        assert_refused(&satisfiable(&["v 1 2 0", line]), 2, 33, 3);
    }
    for line in ["s UNKNOWN", "s SATISFIABLE ", " s SATISFIABLE", "s  SATISFIABLE", "S SATISFIABLE", "s SATISFIABLE\r", "s"] {
        assert_refused(&format!("{line}\nv 1 2 0\n"), 2, 33, 1);
    }
}

#[test]
fn lines_out_of_place_are_33() {
    assert_refused("v 1 2 0\ns SATISFIABLE\n", 2, 33, 1);
    assert_refused("s SATISFIABLE\ns SATISFIABLE\nv 1 2 0\n", 2, 33, 2);
    assert_refused(&satisfiable(&["v 1 2 0", "v 0"]), 2, 33, 3);
    assert_refused(&satisfiable(&["v 1 2 0", "s SATISFIABLE"]), 2, 33, 3);
    assert_refused(&satisfiable(&["v 1", "s UNSATISFIABLE"]), 2, 33, 3);
}

#[test]
fn a_last_line_without_lf_is_33() {
    assert_refused("s SATISFIABLE\nv 1 2 0", 2, 33, 2);
    assert_refused("s SATISFIABLE\nv 1 1", 2, 33, 2);
    assert_refused("s SATISFIABLE\nv 1 2 0\nc x", 2, 33, 3);
    assert_refused("s UNSATISFIABLE", 2, 33, 1);
    assert_refused("c ", 2, 33, 1);
}

#[test]
fn the_form_of_a_line_comes_before_its_literals() {
    assert_refused(&satisfiable(&["v 1 1 x"]), 2, 33, 2);
    assert_refused(&satisfiable(&["v 3 x"]), 2, 33, 2);
    assert_refused(&satisfiable(&["v 3 0 0"]), 2, 33, 2);
    assert_refused(&satisfiable(&["v 1 0 2"]), 2, 33, 2);
}

#[test]
fn an_earlier_line_comes_before_a_later_one() {
    assert_refused(&satisfiable(&["v 1", "v 1", "c"]), 2, 34, 3);
    assert_refused(&satisfiable(&["v 1", "c", "v 1"]), 2, 33, 3);
    assert_refused(&satisfiable(&["v 1 1 0"]), 2, 34, 2);
    assert_refused(&satisfiable(&["v 1 3 0"]), 2, 34, 2);
}

#[test]
fn no_variable_at_all() {
    assert_accepted(&satisfiable(&["v 0"]), &[]);
    assert_refused(&satisfiable(&[]), 0, 35, 2);
    assert_refused(&satisfiable(&["v 1 0"]), 0, 34, 2);
    assert_refused("", 0, 35, 1);
}
