//! The size program: its worked example, the order of its tests, and 9.

mod common;

use common::{LIGHT, MODEL_A, MODEL_B};
use reference::gen::models::model_a;
use reference::size::sizes;
use reference::text::{write, MAX_TEXT};

/// Refusal, line, variables, clauses, words.
fn numbers(input: &str) -> [u32; 5] {
    let found = sizes(input.as_bytes());
    [found.refusal, found.line, found.totals.variables, found.totals.clauses, found.totals.words]
}

#[test]
fn the_worked_example_whole() {
    let input = format!("bound=1\n{}", write(&model_a()).unwrap());
    let expected = "refusal=0\nline=0\nvariables=7\nclauses=16\nwords=51\n";
    assert_eq!(sizes(input.as_bytes()).lines(), expected);
}

#[test]
fn refusal_9_bound_line() {
    let rows = [
        "",
        "\n",
        "bound=1",
        "bound=\n",
        "bound=-\n",
        "bound=01\n",
        "bound=064\n",
        "bound=1000\n",
        "bound=1 \n",
        "bound= 1\n",
        "bound=1\r\n",
        "Bound=1\n",
        "bound1\n",
        "bound=x\n",
        " bound=1\n",
        "bound=-1\n",
        "bound=1,\n",
    ];
    for line in rows {
        assert_eq!(numbers(&format!("{line}{MODEL_A}")), [9, 0, 0, 0, 0], "{line:?}");
    }
    assert_eq!(numbers("bound=1"), [9, 0, 0, 0, 0]);
}

#[test]
fn tests_9_then_the_text_then_21_then_22() {
    assert_eq!(numbers("bound=x\nlocations=99\n"), [9, 0, 0, 0, 0]);
    assert_eq!(numbers("bound=65\nlocations=99\n"), [4, 1, 0, 0, 0]);
    assert_eq!(numbers("bound=1\n"), [2, 1, 0, 0, 0]);
    assert_eq!(numbers(&format!("bound=65\n{MODEL_B}")), [21, 0, 0, 0, 0]);
    assert_eq!(numbers(&format!("bound=999\n{MODEL_B}")), [21, 0, 0, 0, 0]);
    assert_eq!(numbers(&format!("bound=64\n{MODEL_B}"))[..2], [22, 0]);
    assert_eq!(numbers(&format!("bound=65\n{MODEL_B}\n")), [8, 30, 0, 0, 0]);
}

#[test]
fn length_counts_the_model_text_alone() {
    let filler = "\n".repeat(MAX_TEXT - MODEL_A.len());
    assert_eq!(numbers(&format!("bound=1\n{MODEL_A}{filler}")), [8, 15, 0, 0, 0]);
    assert_eq!(numbers(&format!("bound=1\n{MODEL_A}{filler}\n")), [1, 0, 0, 0, 0]);
}

#[test]
fn model_b_fits_up_to_33() {
    assert_eq!(numbers(&format!("bound=33\n{MODEL_B}")), [0, 0, 638, 4414, 15916]);
    assert_eq!(numbers(&format!("bound=34\n{MODEL_B}")), [22, 0, 0, 0, 16396]);
}

#[test]
fn words_of_model_b_grow_by_480_a_step() {
    for bound in 0..=33 {
        assert_eq!(numbers(&format!("bound={bound}\n{MODEL_B}"))[4], 76 + 480 * bound);
    }
}

#[test]
fn light_switch_fits_up_to_38() {
    assert_eq!(numbers(&format!("bound=2\n{LIGHT}")), [0, 0, 42, 260, 913]);
    assert_eq!(numbers(&format!("bound=38\n{LIGHT}"))[0], 0);
    assert_eq!(numbers(&format!("bound=39\n{LIGHT}"))[0], 22);
}
