//! The DIMACS file: its worked cases, its form, its numbers read back, and 32 on
//! both sides of its limit.

mod common;

use common::{model, with_line, MODEL_A, MODEL_B};
use reference::dimacs::{file, line, write_file, Filing};
use reference::gen::models::{any_model, longest_file};
use reference::gen::rng::Rng;
use reference::list::{totals, words};
use reference::model::Model;

const FILE_A: &str = "\
p cnf 7 16
1 2 0
-1 -2 0
1 0
3 4 5 0
-3 -4 0
-3 -5 0
-4 -5 0
-3 -1 6 0
-3 -2 7 0
-4 -1 6 0
-4 -2 7 0
-5 1 0
-5 7 0
6 7 0
-6 -7 0
7 0
";

#[test]
fn the_worked_example_whole() {
    let a = model(MODEL_A);
    assert_eq!(file(&a, 0).unwrap(), "p cnf 2 4\n1 2 0\n-1 -2 0\n1 0\n2 0\n");
    assert_eq!(file(&a, 1).unwrap(), FILE_A);
    assert_eq!(FILE_A.len(), 133);
}

#[test]
fn worked_lengths() {
    let (a, b) = (model(MODEL_A), model(MODEL_B));
    let lengths = |model: &Model, bounds: &[usize]| -> Vec<usize> {
        bounds.iter().map(|bound| file(model, *bound).unwrap().len()).collect()
    };
    assert_eq!(lengths(&a, &[0, 1, 2]), [32, 133, 249]);
    assert_eq!(lengths(&b, &[0, 1, 2, 3, 64]), [211, 1_708, 3_266, 4_824, 124_483]);
}

#[test]
fn numbers_have_as_many_digits_as_they_need() {
    assert_eq!(line(&[9, -10, 99, -100, 999, -1000, 9999, -10000]), "9 -10 99 -100 999 -1000 9999 -10000 0\n");
    assert_eq!(line(&[-9, 10, -99, 100, -9999, 10000]), "-9 10 -99 100 -9999 10000 0\n");
    assert_eq!(line(&[-5]), "-5 0\n");
    assert_eq!(line(&[]), "0\n");
    let file = file(&longest_file(), 30).unwrap();
    for number in [9, 10, 99, 100, 999, 1000, 9999, 10000] {
        assert!(file.contains(&format!(" {number} ")) && file.contains(&format!("\n-{number} -")), "{number}");
    }
}

/// A clause may be a single negated literal: an edge that sets a counter out of its
/// range.
#[test]
fn a_clause_of_one_literal() {
    let b = model(&with_line(MODEL_B, 22, "set=v0:=31"));
    let file = file(&b, 1).unwrap();
    assert!(file.contains("\n-18 0\n"));
    assert_eq!(file.lines().filter(|line| line.starts_with('-') && line.split(' ').count() == 2).count(), 1);
}

#[test]
fn the_numbers_after_the_first_line_are_the_words() {
    for seed in 0..200 {
        let mut rng = Rng::new(seed);
        let (model, bound) = (any_model(&mut rng), rng.below(8));
        let file = file(&model, bound).unwrap();
        let (first, rest) = file.split_once('\n').unwrap();
        let totals = totals(&model, bound).unwrap();
        assert_eq!(first, format!("p cnf {} {}", totals.variables, totals.clauses));
        let read: Vec<i32> = rest.split_ascii_whitespace().map(|word| word.parse().unwrap()).collect();
        assert_eq!(read, words(&model, bound).unwrap());
        assert_eq!(rest.lines().count(), totals.clauses as usize);
        assert!(rest.ends_with(" 0\n") && rest.lines().all(is_plain), "seed {seed}");
    }
}

/// Numbers without a leading zero, one space apart, 0 only at the end.
fn is_plain(line: &str) -> bool {
    let numbers: Vec<&str> = line.split(' ').collect();
    let is_literal = |number: &&str| {
        let digits = number.strip_prefix('-').unwrap_or(number);
        !digits.starts_with('0') && !digits.is_empty() && digits.bytes().all(|byte| byte.is_ascii_digit())
    };
    let (last, literals) = numbers.split_last().unwrap();
    *last == "0" && literals.iter().all(is_literal)
}

#[test]
fn refusal_32_bytes_at_both_sides() {
    let a = model(MODEL_A);
    let mut short = [77; 132];
    assert_eq!(write_file(&a, 1, &mut short), Filing { refusal: 32, bytes: 133 });
    assert_eq!(short, [77; 132]);
    assert_eq!(write_file(&a, 1, &mut []), Filing { refusal: 32, bytes: 133 });
    let mut exact = [77; 133];
    assert_eq!(write_file(&a, 1, &mut exact), Filing { refusal: 0, bytes: 133 });
    assert_eq!(exact, FILE_A.as_bytes());
    let mut more = [77; 134];
    assert_eq!(write_file(&a, 1, &mut more), Filing { refusal: 0, bytes: 133 });
    assert_eq!((&more[..133], more[133]), (FILE_A.as_bytes(), 77));
}

#[test]
fn tests_20_then_21_then_32() {
    let a = model(MODEL_A);
    let mut undeclared = a.clone();
    undeclared.target = 2;
    assert_eq!(write_file(&undeclared, 65, &mut []), Filing { refusal: 20, bytes: 0 });
    assert_eq!(write_file(&a, 65, &mut []), Filing { refusal: 21, bytes: 0 });
    let needed = file(&a, 64).unwrap().len();
    assert_eq!(write_file(&a, 64, &mut []), Filing { refusal: 32, bytes: needed });
}
