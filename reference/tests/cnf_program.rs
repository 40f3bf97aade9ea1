//! The cnf program: its worked example, the order of its tests, and that it has no
//! 22.

mod common;

use common::{MODEL_A, MODEL_B};
use reference::cnf::printed;
use reference::dimacs::file;
use reference::gen::models::{largest, model_b};
use reference::gen::rng::Rng;
use reference::gen::texts::size_input;
use reference::size::sizes;
use reference::text::{write, MAX_TEXT};

fn refused(number: u32, line: u32) -> String {
    format!("refusal={number}\nline={line}\n")
}

#[test]
fn the_file_alone() {
    let expected = "p cnf 2 4\n1 2 0\n-1 -2 0\n1 0\n2 0\n";
    assert_eq!(printed(format!("bound=0\n{MODEL_A}").as_bytes()), expected);
    assert_eq!(printed(format!("bound=3\n{MODEL_B}").as_bytes()), file(&model_b(), 3).unwrap());
}

#[test]
fn lists_that_the_size_program_refuses() {
    let input = format!("bound=64\n{MODEL_B}");
    assert_eq!(sizes(input.as_bytes()).refusal, 22);
    assert_eq!(printed(input.as_bytes()).len(), 124_483);
    let input = format!("bound=64\n{}", write(&largest()).unwrap());
    assert!(printed(input.as_bytes()).starts_with("p cnf 21776 1876043\n"));
}

#[test]
fn tests_9_then_the_text_then_21() {
    for line in ["", "bound=64x\n", "bound=01\n", "bound=1000\n", "bound=1\r\n"] {
        assert_eq!(printed(format!("{line}{MODEL_A}").as_bytes()), refused(9, 0), "{line:?}");
    }
    assert_eq!(printed(b"bound=x\nlocations=99\n"), refused(9, 0));
    assert_eq!(printed(b"bound=65\nlocations=99\n"), refused(4, 1));
    assert_eq!(printed(b"bound=1\n"), refused(2, 1));
    assert_eq!(printed(format!("bound=65\n{MODEL_B}").as_bytes()), refused(21, 0));
    assert_eq!(printed(format!("bound=999\n{MODEL_B}\n").as_bytes()), refused(8, 30));
    let cut = MODEL_A.strip_suffix("reset=-\n").unwrap();
    assert_eq!(printed(format!("bound=1\n{cut}").as_bytes()), refused(2, 14));
    let filler = "\n".repeat(MAX_TEXT - MODEL_A.len());
    assert_eq!(printed(format!("bound=1\n{MODEL_A}{filler}").as_bytes()), refused(8, 15));
    assert_eq!(printed(format!("bound=1\n{MODEL_A}{filler}\n").as_bytes()), refused(1, 0));
}

/// The same refusals as the size program's but for 22, and its first two lines.
#[test]
fn refusals_are_the_size_programs() {
    for seed in 0..400 {
        let input = size_input(&mut Rng::new(seed));
        let sizes = sizes(&input);
        let two: String = sizes.lines().split_inclusive('\n').take(2).collect();
        match sizes.refusal {
            0 | 22 => assert!(printed(&input).starts_with("p cnf "), "seed {seed}"),
            _ => assert_eq!(printed(&input), two, "seed {seed}"),
        }
    }
}
