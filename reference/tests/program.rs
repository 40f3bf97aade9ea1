//! The program `reference` itself: what each subcommand prints.

mod common;

use std::io::Write;
use std::process::{Command, Output, Stdio};

use common::{fnv, LIGHT, MODEL_A, MODEL_B};

fn start(arguments: &str, input: &str) -> Output {
    let mut child = Command::new(env!("CARGO_BIN_EXE_reference"))
        .args(arguments.split_whitespace())
        .stdin(Stdio::piped())
        .stdout(Stdio::piped())
        .stderr(Stdio::piped())
        .spawn()
        .expect("the program starts");
    let mut stdin = child.stdin.take().expect("standard input is piped");
    // A command that needs no model may end before it has read its input.
    let _ = stdin.write_all(input.as_bytes());
    drop(stdin);
    child.wait_with_output().expect("the program ends")
}

fn output(arguments: &str, input: &str) -> String {
    let output = start(arguments, input);
    assert!(output.status.success(), "{arguments}");
    String::from_utf8(output.stdout).expect("plain text")
}

#[test]
fn size() {
    let expected = "refusal=0\nline=0\nvariables=7\nclauses=16\nwords=51\n";
    assert_eq!(output("size", &format!("bound=1\n{MODEL_A}")), expected);
    assert_eq!(output("size", ""), "refusal=9\nline=0\nvariables=0\nclauses=0\nwords=0\n");
}

#[test]
fn cnf() {
    let file = "p cnf 2 4\n1 2 0\n-1 -2 0\n1 0\n2 0\n";
    assert_eq!(output("cnf", &format!("bound=0\n{MODEL_A}")), file);
    assert_eq!(output("cnf", &format!("bound=65\n{MODEL_A}")), "refusal=21\nline=0\n");
    assert_eq!(output("cnf", "bound=1\nlocations=17\n"), "refusal=4\nline=1\n");
    assert_eq!(output("cnf", ""), "refusal=9\nline=0\n");
}

#[test]
fn lists() {
    assert_eq!(output("words 0", MODEL_A), "1 2 0\n-1 -2 0\n1 0\n2 0\n");
    assert_eq!(output("dimacs 0", MODEL_A), "p cnf 2 4\n1 2 0\n-1 -2 0\n1 0\n2 0\n");
    assert_eq!(output("totals 2", LIGHT), "variables=42\nclauses=260\nwords=913\n");
    assert_eq!(output("digest 0", MODEL_A), format!("digest={:016x}\n", fnv(&[1, 2, 0, -1, -2, 0, 1, 0, 2, 0])));
    assert_eq!(output("totals 65", LIGHT), "refusal=21\nplace=0\n");
    assert_eq!(output("dimacs 65", LIGHT), "refusal=21\nplace=0\n");
    assert_eq!(output("words 1", "locations=17\n"), "refusal=4\nline=1\n");
    assert_eq!(output("dimacs 1", "locations=17\n"), "refusal=4\nline=1\n");
    assert_eq!(output("dimacs 0 32", MODEL_A), "refusal=0\nbytes=32\np cnf 2 4\n1 2 0\n-1 -2 0\n1 0\n2 0\n");
    assert_eq!(output("dimacs 0 31", MODEL_A), "refusal=32\nbytes=32\n");
    assert_eq!(output("dimacs 65 31", MODEL_A), "refusal=21\nbytes=0\n");
    assert_eq!(output("emit 0 10", MODEL_A), "refusal=0\nvariables=2\nclauses=4\nwords=10\nlist=1 2 0 -1 -2 0 1 0 2 0\n");
    assert_eq!(output("emit 0 9", MODEL_A), "refusal=22\nvariables=0\nclauses=0\nwords=10\n");
}

#[test]
fn steps_and_runs() {
    assert_eq!(output("step 0 1 0 0 0 2 0 0 0 5", MODEL_B), "refusal=0\nstate=1 1 0 0 0 0 0 0 0\n");
    assert_eq!(output("step 9 0 0 0 0 0 0 0 0 0", MODEL_B), "refusal=10\nstate=9 0 0 0 0 0 0 0 0\n");
    assert_eq!(output("walk 5 3 7", MODEL_B), "refusal=0\nplace=0\n");
    assert_eq!(output("walk 5 4 7", MODEL_B), "refusal=28\nplace=2\n");
    assert_eq!(output("walk", MODEL_B), "refusal=30\nplace=0\n");
    assert_eq!(output("runs 3", MODEL_B), "5 3 7\n");
    assert_eq!(output("runs 2", MODEL_A), "0 2\n1 2\n2 0\n2 1\n");
    assert_eq!(output("count 4", MODEL_B), "runs=14\n");
    assert_eq!(output("shortest", MODEL_B), "shortest=3\n");
    assert_eq!(output("shortest", &MODEL_B.replace("when=x0>=3", "when=x0>=4")), "shortest=none\n");
}

#[test]
fn assignments() {
    let encoded = "refusal=0\nplace=0\nassignment=1 0 0 0 1 0 1\n";
    assert_eq!(output("encode 2", MODEL_A), encoded);
    assert_eq!(output("encode 0", MODEL_A), "refusal=30\nplace=0\n");
    assert_eq!(output("decode 1 1 0 0 0 1 0 1", MODEL_A), "refusal=0\nplace=0\nrun=2\n");
    assert_eq!(output("decode 1 1 0 1 0 0 1 0", MODEL_A), "refusal=26\nplace=15\n");
    assert_eq!(output("decode 1 1 0 1 0 9 1 0", MODEL_A), "refusal=24\nplace=4\n");
    assert_eq!(output("decode 65", MODEL_A), "refusal=21\nplace=0\n");
}

#[test]
fn outputs() {
    let satisfiable = "s SATISFIABLE\nv 1 -2 0\n";
    assert_eq!(output("output 2", satisfiable), "refusal=0\nline=0\noutcome=10\nassignment=1 0\n");
    assert_eq!(output("output 3", satisfiable), "refusal=35\nline=2\noutcome=0\n");
    assert_eq!(output("output 3", "s UNSATISFIABLE\n"), "refusal=0\nline=0\noutcome=20\n");
    assert!(output("gen 7 1 output", "").starts_with("seed=7 output="));
}

/// A file of the folder `models`.
fn shipped(name: &str) -> String {
    format!("{}/../models/{name}", env!("CARGO_MANIFEST_DIR"))
}

#[test]
fn two_models() {
    let (a, b) = (shipped("a.txt"), shipped("logger_b.txt"));
    let composed = output(&format!("compose {a} {b}"), "");
    assert!(composed.starts_with("locations=8\ninit=0\ntarget=7\nclocks=1\nvars=1\nvar=1,0\ninv=-\ninv=x0<=3\n"), "{composed}");
    assert_eq!(output("totals 1", &composed), output("totals 1", &output(&format!("compose - {b}"), MODEL_A)));
    assert_eq!(output("compose - -", MODEL_A), output(&format!("compose {a} {a}"), ""));
    assert_eq!(output(&format!("compose {b} -"), "locations=17\n"), "refusal=4\ntext=2\nline=1\n");
    assert_eq!(output(&format!("compose - {b}"), "locations=17\n"), "refusal=4\ntext=1\nline=1\n");
    assert_eq!(output(&format!("compose {0} {0}", shipped("boot_logger_lossy.txt")), ""), "refusal=38\ntext=0\nline=0\n");
    assert_eq!(output(&format!("parts {a} {b} 4"), ""), "refusal=0\nfirst=1\nsecond=4\n");
    assert_eq!(output(&format!("parts {a} {b} 5"), ""), "refusal=0\nfirst=2\nsecond=255\n");
    assert_eq!(output(&format!("parts {a} {b} 9"), ""), "refusal=0\nfirst=255\nsecond=5\n");
    assert_eq!(output(&format!("parts {a} {b} 15"), ""), "refusal=27\nfirst=0\nsecond=0\n");
    assert_eq!(start("compose nothing nothing", "").status.code(), Some(2));
}

#[test]
fn generated_models_are_read_back() {
    let text = output("gen 7 1 model", "");
    assert!(output("totals 3", &text).starts_with("variables="));
    assert_eq!(output("gen 7 3 step", "").lines().count(), 3);
    let later = output("gen 8 1 step", "");
    assert!(output("gen 7 3 step", "").contains(&later));
}

#[test]
fn help_and_misuse() {
    assert!(output("help", "").contains("reference shortest"));
    for wrong in ["", "nothing", "words", "words x", "walk 256", "gen 1 1 nothing", "step 1"] {
        assert_eq!(start(wrong, MODEL_A).status.code(), Some(2), "{wrong}");
    }
}
