//! `decode`, `encode` and `explain MODEL K VARIABLE..`: between runs, assignments and what their variables mean.

mod common;

use std::process::Stdio;

use common::{command, installed, model, model_text, wirdoku, wirdoku_with_input, Folder, SOLVERS};
use wirdoku_next::library;

/// What a solver prints for the list of a bound.
fn printed(solver: &str, path: &str, bound: &str) -> Vec<u8> {
    let list = wirdoku(&["dimacs", path, "--bound", bound]).out;
    let folder = Folder::new();
    let file = folder.file("list.cnf", list.as_bytes());
    let result = folder.path().join("result");
    let mut command = std::process::Command::new(installed(solver));
    if solver == "minisat" {
        command.arg("-verb=0").arg(&file).arg(&result).stdout(Stdio::null());
        command.status().unwrap();
        return std::fs::read(&result).unwrap();
    }
    command.arg(&file).output().unwrap().stdout
}

#[test]
fn what_solvers_print_is_decoded() {
    let path = model("logger_b.txt");
    for solver in SOLVERS {
        for (bound, status) in [("2", 20), ("3", 10), ("17", 10)] {
            let outcome = wirdoku_with_input(&["decode", &path, bound, "-"], &printed(solver, &path, bound));
            assert_eq!(outcome.status, status, "{} {:?}", solver, outcome);
        }
        let outcome = wirdoku_with_input(&["decode", &path, "3", "-"], &printed(solver, &path, "3"));
        assert!(outcome.out.starts_with("a run of 3 steps reaches the target\n"), "{:?}", outcome);
        assert!(outcome.out.ends_with("step bytes: 5 3 7\n(walked by proved code)\n"), "{:?}", outcome);
        let outcome = wirdoku_with_input(&["decode", &path, "2", "-"], &printed(solver, &path, "2"));
        let word = "no run of exactly 2 steps, so none of fewer\n(the word of -, which is not checked)\n";
        assert_eq!(outcome.out, word);
    }
}

#[test]
fn two_models_are_decoded_and_encoded() {
    let (first, second) = (model("logger.txt"), model("watchdog.txt"));
    let run = ["4", "11", "2", "13", "3", "20"];
    let encoded = wirdoku(&[&["encode", &first[..], &second][..], &run].concat());
    assert_eq!(encoded.status, 0, "{:?}", encoded);
    let outcome = wirdoku_with_input(&["decode", &first, &second, "6", "-"], encoded.out.as_bytes());
    assert_eq!(outcome.status, 10, "{:?}", outcome);
    assert!(outcome.out.contains("\nstep bytes: 4 11 2 13 3 20\n"), "{:?}", outcome);
}

#[test]
fn the_assignment_of_model_a() {
    let path = model("a.txt");
    let outcome = wirdoku(&["encode", &path, "2"]);
    assert_eq!((outcome.status, outcome.out.as_str()), (0, "s SATISFIABLE\nv 1 -2 -3 -4 5 -6 7 0\n"));
    let outcome = wirdoku(&["encode", &path, "0"]);
    outcome.assert_stopped(20, "no run into the target: refusal 30: ");
    wirdoku(&["encode", &path, "9"]).assert_stopped(20, "no run into the target: refusal 27, step 1: ");
    let long = vec!["0"; 65];
    let outcome = wirdoku(&[&["encode", &path[..]][..], &long].concat());
    outcome.assert_stopped(2, &format!("{}: refusal 21: ", path));
}

/// The lines are no longer than 78 characters, and the proved reader takes them at every length.
#[test]
fn assignments_are_read_back_at_every_length() {
    let path = model("logger_b.txt");
    let text = model_text("logger_b.txt");
    for waits in 0..=61 {
        let mut run = vec!["0"; waits];
        run.extend(["5", "3", "7"]);
        let bytes: Vec<u8> = run.iter().map(|step| step.parse().unwrap()).collect();
        let encoded = wirdoku(&[&["encode", &path[..]][..], &run].concat()).out;
        assert!(encoded.lines().all(|line| line.len() <= 78), "{}", encoded);
        let mut expected = vec![0; library::counts(text.as_bytes(), run.len()).variables];
        assert_eq!(library::run_to_assignment(text.as_bytes(), &bytes, &mut expected).number, 0);
        let mut found = vec![9; expected.len()];
        assert_eq!(library::output_to_assignment(encoded.as_bytes(), &mut found).outcome, library::SATISFIABLE);
        assert_eq!(found, expected);
    }
}

#[test]
fn refused_outputs_and_assignments() {
    let path = model("a.txt");
    let decode = |output: &str| wirdoku_with_input(&["decode", &path, "1", "-"], output.as_bytes());
    decode("").assert_stopped(3, "-: refusal 35, line 1: ");
    decode("s SATISFIABLE\nv 1 1 0\n").assert_stopped(3, "-: refusal 34, line 2: ");
    decode("s MAYBE\n").assert_stopped(3, "-: refusal 33, line 1: ");
    decode("SAT\n1 2\n").assert_stopped(3, "-: the closing 0 is missing");
    let wrong = decode("s SATISFIABLE\nv 1 -2 3 -4 -5 6 -7 0\n");
    wrong.assert_stopped(4, "-: the assignment at bound 1 is wrong: refusal 26, clause 15: ");
    assert!(wrong.err.ends_with("\n    7\n"), "{:?}", wrong);
    let outcome = wirdoku_with_input(&["decode", &path, "65", "-"], b"");
    outcome.assert_stopped(2, &format!("{}: refusal 21: ", path));
    wirdoku(&["decode", &path, "1", "/nowhere/output"]).assert_stopped(5, "/nowhere/output cannot be read: ");
}

#[test]
fn an_output_that_is_too_long() {
    let folder = Folder::new();
    let long = folder.file("long", &vec![b'c'; (1 << 24) + 1]);
    let outcome = wirdoku(&["decode", &model("a.txt"), "1", &long]);
    outcome.assert_stopped(5, &format!("{} has more than 16777216 bytes", long));
}

/// The worked numbers of model B.
#[test]
fn what_variables_mean() {
    let path = model("logger_b.txt");
    let text = model_text("logger_b.txt");
    // without the names of the shipped model
    let outcome = wirdoku_with_input(&["explain", "-", "3", "1", "11", "12", "17", "25", "57", "61", "68"], text.as_bytes());
    let expected = "1: state 0, location 0\n11: state 0, x0 = 4 or more\n12: step 1, delay 0\n17: step 1, edge 0: 0 -> 1\n\
                    25: state 1, v0 = 1\n57: step 3, edge 2: 1 -> 3\n61: state 3, location 3\n68: state 3, x0 = 4 or more\n";
    assert_eq!((outcome.status, outcome.out.as_str()), (0, expected));
    for (bound, number) in [("3", "69"), ("3", "0"), ("0", "12"), ("64", "1228")] {
        let outcome = wirdoku(&["explain", &path, bound, number]);
        outcome.assert_stopped(1, &format!("the list for bound {} has the variables 1 to ", bound));
    }
    wirdoku(&["explain", &path, "65", "1"]).assert_stopped(2, &format!("{}: refusal 21: ", path));
}

/// A run's own assignment, told variable by variable, is the run: one location, one value each, one choice a step.
#[test]
fn the_true_variables_of_a_run_tell_it() {
    let text = model_text("boot_logger_checkpoint.txt");
    let run = [1, 5, 3, 7, 8, 9, 10];
    let mut assignment = vec![0; library::counts(text.as_bytes(), run.len()).variables];
    assert_eq!(library::run_to_assignment(text.as_bytes(), &run, &mut assignment).number, 0);
    let numbers: Vec<String> =
        (1..=assignment.len()).filter(|place| assignment[place - 1] == 1).map(|place| place.to_string()).collect();
    let numbers: Vec<&str> = numbers.iter().map(String::as_str).collect();
    let outcome = wirdoku_with_input(&[&["explain", "-", "7"][..], &numbers].concat(), text.as_bytes());
    let told: Vec<&str> = outcome.out.lines().map(|line| line.split_once(": ").unwrap().1).collect();
    let mut expected = Vec::new();
    let mut state = library::initial(text.as_bytes()).state;
    let ceiling = library::shape(text.as_bytes()).ceiling;
    for (step, byte) in (0..).zip([None].into_iter().chain(run.iter().map(Some))) {
        if let Some(byte) = byte {
            let choice = match usize::from(*byte).checked_sub(ceiling + 1) {
                None => format!("step {}, delay {}", step, byte),
                Some(edge) => format!("step {}, edge {}: ", step, edge),
            };
            expected.push(choice);
            state = library::step(text.as_bytes(), state, *byte).state;
        }
        expected.push(format!("state {}, location {}", step, state.location));
        expected.extend((0..3).map(|index| format!("state {}, v{} = {}", step, index, state.counters[index])));
        expected.push(format!("state {}, x0 = {}", step, state.clocks[0]));
    }
    assert_eq!(told.len(), expected.len());
    for (told, expected) in told.iter().zip(&expected) {
        assert!(told.starts_with(expected.as_str()), "{} {}", told, expected);
    }
}

#[test]
fn standard_input_is_read_once() {
    let outcome = common::outcome(&mut command(&["decode", "-", "1", "-"]));
    outcome.assert_stopped(1, "`-` can stand for one file only");
}
