//! Solvers that lie, fail, contradict themselves or print what is refused.

mod common;

use common::{installed, model, with_path, Folder, Outcome, READ_ALL};
use wirdoku_next::explain::sentence;

/// Checks model A with a script in place of a solver.
fn with_solver(solver: &str, lines: &str, bounds: &[&str]) -> Outcome {
    let folder = Folder::new();
    folder.script(solver, &format!("{}\n{}", READ_ALL, lines));
    with_path(&folder, &[&["check", &model("a.txt"), "--quiet"], bounds].concat())
}

/// The same at bound 1, with a script in place of cadical.
fn with_cadical(lines: &str) -> Outcome {
    with_solver("cadical", lines, &["--bound", "1"])
}

#[test]
fn a_wrong_assignment_is_refused_with_its_clause() {
    let cases = [
        // one delay instead of the edge: the last clause, the target, is false
        ("v 1 -2 3 -4 -5 6 -7 0", 15, "7"),
        ("v -1 -2 -3 -4 -5 -6 -7 0", 0, "1 2"),
        ("v 1 2 3 4 5 6 7 0", 1, "-1 -2"),
    ];
    for (line, clause, literals) in cases {
        let outcome = with_cadical(&format!("echo 's SATISFIABLE'\necho '{}'\nexit 10", line));
        let message = format!(
            "the assignment of cadical at bound 1 is wrong: refusal 26, clause {}: a clause is false under \
             the assignment\n    {}\n",
            clause, literals
        );
        outcome.assert_stopped(4, &message);
    }
}

/// An assignment for 2 steps that is cut after the step that its target literals name; if none is true, the last is found to be false.
#[test]
fn assignments_to_cubes_are_cut_where_the_target_is_true() {
    let cases = [
        // edge 0, then a delay: in the target after 1 step
        ("1 -2 -3 -4 5 -6 7 8 -9 -10 -11 12", Ok("2")),
        // what follows the cut is not looked at
        ("1 -2 -3 -4 5 -6 7 -8 -9 -10 -11 -12", Ok("2")),
        ("1 -2 3 -4 -5 6 -7 -8 -9 10 -11 12", Ok("0 2")),
        ("1 -2 3 -4 -5 6 -7 8 -9 -10 11 -12", Err("at bound 2 is wrong: refusal 26, clause 27: ")),
        ("1 -2 3 -4 -5 6 -7 8 -9 -10 -11 12", Err("at bound 2 is wrong: refusal 26, clause 19: ")),
        ("1 -2 3 -4 -5 -6 7 8 -9 -10 11 -12", Err("at bound 1 is wrong: refusal 26, clause 7: ")),
    ];
    for (values, expected) in cases {
        let lines = format!("echo 's SATISFIABLE'\necho 'v {} 0'\nexit 10", values);
        let outcome = with_solver("cadical", &lines, &["--up-to", "2"]);
        match expected {
            Ok(bytes) => {
                assert_eq!(outcome.status, 10, "{:?}", outcome);
                assert!(outcome.out.contains(&format!("\nstep bytes: {}\n(walked by proved code", bytes)), "{:?}", outcome);
            }
            Err(reason) => outcome.assert_stopped(4, &format!("the assignment of cadical {}", reason)),
        }
    }
}

#[test]
fn a_right_assignment_is_taken_from_any_program() {
    let outcome = with_cadical("echo 'c by hand'\necho 's SATISFIABLE'\necho 'v 1 -2'\necho 'v -3 -4 5 -6 7 0'\nexit 10");
    assert_eq!(outcome.status, 10, "{:?}", outcome);
    assert!(outcome.out.ends_with("step bytes: 2\n(walked by proved code)\n"));
}

#[test]
fn a_solver_that_denies_a_run_is_not_found_out() {
    for solver in ["cadical", "picosat"] {
        let word = format!("; longer runs were not looked at\n(the word of {}, which is not checked)\n", solver);
        let outcome = with_solver(solver, "echo 's UNSATISFIABLE'\nexit 20", &["--bound", "1"]);
        assert_eq!((outcome.status, outcome.out), (20, format!("no run of exactly 1 step, so none of fewer{}", word)));
        let outcome = with_solver(solver, "echo 's UNSATISFIABLE'\nexit 20", &[]);
        assert_eq!((outcome.status, outcome.out), (20, format!("no run of at most 64 steps{}", word)));
    }
}

/// It denies a run of 1 step, and then its run of 2 steps is in the target after 1.
#[test]
fn a_solver_that_contradicts_itself_is_found_out() {
    let lines = "case \"$first\" in\n'p cnf 7 16') echo 's UNSATISFIABLE'; exit 20;;\n\
                 *) echo 's SATISFIABLE'; echo 'v 1 -2 -3 -4 5 -6 7 8 -9 -10 -11 12 0'; exit 10;;\nesac";
    let folder = Folder::new();
    folder.script("picosat", &format!("read -r first\n{}\n{}", READ_ALL, lines));
    let outcome = with_path(&folder, &["check", &model("a.txt"), "--quiet"]);
    let message =
        "the solver picosat contradicts itself: it found no run of 1 step, and now one that is in the target after 1 step\n";
    outcome.assert_stopped(4, message);
}

#[test]
fn answers_that_do_not_agree_with_the_exit_status() {
    let satisfied = "echo 's SATISFIABLE'; echo 'v 1 -2 -3 -4 5 -6 7 0'";
    for (lines, status) in [(satisfied, 0), (satisfied, 20), ("echo 's UNSATISFIABLE'", 10)] {
        let outcome = with_cadical(&format!("{}\nexit {}", lines, status));
        let message = "its answer and its exit status differ";
        outcome.assert_stopped(3, &format!("the solver cadical gave no answer (exit status: {}): {}\n", status, message));
    }
}

/// A script in place of a solver, how it ends, and number, line and text of its output's refusal.
type Refused = (&'static str, &'static str, u8, usize, &'static str);

const ENDED: &str = "(the text ends before this line)";

const REFUSED: [Refused; 15] = [
    ("exit 0", "exit status: 0", 35, 1, ENDED),
    ("exit 10", "exit status: 10", 35, 1, ENDED),
    ("echo 'no memory' >&2\nexit 1", "exit status: 1, `no memory`", 35, 1, ENDED),
    ("kill -9 $$", "signal: 9 (SIGKILL)", 35, 1, ENDED),
    ("echo 's SATISFIABLE'\necho 'v 1 -2'\nexit 10", "exit status: 10", 35, 3, ENDED),
    ("echo 's SATISFIABLE'\necho 'v 1 0'\nexit 10", "exit status: 10", 35, 2, "v 1 0"),
    ("echo 's SATISFIABLE'\necho 'v 8 0'\nexit 10", "exit status: 10", 34, 2, "v 8 0"),
    ("echo 's SATISFIABLE'\necho 'v 1 -1 0'\nexit 10", "exit status: 10", 34, 2, "v 1 -1 0"),
    ("echo 's UNKNOWN'", "exit status: 0", 33, 1, "s UNKNOWN"),
    ("echo Segmentation\nexit 139", "exit status: 139", 33, 1, "Segmentation"),
    ("printf '\\377\\001\\n'", "exit status: 0", 33, 1, "\\xff\\x01"),
    ("echo 's UNSATISFIABLE'\necho 'v 0'\nexit 20", "exit status: 20", 33, 2, "v 0"),
    ("printf 's UNSATISFIABLE'\nexit 20", "exit status: 20", 33, 1, "s UNSATISFIABLE\n    the line has no LF at its end"),
    ("echo c\necho 's UNSATISFIABLE'\nexit 20", "exit status: 20", 33, 1, "c\n    a comment begins with `c` and a space"),
    (
        "printf 's UNSATISFIABLE\\r\\n'\nexit 20",
        "exit status: 20",
        33,
        1,
        "s UNSATISFIABLE\\r\n    the line ends with CR LF; lines end with LF alone",
    ),
];

#[test]
fn refused_outputs_are_told_with_number_sentence_and_line() {
    for solver in ["cadical", "picosat"] {
        for (lines, end, number, line, shown) in REFUSED {
            let outcome = with_solver(solver, lines, &["--bound", "1"]);
            let sentence = sentence(number).unwrap();
            let reason = format!("refusal {}, line {}: {}\n    {}\n", number, line, sentence, shown);
            outcome.assert_stopped(3, &format!("the solver {} gave no answer ({}): {}", solver, end, reason));
        }
    }
}

/// An ending without an answer has the refusal's number and line in JSON too, and an assignment that is refused the clause's.
#[test]
fn numbers_and_places_in_json() {
    for (lines, status, numbers) in [
        ("echo 's UNSATISFIABLE'\necho 'v 0'\nexit 20", 3, "\"number\": 33, \"place\": 2"),
        ("echo 's SATISFIABLE'\necho 'v 1 -2 3 -4 -5 6 -7 0'\nexit 10", 4, "\"number\": 26, \"place\": 15"),
        ("exec /bin/cat /dev/zero", 3, "\"number\": null, \"place\": null"),
    ] {
        let outcome = with_solver("cadical", lines, &["--bound", "1", "--json"]);
        assert_eq!(outcome.status, status, "{:?}", outcome);
        assert!(outcome.out.contains(numbers), "{:?}", outcome);
    }
}

/// cadical's own comments have a space; some of those of `picosat -v` have none.
#[test]
fn solvers_that_print_comments() {
    let path = model("a.txt");
    for bounds in [&["--bound", "1"][..], &[]] {
        let arguments = [&["check", &path, "--quiet"], bounds].concat();
        let folder = Folder::new();
        folder.script("cadical", &format!("exec '{}'", installed("cadical").display()));
        assert_eq!(with_path(&folder, &arguments).status, 10);
        let folder = Folder::new();
        folder.script("picosat", &format!("exec '{}' -v", installed("picosat").display()));
        let outcome = with_path(&folder, &arguments);
        outcome.assert_stopped(3, "the solver picosat gave no answer (exit status: 10): refusal 33, line ");
        assert!(outcome.err.ends_with("\n    c\n    a comment begins with `c` and a space\n"), "{:?}", outcome);
    }
}

/// A script in place of MiniSat and what is said of its result.
#[test]
fn wrong_results_of_minisat() {
    for (lines, status, message) in [
        ("exit 1", 3, "the solver minisat gave no answer (exit status: 1): there is no verdict\n"),
        ("echo SAT >\"$3\"; echo 1 >>\"$3\"; exit 10", 3, "the solver minisat gave no answer (exit status: 10): the closing 0"),
        ("echo INDET >\"$3\"; exit 0", 3, "the solver minisat gave no answer (exit status: 0): the verdict is `INDET`\n"),
        ("echo SAT; echo '1 0'; exit 10", 3, "the solver minisat gave no answer (exit status: 10): there is no verdict\n"),
        // a variable that it does not name counts as false; the competitions' form must name all
        ("printf 'SAT\\n1 0\\n' >\"$3\"; exit 10", 4, "the assignment of minisat at bound 1 is wrong: refusal 26, clause 3: "),
        (
            "printf 'SAT\\n1 -2 3 -4 -5 6 -7 0\\n' >\"$3\"; exit 10",
            4,
            "the assignment of minisat at bound 1 is wrong: refusal 26, clause 15: ",
        ),
    ] {
        with_solver("minisat", lines, &["--bound", "1"]).assert_stopped(status, message);
    }
}
