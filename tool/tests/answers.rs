//! The command's answers on models that are accepted, with each of the three solvers.

mod common;

use common::{model, model_text, wirdoku, wirdoku_with_input, Folder, SOLVERS};

const LOGGER_TRACE: &str = "\
a run of 3 steps reaches the target
step  choice   location  v0  x0  elapsed
   0  -               0   0   0        0
   1  edge 0          1   0   0        0
   2  delay 3         1   0   3        3
   3  edge 2          3   0   3        3
step bytes: 5 3 7
";

const LOGGER_PROGRESS: &str = "\
bound 0: 11 variables, 25 clauses, unsatisfiable
bound 1: 30 variables, 158 clauses, unsatisfiable
bound 2: 49 variables, 291 clauses, unsatisfiable
bound 3: 68 variables, 424 clauses, satisfiable
";

/// A clock that must show more than 3, so the ceiling is 4; then two rounds that count v0 up to 2.
const SLOW: &str = "locations=2\ninit=0\ntarget=1\nclocks=1\nvars=1\nvar=2,0\ninv=-\ninv=-\nedges=2\n\
                    from=0\nto=0\nlabel=0\nwhen=x0>3\nset=v0:=v0+1\nreset=x0\n\
                    from=0\nto=1\nlabel=0\nwhen=x0>3,v0=2\nset=-\nreset=-\n";

/// The target cannot be reached: its one edge needs a value that no edge sets.
const CLOSED: &str = "locations=2\ninit=0\ntarget=1\nclocks=0\nvars=1\nvar=3,0\ninv=-\ninv=-\nedges=1\n\
                      from=0\nto=1\nlabel=0\nwhen=v0>=1\nset=-\nreset=-\n";

#[test]
fn the_shortest_run_of_the_logger() {
    for solver in SOLVERS {
        let outcome = wirdoku(&["check", &model("logger_b.txt"), "--solver", solver]);
        assert_eq!(outcome.status, 10, "{:?}", outcome);
        assert_eq!(outcome.out, LOGGER_TRACE);
        assert_eq!(outcome.err, LOGGER_PROGRESS);
    }
}

#[test]
fn the_usual_solver_and_quiet() {
    let outcome = wirdoku(&["check", &model("logger_b.txt"), "--quiet"]);
    assert_eq!((outcome.status, outcome.out.as_str(), outcome.err.as_str()), (10, LOGGER_TRACE, ""));
}

#[test]
fn model_a_at_its_first_bounds() {
    let found = "a run of 1 step reaches the target\nstep  choice  location  elapsed\n   0  -              0        0\n\
                 \u{20}  1  edge 0         1        0\nstep bytes: 2\n";
    for solver in SOLVERS {
        let path = model("a.txt");
        for bounds in [&["--up-to", "1"][..], &["--bound", "1"], &[]] {
            let arguments = [&["check", &path, "--solver", solver, "--quiet"], bounds].concat();
            let outcome = wirdoku(&arguments);
            assert_eq!((outcome.status, outcome.out.as_str()), (10, found), "{:?}", outcome);
        }
        let outcome = wirdoku(&["check", &path, "--solver", solver, "--bound", "0"]);
        let expected = format!("no run of exactly 0 steps\n(the word of {}, which is not checked)\n", solver);
        assert_eq!((outcome.status, outcome.out), (20, expected));
        assert_eq!(outcome.err, "bound 0: 2 variables, 4 clauses, unsatisfiable\n");
    }
}

#[test]
fn no_run_within_the_bounds() {
    let folder = Folder::new();
    let closed = folder.file("closed.txt", CLOSED.as_bytes());
    for solver in SOLVERS {
        let word = format!("(the word of {}, which is not checked)\n", solver);
        let outcome = wirdoku(&["check", &model("logger_b.txt"), "--up-to", "2", "--solver", solver]);
        assert_eq!((outcome.status, outcome.out), (20, format!("no run up to 2 steps\n{}", word)));
        let outcome = wirdoku(&["check", &closed, "--solver", solver]);
        assert_eq!((outcome.status, outcome.out), (20, format!("no run up to 64 steps\n{}", word)));
        assert_eq!(outcome.err.lines().count(), 65);
        assert!(outcome.err.lines().all(|line| line.ends_with("unsatisfiable")), "{}", outcome.err);
        let outcome = wirdoku(&["check", &closed, "--bound", "64", "--solver", solver, "--quiet"]);
        assert_eq!((outcome.status, outcome.out), (20, format!("no run of exactly 64 steps\n{}", word)));
    }
}

#[test]
fn a_clock_at_the_ceiling_and_the_ticks_that_passed() {
    let folder = Folder::new();
    let slow = folder.file("slow.txt", SLOW.as_bytes());
    let expected = "\
a run of 6 steps reaches the target
step  choice   location  v0  x0  elapsed
   0  -               0   0   0        0
   1  delay 4         0   0  4+        4
   2  edge 0          0   1   0        4
   3  delay 4         0   1  4+        8
   4  edge 0          0   2   0        8
   5  delay 4         0   2  4+       12
   6  edge 1          1   2  4+       12
step bytes: 4 5 4 5 4 6
";
    for solver in SOLVERS {
        let outcome = wirdoku(&["check", &slow, "--solver", solver, "--quiet"]);
        assert_eq!((outcome.status, outcome.out.as_str()), (10, expected), "{:?}", outcome);
    }
}

/// The second counter gets the raised first one: updates happen in their written order.
#[test]
fn the_checkpoint_of_the_raised_counter() {
    let expected = "\
this run of 7 steps reaches the target
step  choice   location  v0  v1  v2  x0  elapsed
   0  -               0   0   0   0   0        0
   1  delay 1         0   0   0   0   1        1
   2  edge 0          1   1   1   0   0        1
   3  delay 3         1   1   1   0   3        4
   4  edge 2          2   1   1   0   3        4
   5  edge 3          3   1   1   1   3        4
   6  edge 4          3   0   1   0   3        4
   7  edge 5          4   0   1   0   3        4
step bytes: 1 5 3 7 8 9 10
";
    check_run("boot_logger_checkpoint.txt", &["1", "5", "3", "7", "8", "9", "10"], expected);
}

/// The second clock gets the value of the first from before its reset, and goes on from there.
#[test]
fn the_saved_stopwatch_goes_on() {
    let expected = "\
this run of 5 steps reaches the target
step  choice   location  x0  x1  x2  elapsed
   0  -               0   0   0   0        0
   1  edge 0          1   0   0   0        0
   2  delay 3         1   3   3   3        3
   3  edge 2          2   0   3   3        3
   4  delay 3         2   3   6   6        6
   5  edge 3          4   3   6   6        6
step bytes: 8 3 10 3 11
";
    check_run("retry_saved.txt", &["8", "3", "10", "3", "11"], expected);
}

/// Labels other than 0 stand beside their edges. What solvers are given is the list of the text without them.
#[test]
fn labels_stand_beside_their_edges() {
    let expected = "\
a run of 3 steps reaches the target
step  choice            location  v0  x0  elapsed
   0  -                        0   0   0        0
   1  edge 0, label 15         1   0   0        0
   2  delay 3                  1   0   3        3
   3  edge 2, label 2          3   0   3        3
step bytes: 5 3 7
";
    let text = model_text("logger_b.txt").replace("to=1\nlabel=0", "to=1\nlabel=15").replace("to=3\nlabel=0", "to=3\nlabel=2");
    for solver in SOLVERS {
        let outcome = wirdoku_with_input(&["check", "-", "--solver", solver], text.as_bytes());
        assert_eq!(
            (outcome.status, outcome.out.as_str(), outcome.err.as_str()),
            (10, expected, LOGGER_PROGRESS),
            "{:?}",
            outcome
        );
    }
}

/// The labels of the shipped model, beside edges that are private.
#[test]
fn kicks_and_a_watchdog_that_fires() {
    let expected = "\
step  choice           location  v0  v1  x0  x1  elapsed
   0  -                       1   0   0   0   0        0
   1  delay 1                 1   0   0   1   1        1
   2  edge 1, label 1         2   1   0   0   0        1
   3  delay 3                 2   1   0   3   3        4
   4  edge 2                  0   1   1   3   0        4
   5  delay 4                 0   1   1   7   4        8
   6  edge 0                  1   1   1   7   0        8
   7  delay 1                 1   1   1   8   1        9
   8  edge 5, label 2         5   1   1   8   1        9
   9  edge 7, label 3         1   0   0   0   0        9
step bytes: 1 11 3 12 4 10 1 15 17
";
    let path = model("boot_logger_kicked.txt");
    let outcome = wirdoku(&["walk", &path, "1", "11", "3", "12", "4", "10", "1", "15", "17"]);
    let (verdict, table) = outcome.out.split_once('\n').unwrap();
    assert!(verdict.starts_with("no run into the target: refusal 30: "), "{}", verdict);
    assert_eq!((outcome.status, table), (20, expected));
}

/// The run is walked to this table, and solvers find a run of that length and no shorter one.
fn check_run(name: &str, run: &[&str], expected: &str) {
    let path = model(name);
    let outcome = wirdoku(&[&["walk", &path[..]][..], run].concat());
    assert_eq!((outcome.status, outcome.out.as_str()), (10, expected), "{:?}", outcome);
    for solver in SOLVERS {
        for (bound, status) in [(run.len() - 1, 20), (run.len(), 10)] {
            let outcome = wirdoku(&["check", &path, "--bound", &bound.to_string(), "--solver", solver, "--quiet"]);
            assert_eq!(outcome.status, status, "{:?}", outcome);
        }
    }
}

#[test]
fn a_run_of_no_steps() {
    let text = model_text("a.txt").replace("init=0", "init=1");
    let outcome = wirdoku_with_input(&["check", "-"], text.as_bytes());
    assert_eq!(outcome.status, 10, "{:?}", outcome);
    let table = "step  choice  location  elapsed\n   0  -              1        0\nstep bytes:\n";
    assert_eq!(outcome.out, format!("a run of 0 steps reaches the target\n{}", table));
}

#[test]
fn a_found_run_is_taken_by_walk() {
    for name in ["a.txt", "logger_b.txt"] {
        for solver in SOLVERS {
            for bound in ["3", "5", "17", "64"] {
                let outcome = wirdoku(&["check", &model(name), "--bound", bound, "--solver", solver, "--quiet"]);
                assert_eq!(outcome.status, 10, "{:?}", outcome);
                let (first, rest) = outcome.out.split_once('\n').unwrap();
                assert_eq!(first, format!("a run of {} steps reaches the target", bound));
                let bytes = rest.lines().last().unwrap().strip_prefix("step bytes:").unwrap();
                let path = model(name);
                let mut arguments = vec!["walk", &path];
                arguments.extend(bytes.split_whitespace());
                let walked = wirdoku(&arguments);
                assert_eq!(walked.status, 10, "{:?}", walked);
                let first = format!("this run of {} steps reaches the target\n", bound);
                assert_eq!(walked.out, first + rest);
            }
        }
    }
}

#[test]
fn walks_that_miss_the_target() {
    let cases = [
        (&["5", "4", "7"][..], "refusal 28, step 2: ", 2),
        (&["5", "3"], "refusal 30: ", 3),
        (&["5", "3", "8"], "refusal 27, step 3: ", 3),
        (&[], "refusal 30: ", 1),
        (&["255"], "refusal 27, step 1: ", 1),
    ];
    for (steps, refusal, rows) in cases {
        let path = model("logger_b.txt");
        let outcome = wirdoku(&[&["walk", &path], steps].concat());
        assert_eq!((outcome.status, outcome.err.as_str()), (20, ""), "{:?}", outcome);
        assert!(outcome.out.starts_with(&format!("no run into the target: {}", refusal)), "{:?}", outcome);
        // the verdict, the headings, a row for each state that is reached, the bytes
        assert_eq!(outcome.out.lines().count(), rows + 3, "{:?}", outcome);
    }
}

#[test]
fn an_initial_state_that_breaks_its_invariant() {
    let text = model_text("a.txt").replace("clocks=0", "clocks=1").replacen("inv=-", "inv=x0>=1", 1);
    let outcome = wirdoku_with_input(&["walk", "-"], text.as_bytes());
    assert_eq!(outcome.status, 20);
    assert!(outcome.out.starts_with("no run into the target: refusal 29: "), "{:?}", outcome);
    assert_eq!(outcome.out.lines().count(), 1);
    let outcome = wirdoku_with_input(&["check", "-", "--quiet"], text.as_bytes());
    assert_eq!((outcome.status, outcome.out.lines().next()), (20, Some("no run up to 64 steps")));
}

#[test]
fn a_long_delay_goes_on_counting_ticks() {
    let outcome = wirdoku(&["walk", &model("logger_b.txt"), "4", "4", "1"]);
    let rows: Vec<&str> = outcome.out.lines().skip(2).take(4).collect();
    let expected = [
        "   0  -               0   0   0        0",
        "   1  delay 4         0   0  4+        4",
        "   2  delay 4         0   0  4+        8",
        "   3  delay 1         0   0  4+        9",
    ];
    assert_eq!(rows, expected);
}

#[test]
fn sizes() {
    let outcome = wirdoku(&["size", &model("logger_b.txt"), "--bound", "3"]);
    let expected = "variables=68\nclauses=424\nwords=1516\nceiling=4\nstate=11\nchoices=8\n";
    assert_eq!((outcome.status, outcome.out.as_str(), outcome.err.as_str()), (0, expected, ""));
    let outcome = wirdoku(&["size", &model("a.txt"), "--bound", "2"]);
    assert!(outcome.out.starts_with("variables=12\nclauses=28\nwords=92\n"), "{:?}", outcome);
    let outcome = wirdoku(&["size", &model("a.txt"), "--bound", "64"]);
    assert_eq!(outcome.status, 0);
}

#[test]
fn the_list_in_dimacs_form() {
    let outcome = wirdoku(&["dimacs", &model("a.txt"), "--bound", "1"]);
    let expected = "p cnf 7 16\n1 2 0\n-1 -2 0\n1 0\n3 4 5 0\n-3 -4 0\n-3 -5 0\n-4 -5 0\n-3 -1 6 0\n-3 -2 7 0\n\
                    -4 -1 6 0\n-4 -2 7 0\n-5 1 0\n-5 7 0\n6 7 0\n-6 -7 0\n7 0\n";
    assert_eq!((outcome.status, outcome.out.as_str(), outcome.err.as_str()), (0, expected, ""));
    let outcome = wirdoku(&["dimacs", &model("logger_b.txt"), "--bound", "3"]);
    assert!(outcome.out.len() == 4_824 && outcome.out.starts_with("p cnf 68 424\n"));
    assert_eq!(outcome.out.lines().count(), 425);
    assert_eq!(outcome.out.split_whitespace().count(), 4 + 1516);
}

#[test]
fn help_says_what_is_proved() {
    for arguments in [&["--help"][..], &["help"], &["-h"], &["check", "--help"]] {
        let outcome = wirdoku(arguments);
        assert_eq!((outcome.status, outcome.err.as_str()), (0, ""));
        for part in [
            "With SECOND, another such file, the two models are composed",
            "usage:",
            "exit status:",
            "What is proved:",
            "What is not proved: the solver",
            "taken at its word",
        ] {
            assert!(outcome.out.contains(part), "{}", part);
        }
        assert!(outcome.out.lines().all(|line| line.len() <= 110));
    }
    let outcome = wirdoku(&["--version"]);
    assert_eq!((outcome.status, outcome.out.as_str()), (0, "wirdoku 0.1.0\n"));
}
