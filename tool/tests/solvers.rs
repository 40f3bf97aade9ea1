//! What solvers read; solvers that are missing, fail or lie.

mod common;

use std::fs;
use std::os::unix::fs::symlink;

use common::{command, installed, model, model_text, outcome, wirdoku, Folder, Outcome, SOLVERS};
use wirdoku::explain::sentence;
use wirdoku::library;

/// Reads the list to its end without any other program, as a solver does.
const READ_ALL: &str = "while read -r line; do :; done";

/// Runs the command with a PATH of one folder.
fn with_path(folder: &Folder, arguments: &[&str]) -> Outcome {
    outcome(command(arguments).env("PATH", folder.path()))
}

/// Checks model A at bound 1 with a script in place of cadical.
fn with_cadical(lines: &str) -> Outcome {
    let folder = Folder::new();
    folder.script("cadical", &format!("{}\n{}", READ_ALL, lines));
    with_path(&folder, &["check", &model("a.txt"), "--bound", "1", "--quiet"])
}

#[test]
fn no_solver_at_all() {
    let folder = Folder::new();
    let path = model("a.txt");
    let message = "no solver is on the path: install one of Debian's packages cadical, minisat, picosat\n";
    with_path(&folder, &["check", &path]).assert_stopped(3, message);
    outcome(command(&["check", &path]).env("PATH", "")).assert_stopped(3, message);
    outcome(command(&["check", &path]).env_remove("PATH")).assert_stopped(3, message);
    for solver in SOLVERS {
        let message = format!("the solver {0} is not on the path (Debian's package {0})\n", solver);
        with_path(&folder, &["check", &path, "--solver", solver]).assert_stopped(3, &message);
    }
}

/// What a solver reads is the library's file, byte for byte, and so is what `dimacs` writes.
#[test]
fn solvers_read_the_librarys_bytes() {
    let path = model("logger_b.txt");
    let mut file = vec![0; 124_483];
    assert_eq!(library::dimacs(model_text("logger_b.txt").as_bytes(), 64, &mut file).number, 0);
    assert_eq!(wirdoku(&["dimacs", &path, "--bound", "64"]).out.into_bytes(), file);
    for solver in SOLVERS {
        let folder = Folder::new();
        let copy = folder.path().join("copy");
        folder.script(solver, &format!("/bin/cat >'{}'\nexit 1", copy.display()));
        let outcome = with_path(&folder, &["check", &path, "--bound", "64", "--quiet"]);
        outcome.assert_stopped(3, &format!("the solver {} gave no answer (exit status: 1): ", solver));
        assert_eq!(fs::read(&copy).unwrap(), file, "{}", solver);
    }
}

#[test]
fn the_model_is_tested_before_the_solver() {
    let folder = Folder::new();
    let path = folder.file("model.txt", b"locations=17\n");
    with_path(&folder, &["check", &path]).assert_stopped(2, &format!("{}: refusal 4, line 1: ", path));
}

#[test]
fn the_first_that_is_installed_is_run() {
    for expected in [2, 1, 0] {
        let folder = Folder::new();
        for solver in &SOLVERS[expected..] {
            symlink(installed(solver), folder.path().join(solver)).unwrap();
        }
        let outcome = with_path(&folder, &["check", &model("a.txt"), "--bound", "0", "--quiet"]);
        assert_eq!(outcome.status, 20, "{:?}", outcome);
        assert!(outcome.out.contains(&format!("(the word of {}, ", SOLVERS[expected])), "{:?}", outcome);
    }
}

#[test]
fn a_program_in_the_current_folder_is_not_run() {
    let folder = Folder::new();
    folder.script("cadical", "echo 's UNSATISFIABLE'\nexit 20");
    for path in ["", ".", ":"] {
        let mut command = command(&["check", &model("a.txt")]);
        command.current_dir(folder.path()).env("PATH", path);
        outcome(&mut command).assert_stopped(3, "no solver is on the path");
    }
}

#[test]
fn a_wrong_assignment_is_refused_with_its_clause() {
    let cases = [
        // one delay instead of the edge: the last clause, the target, is false
        ("v 1 -2 3 -4 -5 6 -7 0", 15, "7"),
        ("v -1 -2 -3 -4 -5 -6 -7 0", 0, "1 2"),
        ("v 1 2 3 4 5 6 7 0", 1, "-1 -2"),
    ];
    for (line, clause, literals) in cases {
        let outcome = with_cadical(&format!("echo 's SATISFIABLE'\necho '{}'\nexit 10", line));
        let message = format!(
            "the assignment of cadical at bound 1 is wrong: refusal 26, clause {}: a clause is false under \
             the assignment\n    {}\n",
            clause, literals
        );
        outcome.assert_stopped(4, &message);
    }
}

#[test]
fn a_right_assignment_is_taken_from_any_program() {
    let outcome = with_cadical("echo 'c by hand'\necho 's SATISFIABLE'\necho 'v 1 -2'\necho 'v -3 -4 5 -6 7 0'\nexit 10");
    assert_eq!(outcome.status, 10, "{:?}", outcome);
    assert!(outcome.out.ends_with("step bytes: 2\n"));
}

#[test]
fn a_solver_that_denies_a_run_is_not_found_out() {
    let outcome = with_cadical("echo 's UNSATISFIABLE'\nexit 20");
    assert_eq!(outcome.status, 20);
    assert_eq!(outcome.out, "no run of exactly 1 step\n(the word of cadical, which is not checked)\n");
}

#[test]
fn answers_that_do_not_agree_with_the_exit_status() {
    let satisfied = "echo 's SATISFIABLE'; echo 'v 1 -2 -3 -4 5 -6 7 0'";
    for (lines, status) in [(satisfied, 0), (satisfied, 20), ("echo 's UNSATISFIABLE'", 10)] {
        let outcome = with_cadical(&format!("{}\nexit {}", lines, status));
        let message = "its answer and its exit status differ";
        outcome.assert_stopped(3, &format!("the solver cadical gave no answer (exit status: {}): {}\n", status, message));
    }
}

/// A script in place of a solver, how it ends, and number, line and text of its output's refusal.
type Refused = (&'static str, &'static str, u8, usize, &'static str);

const ENDED: &str = "(the text ends before this line)";

const REFUSED: [Refused; 15] = [
    ("exit 0", "exit status: 0", 35, 1, ENDED),
    ("exit 10", "exit status: 10", 35, 1, ENDED),
    ("echo 'no memory' >&2\nexit 1", "exit status: 1, `no memory`", 35, 1, ENDED),
    ("kill -9 $$", "signal: 9 (SIGKILL)", 35, 1, ENDED),
    ("echo 's SATISFIABLE'\necho 'v 1 -2'\nexit 10", "exit status: 10", 35, 3, ENDED),
    ("echo 's SATISFIABLE'\necho 'v 1 0'\nexit 10", "exit status: 10", 35, 2, "v 1 0"),
    ("echo 's SATISFIABLE'\necho 'v 8 0'\nexit 10", "exit status: 10", 34, 2, "v 8 0"),
    ("echo 's SATISFIABLE'\necho 'v 1 -1 0'\nexit 10", "exit status: 10", 34, 2, "v 1 -1 0"),
    ("echo 's UNKNOWN'", "exit status: 0", 33, 1, "s UNKNOWN"),
    ("echo Segmentation\nexit 139", "exit status: 139", 33, 1, "Segmentation"),
    ("printf '\\377\\001\\n'", "exit status: 0", 33, 1, "\\xff\\x01"),
    ("echo 's UNSATISFIABLE'\necho 'v 0'\nexit 20", "exit status: 20", 33, 2, "v 0"),
    ("printf 's UNSATISFIABLE'\nexit 20", "exit status: 20", 33, 1, "s UNSATISFIABLE\n    the line has no LF at its end"),
    ("echo c\necho 's UNSATISFIABLE'\nexit 20", "exit status: 20", 33, 1, "c\n    a comment begins with `c` and a space"),
    (
        "printf 's UNSATISFIABLE\\r\\n'\nexit 20",
        "exit status: 20",
        33,
        1,
        "s UNSATISFIABLE\\r\n    the line ends with CR LF; lines end with LF alone",
    ),
];

#[test]
fn refused_outputs_are_told_with_number_sentence_and_line() {
    for solver in ["cadical", "picosat"] {
        for (lines, end, number, line, shown) in REFUSED {
            let folder = Folder::new();
            folder.script(solver, &format!("{}\n{}", READ_ALL, lines));
            let outcome = with_path(&folder, &["check", &model("a.txt"), "--bound", "1", "--quiet"]);
            let sentence = sentence(number).unwrap();
            let reason = format!("refusal {}, line {}: {}\n    {}\n", number, line, sentence, shown);
            outcome.assert_stopped(3, &format!("the solver {} gave no answer ({}): {}", solver, end, reason));
        }
    }
}

/// cadical's own comments, which `-q` keeps away, have a space; some of those of `picosat -v` have none.
#[test]
fn solvers_that_print_comments() {
    let arguments = ["check", &model("a.txt"), "--bound", "1", "--quiet"];
    let folder = Folder::new();
    folder.script("cadical", &format!("exec '{}'", installed("cadical").display()));
    assert_eq!(with_path(&folder, &arguments).status, 10);
    let folder = Folder::new();
    folder.script("picosat", &format!("exec '{}' -v", installed("picosat").display()));
    let outcome = with_path(&folder, &arguments);
    outcome.assert_stopped(3, "the solver picosat gave no answer (exit status: 10): refusal 33, line ");
    assert!(outcome.err.ends_with("\n    c\n    a comment begins with `c` and a space\n"), "{:?}", outcome);
}

#[test]
fn a_solver_that_reads_nothing_or_cannot_be_run() {
    let folder = Folder::new();
    let arguments = ["check", &model("logger_b.txt"), "--bound", "64", "--quiet"];
    folder.script("cadical", "echo 's UNSATISFIABLE'\nexit 20");
    assert_eq!(with_path(&folder, &arguments).status, 20);
    folder.script(
        "cadical",
        "i=0\nwhile [ $i -lt 30000 ]; do echo 'c nothing to see'; i=$((i+1)); done\necho 's UNSATISFIABLE'\nexit 20",
    );
    assert_eq!(with_path(&folder, &arguments).status, 20);
    let folder = Folder::new();
    symlink("/dev/null", folder.path().join("cadical")).unwrap();
    with_path(&folder, &arguments).assert_stopped(3, "no solver is on the path");
    let folder = Folder::new();
    folder.program("cadical", "#!/nowhere\n");
    with_path(&folder, &arguments).assert_stopped(3, "the solver cadical could not be run: ");
}

#[test]
fn nothing_is_left_in_the_temporary_folder() {
    let path = model("logger_b.txt");
    let temporary = Folder::new();
    for solver in SOLVERS {
        let outcome = outcome(command(&["check", &path, "--solver", solver]).env("TMPDIR", temporary.path()));
        assert_eq!(outcome.status, 10, "{:?}", outcome);
        assert_eq!(temporary.names(), Vec::<String>::new());
    }
    let scripts = [
        ("exit 1", "(exit status: 1): there is no verdict"),
        ("echo SAT >\"$3\"; echo 1 >>\"$3\"; exit 10", "(exit status: 10): the closing 0 is missing"),
        ("echo INDET >\"$3\"; exit 0", "(exit status: 0): the verdict is `INDET`"),
    ];
    for (lines, reason) in scripts {
        let folder = Folder::new();
        folder.script("minisat", &format!("{}\n{}", READ_ALL, lines));
        let mut command = command(&["check", &path]);
        command.env("PATH", folder.path()).env("TMPDIR", temporary.path());
        outcome(&mut command).assert_stopped(3, &format!("the solver minisat gave no answer {}\n", reason));
        assert_eq!(temporary.names(), Vec::<String>::new());
    }
}

#[test]
fn a_temporary_folder_that_is_missing() {
    let mut command = command(&["check", &model("a.txt"), "--solver", "minisat"]);
    let folder = Folder::new();
    command.env("TMPDIR", folder.path().join("missing"));
    outcome(&mut command).assert_stopped(3, "the solver minisat could not be run: ");
}

/// A variable that MiniSat does not name counts as false; the competitions' form must name all.
#[test]
fn minisats_own_file_may_leave_variables_out() {
    let folder = Folder::new();
    folder.script("minisat", &format!("{}\nprintf 'SAT\\n1 0\\n' >\"$3\"\nexit 10", READ_ALL));
    let outcome = with_path(&folder, &["check", &model("a.txt"), "--bound", "1", "--quiet"]);
    outcome.assert_stopped(4, "the assignment of minisat at bound 1 is wrong: refusal 26, clause 3: ");
    assert!(outcome.err.ends_with("\n    3 4 5\n"), "{:?}", outcome);
}

#[test]
fn a_lying_minisat_is_found_out_too() {
    let folder = Folder::new();
    folder.script("minisat", &format!("{}\nprintf 'SAT\\n1 -2 3 -4 -5 6 -7 0\\n' >\"$3\"\nexit 10", READ_ALL));
    let outcome = with_path(&folder, &["check", &model("a.txt"), "--bound", "1", "--quiet"]);
    outcome.assert_stopped(4, "the assignment of minisat at bound 1 is wrong: refusal 26, clause 15: ");
}
