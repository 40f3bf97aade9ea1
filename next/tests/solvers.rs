//! Which solver is run, by name, by path or with arguments, and what it reads.

mod common;

use std::fs;
use std::os::unix::fs::symlink;

use common::{command, installed, model, model_text, outcome, wirdoku, with_path, Folder, READ_ALL, SOLVERS};
use wirdoku_next::cubes;
use wirdoku_next::library;

#[test]
fn no_solver_at_all() {
    let folder = Folder::new();
    let path = model("a.txt");
    let message = "no solver is on the path: install one of Debian's packages cadical, minisat, picosat\n";
    with_path(&folder, &["check", &path]).assert_stopped(3, message);
    outcome(command(&["check", &path]).env("PATH", "")).assert_stopped(3, message);
    outcome(command(&["check", &path]).env_remove("PATH")).assert_stopped(3, message);
    for solver in SOLVERS {
        let message = format!("the solver {0} is not on the path (Debian's package {0})\n", solver);
        with_path(&folder, &["check", &path, "--solver", solver, "--quiet"]).assert_stopped(3, &message);
        with_path(&folder, &["check", &path, "--solver", solver, "--bound", "3"]).assert_stopped(3, &message);
    }
}

/// The library's file for a bound.
fn written(text: &str, bound: usize) -> Vec<u8> {
    let mut file = vec![0; library::dimacs(text.as_bytes(), bound, &mut []).bytes];
    assert_eq!(library::dimacs(text.as_bytes(), bound, &mut file).number, 0);
    file
}

/// What a solver reads is the library's file, byte for byte, and so is what `dimacs` writes.
#[test]
fn solvers_read_the_librarys_bytes() {
    let path = model("logger_b.txt");
    let file = written(&model_text("logger_b.txt"), 64);
    assert_eq!(wirdoku(&["dimacs", &path, "--bound", "64"]).out.into_bytes(), file);
    let folder = Folder::new();
    let copy = folder.path().join("copy");
    let copies = format!("/bin/cat >'{}'\nexit 1", copy.display());
    let other = folder.script("another solver", &copies);
    for solver in SOLVERS {
        folder.script(solver, &copies);
    }
    for solver in SOLVERS.into_iter().chain([&other[..], "cadical --plain"]) {
        let outcome = with_path(&folder, &["check", &path, "--bound", "64", "--quiet", "--solver", solver]);
        outcome.assert_stopped(3, &format!("the solver {} gave no answer (exit status: 1): ", solver));
        assert_eq!(fs::read(&copy).unwrap(), file, "{}", solver);
        fs::remove_file(&copy).unwrap();
    }
}

/// In a search cadical reads all bounds at once, and any other solver the list for one step first.
#[test]
fn what_is_read_in_a_search() {
    let path = model("logger_b.txt");
    let text = model_text("logger_b.txt");
    let folder = Folder::new();
    let copy = folder.path().join("copy");
    for solver in SOLVERS {
        folder.script(solver, &format!("/bin/cat >'{}'\necho \"$@\" >&2\nexit 1", copy.display()));
    }
    for solver in ["cadical", "minisat", "picosat", "cadical --plain"] {
        let outcome = with_path(&folder, &["check", &path, "--up-to", "9", "--quiet", "--solver", solver]);
        let (expected, arguments) = match solver {
            "cadical" => (cubes::file(&library::shape(text.as_bytes()), 9, &written(&text, 9)), ""),
            "minisat" => (written(&text, 1), "-verb=0 /dev/stdin /dev/fd/3"),
            "picosat" => (written(&text, 1), ""),
            _ => (written(&text, 1), "--plain"),
        };
        assert_eq!(fs::read(&copy).unwrap(), expected, "{}", solver);
        outcome.assert_stopped(3, &format!("the solver {} gave no answer (exit status: 1, `{}`): ", solver, arguments));
        let advice =
            "\n    all bounds were given to it in one file (p inccnf); --solver 'cadical -q' gives it a list at a time\n";
        assert_eq!(outcome.err.ends_with(advice), solver == "cadical", "{:?}", outcome);
    }
}

#[test]
fn the_model_is_tested_before_the_solver() {
    let folder = Folder::new();
    let path = folder.file("model.txt", b"locations=17\n");
    with_path(&folder, &["check", &path]).assert_stopped(2, &format!("{}: refusal 4, line 1: ", path));
}

#[test]
fn the_first_that_is_installed_is_run() {
    for expected in [2, 1, 0] {
        let folder = Folder::new();
        for solver in &SOLVERS[expected..] {
            symlink(installed(solver), folder.path().join(solver)).unwrap();
        }
        let outcome = with_path(&folder, &["check", &model("a.txt"), "--bound", "0", "--quiet"]);
        assert_eq!(outcome.status, 20, "{:?}", outcome);
        assert!(outcome.out.contains(&format!("(the word of {}, ", SOLVERS[expected])), "{:?}", outcome);
    }
}

#[test]
fn a_program_in_the_current_folder_is_not_run() {
    let folder = Folder::new();
    folder.script("cadical", "echo 's UNSATISFIABLE'\nexit 20");
    folder.script("kissat", "echo 's UNSATISFIABLE'\nexit 20");
    for path in ["", ".", ":"] {
        let here = |arguments: &[&str]| {
            let asked = model("a.txt");
            let arguments = [&["check", &asked, "--bound", "1", "--quiet"], arguments].concat();
            outcome(command(&arguments).current_dir(folder.path()).env("PATH", path))
        };
        here(&[]).assert_stopped(3, "no solver is on the path");
        here(&["--solver", "kissat"]).assert_stopped(1, "`kissat` is none of cadical, minisat, picosat, and no program");
        // but a slash says which one is meant
        assert_eq!(here(&["--solver", "./kissat"]).status, 20);
    }
}

/// A solver that is named by a path, with spaces in it or arguments after it, or that is on the path.
#[test]
fn other_programs() {
    let folder = Folder::new();
    let answer = format!("{}\ntest \"$*\" = \"$EXPECTED\" || exit 1\necho 's UNSATISFIABLE'\nexit 20", READ_ALL);
    let plain = folder.script("kissat", &answer);
    let spaced = folder.script("kis sat", &answer);
    for (solver, arguments) in [
        (plain.clone(), ""),
        (spaced.clone(), ""),
        (format!("{} -q --time=9", plain), "-q --time=9"),
        ("kissat".to_string(), ""),
        ("kissat -q".to_string(), "-q"),
    ] {
        let mut command = command(&["check", &model("a.txt"), "--up-to", "5", "--quiet", "--solver", &solver]);
        let outcome = outcome(command.env("PATH", folder.path()).env("EXPECTED", arguments));
        let word = format!("(the word of {}, which is not checked)\n", solver);
        assert!(outcome.status == 20 && outcome.out.ends_with(&word), "{:?}", outcome);
    }
    for solver in [format!("{} -q", spaced), folder.path().to_str().unwrap().to_string(), "cad".to_string(), "".to_string()] {
        let outcome = with_path(&folder, &["check", &model("a.txt"), "--solver", &solver]);
        outcome.assert_stopped(1, &format!("`{}` is none of cadical, minisat, picosat, and ", solver));
    }
}

#[test]
fn a_solver_that_reads_nothing_or_cannot_be_run() {
    let folder = Folder::new();
    let arguments = ["check", &model("logger_b.txt"), "--bound", "64", "--quiet"];
    folder.script("cadical", "echo 's UNSATISFIABLE'\nexit 20");
    assert_eq!(with_path(&folder, &arguments).status, 20);
    folder.script("cadical", "exec <&-\necho 's UNSATISFIABLE'\nexit 20");
    assert_eq!(with_path(&folder, &arguments).status, 20);
    folder.script(
        "cadical",
        "i=0\nwhile [ $i -lt 30000 ]; do echo 'c nothing to see'; i=$((i+1)); done\necho 's UNSATISFIABLE'\nexit 20",
    );
    assert_eq!(with_path(&folder, &arguments).status, 20);
    let folder = Folder::new();
    symlink("/dev/null", folder.path().join("cadical")).unwrap();
    with_path(&folder, &arguments).assert_stopped(3, "no solver is on the path");
    let folder = Folder::new();
    folder.program("cadical", "#!/nowhere\n");
    with_path(&folder, &arguments).assert_stopped(3, "the solver cadical could not be run: ");
}

/// No solver needs a file: not even a folder for one.
#[test]
fn a_temporary_folder_is_not_needed() {
    let folder = Folder::new();
    for solver in SOLVERS {
        let mut command = command(&["check", &model("a.txt"), "--solver", solver]);
        command.env("TMPDIR", folder.path().join("missing"));
        assert_eq!(outcome(&mut command).status, 10);
        let mut command = common::command(&["check", &model("logger_b.txt"), "--solver", solver]);
        assert_eq!(outcome(command.env("TMPDIR", folder.path())).status, 10);
        assert_eq!(folder.names(), Vec::<String>::new());
    }
}
