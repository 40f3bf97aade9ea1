//! The command on two models: answers with each solver, the trace of both, refusals of either text and of both together.

mod common;

use common::{command, model, model_text, outcome, wirdoku, wirdoku_with_input, Folder, Outcome, SOLVERS};

/// The commands on a page of models/ and what it shows after each.
fn examples(page: &str) -> Vec<(String, String)> {
    let text = model_text(page);
    let blocks = text.split("```console\n").skip(1).filter_map(|rest| rest.split("```").next());
    let commands = blocks.flat_map(|block| block.split("$ ").skip(1));
    commands.filter_map(|part| part.split_once('\n')).map(|(line, shown)| (line.to_string(), shown.to_string())).collect()
}

/// Runs a command line at the top of the repository.
fn at_the_top(line: &str) -> Outcome {
    let words: Vec<&str> = line.split_whitespace().collect();
    assert_eq!(words[0], "wirdoku");
    outcome(command(&words[1..]).current_dir(concat!(env!("CARGO_MANIFEST_DIR"), "/..")))
}

/// What the page on the logger and the watchdog shows is what the command prints; the run is the only one of its length, so that every solver
/// finds it.
#[test]
fn the_page_on_the_logger_and_the_watchdog() {
    let examples = examples("logger_and_watchdog.md");
    assert_eq!(examples.len(), 2);
    for (line, shown) in &examples {
        let found = at_the_top(line);
        assert_eq!((&found.out, found.err.as_str()), (shown, ""), "{}", line);
    }
    assert!(
        examples[0].1.starts_with("a run of 6 steps reaches the target\n") && examples[1].1.starts_with("no run of exactly 64")
    );
    for solver in SOLVERS {
        let found = at_the_top(&format!("{} --solver {}", examples[0].0, solver));
        assert_eq!((found.status, found.out), (10, examples[0].1.clone()), "{}", solver);
    }
}

#[test]
fn bounds_and_progress_of_a_pair() {
    let (first, second) = (model("logger.txt"), model("watchdog.txt"));
    for solver in SOLVERS {
        let found = wirdoku(&["check", &first, &second, "--up-to", "5", "--solver", solver]);
        let word = format!("no run up to 5 steps\n(the word of {}, which is not checked)\n", solver);
        assert_eq!((found.status, found.out), (20, word));
        assert_eq!(found.err.lines().count(), 6);
        assert!(found.err.starts_with("bound 0: 40 variables, 254 clauses, unsatisfiable\n"), "{}", found.err);
        let found = wirdoku(&["check", &first, &second, "--bound", "6", "--solver", solver]);
        assert_eq!((found.status, found.err.as_str()), (10, "bound 6: 418 variables, 7574 clauses, satisfiable\n"));
    }
}

/// Model A with itself: each model alone twice, or both in a pair if they share a label.
#[test]
fn model_a_with_itself() {
    let path = model("a.txt");
    let alone = "\
this run of 2 steps reaches the target
first: PATH; second: PATH
step  choice  location  first   at  second  at  elapsed
   0  -              0  -        0  -        0        0
   1  edge 0         2  edge 0   1  stays    0        0
   2  edge 3         3  stays    1  edge 0   1        0
step bytes: 2 5
";
    let found = wirdoku(&["walk", &path, &path, "2", "5"]);
    assert_eq!((found.status, found.out), (10, alone.replace("PATH", &path)));
    let folder = Folder::new();
    let labelled = folder.file("a.txt", model_text("a.txt").replace("label=0", "label=9").as_bytes());
    let both = "\
this run of 2 steps reaches the target
first: PATH; second: PATH
step  choice           location  first    at  second   at  elapsed
   0  -                       0  -         0  -         0        0
   1  delay 1                 0  delay 1   0  delay 1   0        1
   2  edge 0, label 9         3  edge 0    1  edge 0    1        1
step bytes: 1 2
";
    let found = wirdoku(&["walk", &labelled, &labelled, "1", "2"]);
    assert_eq!((found.status, found.out), (10, both.replace("PATH", &labelled)));
    for solver in SOLVERS {
        let found = wirdoku(&["check", &labelled, &labelled, "--solver", solver, "--quiet"]);
        assert_eq!(found.status, 10);
        assert!(found.out.starts_with("a run of 1 step reaches the target\n") && found.out.ends_with("step bytes: 2\n"));
    }
}

/// A delay beyond a part's own ceiling is that ceiling for it; a clock is marked at the joint ceiling.
#[test]
fn a_delay_beyond_a_parts_ceiling() {
    let (first, second) = (model("a.txt"), model("logger_b.txt"));
    let found = wirdoku(&["walk", &first, &second, "4", "5"]);
    let expected = "\
first: FIRST; second: SECOND
step  choice   location  first    at  second   at  v0  x0  elapsed
   0  -               0  -         0  -         0   0   0        0
   1  delay 4         0  delay 1   0  delay 4   0   0  4+        4
   2  edge 0          4  edge 0    1  stays     0   0  4+        4
step bytes: 4 5
";
    let (verdict, table) = found.out.split_once('\n').unwrap();
    assert!(verdict.starts_with("no run into the target: refusal 30: "), "{}", verdict);
    assert_eq!((found.status, table), (20, &expected.replace("FIRST", &first).replace("SECOND", &second)[..]));
}

/// A label that one model alone bears is that of the part that moves.
#[test]
fn labels_of_lone_edges() {
    let folder = Folder::new();
    let labelled = |label: &str| model_text("a.txt").replace("label=0", &format!("label={}", label)).into_bytes();
    let (first, second) = (folder.file("one.txt", &labelled("4")), folder.file("two.txt", &labelled("11")));
    let found = wirdoku(&["walk", &first, &second, "2", "5"]);
    let rows: Vec<&str> = found.out.lines().skip(4).take(2).collect();
    let expected = [
        "   1  edge 0, label 4          2  edge 0   1  stays    0        0",
        "   2  edge 3, label 11         3  stays    1  edge 0   1        0",
    ];
    assert_eq!(rows, expected);
}

#[test]
fn sizes_and_files_of_a_pair() {
    let (first, second) = (model("logger.txt"), model("watchdog.txt"));
    let found = wirdoku(&["size", &first, &second, "--bound", "6"]);
    let expected = "variables=418\nclauses=7574\nwords=26838\nceiling=10\nstate=40\nchoices=23\n";
    assert_eq!((found.status, found.out.as_str(), found.err.as_str()), (0, expected, ""));
    let found = wirdoku(&["dimacs", &first, &second, "--bound", "6"]);
    assert!(found.out.starts_with("p cnf 418 7574\n"));
    assert_eq!(found.out.lines().count(), 7575);
    assert_eq!(found.out.split_whitespace().count(), 4 + 26838);
}

#[test]
fn one_of_two_models_at_standard_input() {
    let (first, second) = (model("logger.txt"), model("watchdog.txt"));
    let both = wirdoku(&["size", &first, &second, "--bound", "6"]).out;
    let found = wirdoku_with_input(&["size", "-", &second, "--bound", "6"], model_text("logger.txt").as_bytes());
    assert_eq!(found.out, both);
    let found = wirdoku_with_input(&["size", &first, "-", "--bound", "6"], model_text("watchdog.txt").as_bytes());
    assert_eq!(found.out, both);
    wirdoku(&["check", "-", "-"]).assert_stopped(1, "`-` can stand for one model only\n");
}

/// Every command that takes two models.
fn calls<'a>(first: &'a str, second: &'a str) -> Vec<Vec<&'a str>> {
    vec![
        vec!["check", first, second],
        vec!["check", first, second, "--bound", "3"],
        vec!["size", first, second, "--bound", "3"],
        vec!["dimacs", first, second, "--bound", "3"],
        vec!["walk", first, second, "5", "3", "7"],
    ]
}

#[test]
fn a_refused_text_is_named() {
    let folder = Folder::new();
    let right = model("logger_b.txt");
    let wrong = folder.file("wrong.txt", model_text("logger_b.txt").replace("target=3", "target=4").as_bytes());
    let other = folder.file("other.txt", b"locations=17\n");
    for (first, second, named, refusal) in [
        (&wrong, &right, &wrong, "refusal 5, line 3: "),
        (&right, &wrong, &wrong, "refusal 5, line 3: "),
        (&wrong, &other, &wrong, "refusal 5, line 3: "),
        (&other, &wrong, &other, "refusal 4, line 1: "),
    ] {
        for arguments in calls(first, second) {
            let found = wirdoku(&arguments);
            found.assert_stopped(2, &format!("{}: {}", named, refusal));
            let shown = if named == &wrong { "\n    target=4\n" } else { "\n    locations=17\n" };
            assert!(found.err.ends_with(shown), "{:?}", found);
        }
    }
}

/// Two models that are too large together: each limit that is passed is told.
#[test]
fn too_large_together() {
    let (first, second) = (model("boot_logger_lossy.txt"), model("retry_saved.txt"));
    for arguments in calls(&first, &second) {
        let found = wirdoku(&arguments);
        found.assert_stopped(2, &format!("{} and {}: refusal 38: the composed model would have more locations, ", first, second));
        let limits: Vec<&str> = found.err.lines().skip(1).collect();
        let expected = [
            "    locations: 6 times 7 are 42, and a model has at most 16",
            "    clocks: 2 and 3 are 5, and a model has at most 4",
            "    edges: 8 of the first alone times 7 locations, 7 of the second alone times 6 locations and 0 in pairs are 98, \
             and a model has at most 32",
        ];
        assert_eq!(limits, expected);
    }
}

#[test]
fn bounds_and_runs_above_64_of_a_pair() {
    let (first, second) = (model("logger.txt"), model("watchdog.txt"));
    let mut walk = vec!["walk", &first, &second];
    walk.extend(["0"; 65]);
    let cases = [
        vec!["check", &first, &second, "--bound", "65"],
        vec!["check", &first, &second, "--up-to", "65"],
        vec!["size", &first, &second, "--bound", "65"],
        vec!["dimacs", &first, &second, "--bound", "65"],
        walk,
    ];
    for arguments in cases {
        wirdoku(&arguments).assert_stopped(2, &format!("{} and {}: refusal 21: ", first, second));
    }
    // 38 is tested before the bound
    let large = model("boot_logger_lossy.txt");
    wirdoku(&["check", &large, &large, "--bound", "65"]).assert_stopped(2, &format!("{0} and {0}: refusal 38: ", large));
}

#[test]
fn pairs_are_explained() {
    let (first, second, large) = (model("logger.txt"), model("watchdog.txt"), model("boot_logger_lossy.txt"));
    let found = wirdoku(&["explain", "38", &first, &second]);
    let accepted = format!("\n{} and {}: both texts are accepted, and they compose\n", first, second);
    assert!(found.status == 0 && found.out.starts_with("refusal 38: ") && found.out.ends_with(&accepted), "{:?}", found);
    let found = wirdoku(&["explain", "38", &large, &first]);
    assert!(found.out.contains(&format!("\n{} and {}: refusal 38: ", large, first)), "{:?}", found);
    assert!(found.out.contains("\n    locations: 6 times 6 are 36, and a model has at most 16\n"), "{:?}", found);
    let found = wirdoku_with_input(&["explain", "4", &first, "-"], b"locations=17\n");
    assert!(found.out.contains("\n-: refusal 4, line 1: ") && found.out.ends_with("\n    locations=17\n"), "{:?}", found);
}

#[test]
fn a_second_file_that_cannot_be_read() {
    let folder = Folder::new();
    let missing = folder.path().join("missing").to_str().unwrap().to_string();
    for arguments in calls(&model("a.txt"), &missing).into_iter().chain(calls(&missing, &model("a.txt"))) {
        wirdoku(&arguments).assert_stopped(5, &format!("{} cannot be read: ", missing));
    }
}

/// A solver that lies about a pair is found out by the conversion on both texts.
#[test]
fn a_lying_solver_is_found_out() {
    let folder = Folder::new();
    let labelled = folder.file("a.txt", model_text("a.txt").replace("label=0", "label=9").as_bytes());
    // one delay in place of the pair: the last clause, the target, is false
    folder.script(
        "cadical",
        "while read -r line; do :; done\necho 's SATISFIABLE'\necho 'v 1 -2 -3 -4 5 -6 -7 8 -9 -10 -11 0'\nexit 10",
    );
    let mut asked = command(&["check", &labelled, &labelled, "--bound", "1", "--quiet"]);
    let found = outcome(asked.env("PATH", folder.path()));
    found.assert_stopped(4, "the assignment of cadical at bound 1 is wrong: refusal 26, clause 29: ");
    assert!(found.err.ends_with("\n    11\n"), "{:?}", found);
}
