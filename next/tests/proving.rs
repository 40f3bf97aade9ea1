//! `check` with a refutation that proved code checks: models without a run, shortest runs, and refutations that are none.

mod common;

use std::fs;
use std::os::unix::fs::symlink;

use common::{installed, model, model_text, outcome, plain_command, Folder, Outcome, READ_ALL};

fn check(arguments: &[&str]) -> Outcome {
    outcome(&mut plain_command(&[&["check"], arguments].concat()))
}

/// With cadical in place of what a folder has not.
fn with_scripts(folder: &Folder, arguments: &[&str]) -> Outcome {
    outcome(plain_command(&[&["check"], arguments].concat()).env("PATH", folder.path()))
}

const PROVED: &str = "(checked by proved code: a refutation of the list for ";

#[test]
fn models_without_a_run_are_refuted() {
    let kicked = model("boot_logger_kicked.txt");
    let pair = [model("logger.txt"), model("watchdog_patient.txt")];
    for files in [&[&kicked[..]][..], &[&pair[0], &pair[1], "--prove"]] {
        let outcome = check(files);
        assert_eq!(outcome.status, 20, "{:?}", outcome);
        let none = "no run of at most 64 steps; longer runs were not looked at\n";
        assert_eq!(outcome.out, format!("{}{}64 steps)\n", none, PROVED));
        let times = outcome.err.lines().last().unwrap();
        assert!(
            times.starts_with("cadical ") && times.contains(" lemmas with ") && times.contains("; proved check "),
            "{}",
            times
        );
        let quiet = check(&[files, &["--quiet"]].concat());
        assert_eq!((quiet.out, quiet.err.as_str()), (outcome.out, ""));
    }
}

/// Every shipped model and pair with a run: it is a shortest one, by proved code.
#[test]
fn shortest_runs_are_proved_to_be() {
    let mut proved = 0;
    for line in fs::read_to_string(model("EXPECTED.tsv")).unwrap().lines().skip(1) {
        let fields: Vec<&str> = line.split('\t').collect();
        let outcome = check(&[&model(&format!("{}.txt", fields[0])), "--quiet"]);
        let last = outcome.out.lines().last().unwrap().to_string();
        if let Ok(smallest) = fields[1].parse::<usize>() {
            assert_eq!(outcome.status, 10);
            let steps = if smallest == 2 { "1 step".to_string() } else { format!("{} steps", smallest - 1) };
            let shortest =
                format!("(walked by proved code, which also checked a refutation of the list for {}: no run is shorter)", steps);
            let only = "(walked by proved code, and so was the empty run, which does not reach it)";
            assert_eq!(last, if smallest == 1 { only.to_string() } else { shortest });
            proved += usize::from(smallest > 1);
        }
    }
    assert!(proved >= 9, "{}", proved);
}

#[test]
fn a_refutation_is_asked_for_or_not() {
    let path = model("logger_b.txt");
    let outcome = check(&[&path, "--bound", "2", "--quiet"]);
    assert_eq!(
        outcome.out,
        format!("no run of exactly 2 steps, so none of fewer; longer runs were not looked at\n{}2 steps)\n", PROVED)
    );
    let outcome = check(&[&path, "--bound", "0", "--quiet"]);
    assert!(outcome.out.ends_with(&format!("{}0 steps)\n", PROVED)), "{:?}", outcome);
    let outcome = check(&[&path, "--up-to", "2", "--quiet", "--no-prove"]);
    assert!(outcome.out.ends_with("(the word of cadical, which is not checked)\n"), "{:?}", outcome);
    for solver in ["minisat", "picosat"] {
        let word = check(&[&path, "--up-to", "2", "--quiet", "--solver", solver]);
        assert!(word.out.ends_with(&format!("(the word of {}, which is not checked)\n", solver)), "{:?}", word);
        let proved = check(&[&path, "--up-to", "2", "--quiet", "--solver", solver, "--prove"]);
        assert!(proved.status == 20 && proved.out.ends_with(&format!("{}2 steps)\n", PROVED)), "{:?}", proved);
    }
}

/// A list of more than 250,000 words is refuted only where it is asked for.
#[test]
fn long_lists_are_not_refuted_unasked() {
    let clock = |index: usize| format!("x{}<30", index);
    let guards = (0..4).map(clock).collect::<Vec<_>>().join(",");
    let head = "locations=2\ninit=0\ntarget=1\nclocks=4\nvars=1\nvar=1,0\ninv=-\ninv=-\nedges=1\n";
    let text = format!("{}from=0\nto=1\nlabel=0\nwhen={}\nset=v0:=31\nreset=-\n", head, guards);
    let folder = Folder::new();
    let path = folder.file("long.txt", text.as_bytes());
    let outcome = check(&[&path, "--quiet"]);
    assert!(outcome.status == 20 && outcome.out.ends_with("(the word of cadical, which is not checked)\n"), "{:?}", outcome);
    let outcome = check(&[&path, "--quiet", "--up-to", "8", "--prove"]);
    assert!(outcome.status == 20 && outcome.out.ends_with(&format!("{}8 steps)\n", PROVED)), "{:?}", outcome);
}

#[test]
fn without_cadical_the_word_stays_a_word() {
    let folder = Folder::new();
    symlink(installed("picosat"), folder.path().join("picosat")).unwrap();
    let outcome = with_scripts(&folder, &[&model("logger_b.txt"), "--up-to", "2", "--quiet", "--prove"]);
    let word = "(the word of picosat; a refutation was not checked, because cadical is not on the path)\n";
    assert!(outcome.status == 20 && outcome.out.ends_with(word), "{:?}", outcome);
}

/// What a cadical writes that denies a run of model A at bound 1, where there is one, and what is said of it.
const LIES: [(&str, &str); 6] = [
    ("exit 20", "it ends before the empty clause"),
    ("printf '0\\n' >&3; exit 20", "lemma 1 does not follow by unit propagation from the clauses before it"),
    ("printf '1 0\\n-7 0\\n0\\n' >&3; exit 20", "lemma 2 does not follow by unit propagation from the clauses before it"),
    ("printf '8 0\\n0\\n' >&3; exit 20", "lemma 1 has a variable that the list does not have"),
    ("printf 'nonsense' >&3; exit 20", "it is malformed at byte "),
    ("printf '0\\n' >&3; exit 10", "cadical ended without one (exit status: 10)"),
];

#[test]
fn a_lie_is_not_taken_for_a_refutation() {
    for (lines, reason) in LIES {
        let folder = Folder::new();
        // asked for its verdict it has one argument, for a refutation more; the third descriptor is the refutation's
        let script =
            format!("{}\nif [ \"$1\" = -q ] && [ $# -gt 1 ]; then {}; fi\necho 's UNSATISFIABLE'\nexit 20", READ_ALL, lines);
        folder.script("cadical", &script);
        let outcome = with_scripts(&folder, &[&model("a.txt"), "--bound", "1", "--quiet"]);
        assert_eq!(outcome.status, 20, "{:?}", outcome);
        let word = format!("(the word of cadical; a refutation was not checked, because {}", reason);
        assert!(outcome.out.lines().last().unwrap().starts_with(&word), "{} {:?}", lines, outcome);
    }
}

/// The time that is given counts for the refutation too, and what was found is told.
#[test]
fn the_time_is_over_before_the_refutation() {
    let folder = Folder::new();
    let hang = "if [ \"$1\" = -q ] && [ $# -gt 1 ]; then while :; do /bin/sleep 1; done; fi";
    folder.script("cadical", &format!("{}\n{}\necho 's UNSATISFIABLE'\nexit 20", READ_ALL, hang));
    let outcome = with_scripts(&folder, &[&model("a.txt"), "--bound", "0", "--quiet", "--timeout", "1"]);
    assert_eq!(outcome.status, 20, "{:?}", outcome);
    assert!(outcome.out.ends_with("; a refutation was not checked, because the time was used up)\n"), "{:?}", outcome);
}

#[test]
fn the_answer_for_programs_says_whether_it_is_checked() {
    let text = model_text("logger_b.txt");
    let folder = Folder::new();
    let path = folder.file("model.txt", text.as_bytes());
    let cases = [
        (&["--up-to", "2"][..], "\"none_up_to\": 2, \"none_checked\": true"),
        (&["--up-to", "2", "--no-prove"], "\"none_up_to\": 2, \"none_checked\": false"),
        (&["--up-to", "2", "--solver", "minisat"], "\"none_up_to\": 2, \"none_checked\": false"),
        (&["--up-to", "3"], "\"none_up_to\": 2, \"none_checked\": true"),
        (&["--bound", "3"], "\"none_up_to\": null, \"none_checked\": null"),
        (&["--up-to", "0"], "\"none_up_to\": 0, \"none_checked\": true"),
    ];
    for (further, expected) in cases {
        let outcome = check(&[&[&path[..], "--json", "--quiet"], further].concat());
        assert!(outcome.out.contains(expected), "{:?} {:?}", further, outcome);
    }
}
