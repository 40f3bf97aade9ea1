//! `reach`: verdicts without a solver, against what is told of the shipped models and against solvers.

mod common;

use std::fs;

use common::{model, model_text, wirdoku, wirdoku_with_input, Folder, Outcome};

/// A counter that goes up to `top` and down again, one edge a step, and then `more` edges, one at least, to the target:
/// `2 * top + more` steps.
fn there_and_back(top: usize, more: usize) -> String {
    let locations = more + 2;
    let head = format!("locations={}\ninit=0\ntarget={}\nclocks=0\nvars=1\nvar={},0\n", locations, locations - 1, top);
    let edge = |from: usize, to: usize, when: &str, set: &str| {
        format!("from={}\nto={}\nlabel=0\nwhen={}\nset={}\nreset=-\n", from, to, when, set)
    };
    let mut edges = vec![edge(0, 0, "-", "v0:=v0+1"), edge(0, 1, &format!("v0={}", top), &format!("v0:={}", top - 1))];
    edges.push(edge(1, 1, "-", "v0:=v0-1"));
    edges.extend((1..=more).map(|place| edge(place, place + 1, "v0=0", "-")));
    format!("{}{}edges={}\n{}", head, "inv=-\n".repeat(locations), edges.len(), edges.concat())
}

fn reached(text: &str, further: &[&str]) -> Outcome {
    wirdoku_with_input(&[&["reach", "-"], further].concat(), text.as_bytes())
}

/// The lines of a table of expected numbers, in columns.
fn table(name: &str) -> Vec<Vec<String>> {
    let text = fs::read_to_string(model(name)).unwrap();
    text.lines().skip(1).map(|line| line.split('\t').map(str::to_string).collect()).collect()
}

fn assert_shortest(files: &[&str], smallest: &str) {
    let outcome = wirdoku(&[&["reach", "--quiet"], files].concat());
    if smallest == "none" {
        assert_eq!(outcome.status, 20, "{:?}", outcome);
        assert!(outcome.out.starts_with("the target can never be reached: "), "{:?}", outcome);
    } else {
        assert_eq!(outcome.status, 10, "{:?}", outcome);
        assert!(outcome.out.starts_with(&format!("a run of {} step", smallest)), "{:?}", outcome);
        assert!(outcome.out.contains("\n(walked by proved code; no run is shorter: "), "{:?}", outcome);
    }
}

#[test]
fn every_shipped_model_and_pair() {
    let lines = table("EXPECTED.tsv");
    assert!(lines.len() >= 11);
    for line in lines {
        assert_shortest(&[&model(&format!("{}.txt", line[0]))], &line[1]);
    }
    let lines = table("PAIRS.tsv");
    assert!(lines.len() >= 2);
    for line in lines {
        assert_shortest(&[&model(&format!("{}.txt", line[0])), &model(&format!("{}.txt", line[1]))], &line[2]);
    }
}

/// Beyond 64 steps the bounds say nothing, and the walker takes no run.
#[test]
fn runs_of_64_steps_and_of_more() {
    for (top, more, walked) in [(31, 2, "walked by proved code"), (31, 3, "each step taken by proved code"), (31, 9, "each step")]
    {
        let outcome = reached(&there_and_back(top, more), &[]);
        assert_eq!(outcome.status, 10, "{:?}", outcome);
        assert!(outcome.out.starts_with(&format!("a run of {} steps reaches the target\n", 2 * top + more)), "{:?}", outcome);
        assert!(outcome.out.contains(&format!("\n({}", walked)), "{:?}", outcome);
        let bytes = outcome.out.lines().find_map(|line| line.strip_prefix("step bytes:")).unwrap();
        assert_eq!(bytes.split_whitespace().count(), 2 * top + more);
    }
}

/// A solver finds the same length, and none one step shorter.
#[test]
fn a_solver_agrees() {
    for (top, more) in [(1, 1), (3, 2), (5, 4)] {
        let text = there_and_back(top, more);
        let steps = 2 * top + more;
        assert!(reached(&text, &[]).out.starts_with(&format!("a run of {} steps ", steps)));
        for (bound, status) in [(steps - 1, 20), (steps, 10)] {
            let bound = bound.to_string();
            let outcome = wirdoku_with_input(&["check", "-", "--bound", &bound, "--quiet"], text.as_bytes());
            assert_eq!(outcome.status, status, "{:?}", outcome);
        }
    }
}

#[test]
fn a_target_that_is_the_initial_location() {
    let outcome = reached(&model_text("a.txt").replace("init=0", "init=1"), &[]);
    assert_eq!(outcome.status, 10);
    assert!(outcome.out.starts_with("a run of 0 steps reaches the target\n"), "{:?}", outcome);
}

#[test]
fn an_initial_state_that_breaks_its_invariant() {
    let text = model_text("a.txt").replace("clocks=0", "clocks=1").replacen("inv=-", "inv=x0>=1", 1);
    let outcome = reached(&text, &[]);
    assert_eq!(outcome.status, 20);
    assert!(outcome.out.starts_with("no run at all: the initial state breaks its invariant"), "{:?}", outcome);
}

/// With a state fewer than the search needs it is not decided, with as many it is.
#[test]
fn the_states_that_are_given_are_a_limit() {
    let text = there_and_back(5, 1);
    let outcome = reached(&text, &["--states", "11"]);
    assert_eq!(outcome.status, 7, "{:?}", outcome);
    let said = "not decided: 11 states were met (--states 11), and none is in the target; no run has at most 10 steps\n";
    assert_eq!(outcome.out, said);
    assert_eq!(reached(&text, &["--states", "12"]).status, 10);
    // all states are met without one in the target: as many as there are suffice
    let never = text.replacen("when=v0=5", "when=v0=5,v0=4", 1);
    assert_eq!(reached(&never, &["--states", "5"]).status, 7);
    let outcome = reached(&never, &["--states", "6"]);
    assert_eq!(
        (outcome.status, outcome.out.lines().next()),
        (20, Some("the target can never be reached: 6 states can, and none of them is in it"))
    );
}

/// Four counters that may show anything are a million states; one second does not suffice for them.
#[test]
fn the_time_that_is_given_is_a_limit() {
    let head = "locations=2\ninit=0\ntarget=1\nclocks=0\nvars=4\nvar=31,0\nvar=31,0\nvar=31,0\nvar=31,0\ninv=-\ninv=-\nedges=5\n";
    let raised = |counter: usize| format!("from=0\nto=0\nlabel=0\nwhen=-\nset=v{0}:=v{0}+1\nreset=-\n", counter);
    let last = "from=0\nto=1\nlabel=0\nwhen=v0=31,v1=31,v2=31,v3=31\nset=-\nreset=-\n";
    let edges: String = (0..4).map(raised).collect();
    let outcome = reached(&format!("{}{}{}", head, edges, last), &["--states", "10000000", "--timeout", "1"]);
    assert_eq!(outcome.status, 7, "{:?}", outcome);
    assert!(outcome.out.contains("(--states 10000000, --timeout 1)"), "{:?}", outcome);
}

#[test]
fn refused_models_are_told_as_ever() {
    reached("locations=17\n", &[]).assert_stopped(2, "-: refusal 4, line 1: ");
    let folder = Folder::new();
    let missing = folder.path().join("none.txt");
    wirdoku(&["reach", missing.to_str().unwrap()]).assert_stopped(5, &format!("{} cannot be read: ", missing.display()));
}
