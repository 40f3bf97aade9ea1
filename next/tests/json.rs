//! Answers as JSON: what they say beside the text, names, two models, and errors. That every answer fits the schema, and the examples of
//! next/docs/JSON.md, are tried by scripts/json-cases.

mod common;

use std::ffi::OsStr;
use std::os::unix::ffi::OsStrExt;

use common::{command, model, model_text, outcome, wirdoku, wirdoku_with_input, Folder, Outcome};

const NAMES: &str = "location 1 extended\nlocation 3 lost\nclock 0 stopwatch\nedge 2 fire\nlabel 2 fired\n";

fn holds(outcome: &Outcome, part: &str) {
    assert!(outcome.out.contains(part), "{} is not in {:?}", part, outcome);
}

/// Logger B whose watchdog has label 2, in a folder of its own, with some names and without.
fn logger(folder: &Folder, names: Option<&str>) -> String {
    if let Some(names) = names {
        folder.file("b.names", names.as_bytes());
    }
    folder.file("b.txt", model_text("logger_b.txt").replace("to=3\nlabel=0", "to=3\nlabel=2").as_bytes())
}

#[test]
fn an_answer_is_one_line_that_begins_with_command_and_status() {
    let path = model("logger_b.txt");
    let (walk, size) = (["walk", &path, "5", "3", "7", "--json"], ["size", &path, "--bound", "3", "--json"]);
    for (arguments, beginning) in
        [(&walk[..], "{\"command\": \"walk\", \"status\": 10, "), (&size, "{\"command\": \"size\", \"status\": 0, ")]
    {
        let outcome = wirdoku(arguments);
        assert!(outcome.out.starts_with(beginning) && outcome.out.ends_with("}\n"), "{:?}", outcome);
        assert_eq!((outcome.out.matches('\n').count(), outcome.err.as_str()), (1, ""));
    }
}

#[test]
fn a_trace_has_numbers_and_names() {
    let folder = Folder::new();
    let path = logger(&folder, Some(NAMES));
    let outcome = wirdoku(&["walk", &path, "5", "3", "7", "--json"]);
    assert_eq!(outcome.status, 10);
    holds(&outcome, "\"locations\": [null, \"extended\", null, \"lost\"], \"initial\": 0, \"target\": 3");
    holds(&outcome, "\"clocks\": [\"stopwatch\"], \"counters\": [\"v0\"], \"edges\": 3, \"ceiling\": 4, \"parts\": null}");
    let rows = [
        "{\"step\": 0, \"byte\": null, \"choice\": null, \"location\": 0, \"location_name\": null, \
         \"counters\": [0], \"clocks\": [0], \"clocks_at_ceiling\": [false], \"elapsed\": 0, \"parts\": null}",
        "{\"step\": 1, \"byte\": 5, \"choice\": {\"kind\": \"edge\", \"edge\": 0, \"name\": null, \"source\": 0, \"target\": 1, \
         \"label\": 0, \"label_name\": null}, \"location\": 1, \"location_name\": \"extended\", \
         \"counters\": [0], \"clocks\": [0], \"clocks_at_ceiling\": [false], \"elapsed\": 0, \"parts\": null}",
        "{\"step\": 2, \"byte\": 3, \"choice\": {\"kind\": \"delay\", \"ticks\": 3}, \"location\": 1, \"location_name\": \"extended\", \
         \"counters\": [0], \"clocks\": [3], \"clocks_at_ceiling\": [false], \"elapsed\": 3, \"parts\": null}",
        "{\"step\": 3, \"byte\": 7, \"choice\": {\"kind\": \"edge\", \"edge\": 2, \"name\": \"fire\", \"source\": 1, \"target\": 3, \
         \"label\": 2, \"label_name\": \"fired\"}, \"location\": 3, \"location_name\": \"lost\", \
         \"counters\": [0], \"clocks\": [3], \"clocks_at_ceiling\": [false], \"elapsed\": 3, \"parts\": null}",
    ];
    holds(&outcome, &format!("\"run\": [5, 3, 7], \"trace\": [{}]}}", rows.join(", ")));
}

#[test]
fn a_trace_ends_before_a_step_that_is_refused() {
    let path = model("logger_b.txt");
    let cases = [
        (&["4", "4", "9"][..], "\"number\": 27, \"place\": 3,", 3),
        (&["5", "4", "7"], "\"number\": 28, \"place\": 2,", 2),
        (&["4", "4"], "\"number\": 30, \"place\": null,", 3),
    ];
    for (steps, refusal, rows) in cases {
        let outcome = wirdoku(&[&["walk", &path, "--json"], steps].concat());
        assert_eq!(outcome.status, 20);
        holds(&outcome, &format!("\"verdict\": \"no run\", {}", refusal));
        assert_eq!(outcome.out.matches("\"step\": ").count(), rows, "{:?}", outcome);
        // all given steps are told, and a clock at the ceiling is marked
        holds(&outcome, &format!("\"run\": [{}], \"trace\": [{{\"step\": 0", steps.join(", ")));
        let marked = steps[0] == "4";
        assert_eq!(outcome.out.contains("\"clocks\": [4], \"clocks_at_ceiling\": [true]"), marked, "{:?}", outcome);
    }
    let text = model_text("logger_b.txt").replacen("inv=-", "inv=x0>=1", 1);
    let outcome = wirdoku_with_input(&["walk", "-", "5", "--json"], text.as_bytes());
    assert_eq!(outcome.status, 20);
    holds(&outcome, "\"number\": 29, \"place\": null,");
    holds(&outcome, "\"run\": [5], \"trace\": null}");
}

/// Ceilings, locations and values differ, so that no number is right by chance.
#[test]
fn two_models_have_numbers_of_their_own() {
    let folder = Folder::new();
    let first = logger(&folder, Some(NAMES));
    let second = "locations=3\ninit=0\ntarget=2\nclocks=1\nvars=1\nvar=31,7\ninv=-\ninv=-\ninv=-\nedges=2\n\
                  from=0\nto=1\nlabel=0\nwhen=x0>=9\nset=v0:=v0+2\nreset=-\nfrom=1\nto=2\nlabel=2\nwhen=-\nset=v0:=30\nreset=x0\n";
    let second = folder.file("second.txt", second.as_bytes());
    // delay 10, first's edge 0, second's edge 0, delay 3, both
    let outcome = wirdoku(&["walk", &first, &second, "10", "11", "18", "3", "21", "--json"]);
    assert_eq!(outcome.status, 10, "{:?}", outcome);
    holds(&outcome, "\"ceiling\": 10, \"parts\": [{\"locations\": [null, \"extended\", null, \"lost\"],");
    holds(
        &outcome,
        "{\"locations\": [null, null, null], \"initial\": 0, \"target\": 2, \"clocks\": [\"x0\"], \"counters\": [\"v0\"],",
    );
    let ends = [
        "\"clocks_at_ceiling\": [true, true], \"elapsed\": 10, \"parts\": [\
         {\"byte\": 4, \"choice\": {\"kind\": \"delay\", \"ticks\": 4}, \"location\": 0, \"location_name\": null, \
         \"counters\": [0], \"clocks\": [10], \"clocks_at_ceiling\": [true]}, \
         {\"byte\": 10, \"choice\": {\"kind\": \"delay\", \"ticks\": 10}, \"location\": 0, \"location_name\": null, \
         \"counters\": [7], \"clocks\": [10], \"clocks_at_ceiling\": [true]}]}",
        "\"location\": 3, \"location_name\": \"(extended, 0)\", \"counters\": [0, 7], \"clocks\": [0, 10], \
         \"clocks_at_ceiling\": [false, true], \"elapsed\": 10, \"parts\": [\
         {\"byte\": 5, \"choice\": {\"kind\": \"edge\", \"edge\": 0, ",
        "{\"byte\": null, \"choice\": {\"kind\": \"stays\"}, \"location\": 0, \"location_name\": null, \
         \"counters\": [7], \"clocks\": [10], \"clocks_at_ceiling\": [true]}]}",
        "{\"byte\": null, \"choice\": {\"kind\": \"stays\"}, \"location\": 1, \"location_name\": \"extended\", \
         \"counters\": [0], \"clocks\": [0], \"clocks_at_ceiling\": [false]}, {\"byte\": 11, ",
        "\"label\": 2, \"label_name\": \"fired\"}, \"location\": 11, \"location_name\": \"(lost, 2)\", \
         \"counters\": [0, 30], \"clocks\": [3, 0], ",
        "{\"byte\": 12, \"choice\": {\"kind\": \"edge\", \"edge\": 1, \"name\": null, \"source\": 1, \"target\": 2, \
         \"label\": 2, \"label_name\": null}, \"location\": 2, \"location_name\": null, \
         \"counters\": [30], \"clocks\": [0], \"clocks_at_ceiling\": [false]}]}]}",
    ];
    for part in ends {
        holds(&outcome, part);
    }
}

#[test]
fn a_found_run_is_that_of_the_text() {
    let found = |arguments: &[&str]| {
        let text = wirdoku(arguments).out;
        let bytes = text.lines().find_map(|line| line.strip_prefix("step bytes: ")).unwrap().replace(' ', ", ");
        let outcome = wirdoku(&[arguments, &["--json"]].concat());
        holds(&outcome, &format!("\"run\": [{}], \"trace\": [{{\"step\": 0, ", bytes));
        assert_eq!(outcome.out.matches("\"step\": ").count(), bytes.split(',').count() + 1);
    };
    for name in ["logger_b.txt", "boot_logger_lossy.txt", "retry_saved.txt"] {
        found(&["reach", &model(name), "--quiet"]);
        found(&["check", &model(name), "--quiet"]);
    }
}

#[test]
fn errors_are_objects_too() {
    let folder = Folder::new();
    let named = logger(&folder, Some("location 9 nowhere\n"));
    let path = model("logger_b.txt");
    let missing = folder.path().join("missing.txt").to_str().unwrap().to_string();
    let cases = [
        (vec!["size", &path, "--bound", "65"], 2, "\"number\": 21, \"place\": null"),
        (vec!["walk", &missing], 5, "\"number\": null, \"place\": null"),
        (vec!["walk", &named], 2, "\"number\": null, \"place\": null"),
        (vec!["walk", &path, "five", "six"], 1, "\"number\": null, \"place\": null"),
        (vec!["explain", "39"], 1, "\"number\": null, \"place\": null"),
        (vec!["dot", &path], 1, "\"number\": null, \"place\": null"),
        (vec!["dimacs", &path, "--bound", "1"], 1, "\"number\": null, \"place\": null"),
    ];
    for (arguments, status, place) in cases {
        let outcome = wirdoku(&[&arguments[..], &["--json"]].concat());
        assert_eq!(outcome.status, status, "{:?}", outcome);
        let beginning = format!("{{\"command\": \"{}\", \"status\": {}, \"error\": {{\"message\": \"", arguments[0], status);
        assert!(outcome.out.starts_with(&beginning) && outcome.out.ends_with(&format!(", {}}}}}\n", place)), "{:?}", outcome);
        // standard error has the same message
        let message = outcome.err.strip_prefix("wirdoku: ").unwrap().lines().next().unwrap();
        holds(&outcome, &message.replace('\\', "\\\\").replace('"', "\\\""));
    }
    let outcome = wirdoku_with_input(&["walk", "-", "--json"], model_text("logger_b.txt").replace("x0<=2", "x0<=31").as_bytes());
    assert_eq!(outcome.status, 2);
    holds(&outcome, "\\n    when=x0<=31");
    assert!(outcome.out.ends_with("\", \"number\": 4, \"place\": 21}}\n"), "{:?}", outcome);
}

#[test]
fn the_first_argument_stands_for_the_command_after_wrong_usage() {
    let told = |arguments: &[&OsStr]| {
        let mut asked = command(&[]);
        let outcome = outcome(asked.args(arguments));
        assert_eq!(outcome.status, 1, "{:?}", outcome);
        outcome.out
    };
    let json = OsStr::new("--json");
    assert!(told(&[json]).starts_with("{\"command\": \"--json\", \"status\": 1, \"error\": {\"message\": \"there is no command"));
    assert!(told(&[OsStr::new("ch\"eck"), json]).starts_with("{\"command\": \"ch\\\"eck\", \"status\": 1, "));
    assert!(told(&[OsStr::from_bytes(b"\xff\x1b"), json]).starts_with("{\"command\": \"\u{fffd}\\u001b\", \"status\": 1, "));
    assert_eq!(told(&[OsStr::new("chec")]), "");
}

#[test]
fn names_of_files_are_escaped() {
    let folder = Folder::new();
    let path = folder.file("a\n\"b\u{1b}.txt", model_text("a.txt").as_bytes());
    let outcome = wirdoku(&["walk", &path, "--json"]);
    assert_eq!(outcome.status, 20);
    holds(&outcome, "/a\\n\\\"b\\u001b.txt\"], \"locations\"");
}
