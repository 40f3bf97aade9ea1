//! Traces with names, of one model and of two; and what `walk` says of a step that is refused.

mod common;

use common::{bare_model, model_text, wirdoku, wirdoku_with_input, Folder, Outcome};

const LOGGER: &str = "location 0 idle\nlocation 1 hashing\nlocation 2 held\nlocation 3 lost\nlocation 4 reset\nlocation 5 done\n\
                      clock 0 pace\ncounter 0 logged\nedge 0 begin\nedge 1 extend\nedge 7 fire\nlabel 2 fire\n";
const WATCHDOG: &str = "location 0 counting\nclock 0 timer\nedge 1 bark\nlabel 1 kick\nlabel 2 bark\n";

/// Every way in which a step can be refused.
const MODEL: &str = "locations=2\ninit=0\ntarget=1\nclocks=2\nvars=2\nvar=2,1\nvar=3,0\ninv=x0<=5\ninv=x0<=2,x1>=1\nedges=3\n\
                     from=0\nto=0\nlabel=3\nwhen=x1>2,v0!=1\nset=v0:=v0-2,v1:=v0+5\nreset=x1\n\
                     from=0\nto=1\nlabel=0\nwhen=-\nset=-\nreset=x0:=x1,x1:=x0\n\
                     from=1\nto=0\nlabel=0\nwhen=-\nset=v0:=3\nreset=-\n";
const NAMES: &str = "location 0 open\nclock 1 watch\ncounter 0 left\nedge 0 retry\nlabel 3 again\n";

/// A folder with a model and its names; the path of the model.
fn named(text: &str, names: &str) -> (Folder, String) {
    let folder = Folder::new();
    let path = folder.file("model.txt", text.as_bytes());
    folder.file("model.names", names.as_bytes());
    (folder, path)
}

#[test]
fn names_in_the_trace_of_one_model() {
    let names = "location 0 idle\nlocation 1 extended\nlocation 3 lost\nclock 0 stopwatch\ncounter 0 logged\nedge 0 extend\n\
                 edge 1 write\n";
    let (_folder, path) = named(&model_text("logger_b.txt"), names);
    let expected = "\
step  choice                           location  logged  stopwatch  elapsed
   0  -                                idle           0          0        0
   1  edge 0 extend: idle -> extended  extended       0          0        0
   2  delay 2                          extended       0          2        2
   3  edge 1 write: extended -> 2      2              1          2        2
   4  delay 4                          2              1         4+        6
step bytes: 5 2 6 4
";
    let found = wirdoku(&["walk", &path, "5", "2", "6", "4"]);
    let (verdict, table) = found.out.split_once("step  ").unwrap();
    assert_eq!((found.status, format!("step  {}", table)), (20, expected.to_string()));
    assert!(verdict.ends_with("\n    the run ends in 2, and the target is 3 lost\n"), "{}", verdict);
}

#[test]
fn labels_and_their_names() {
    let text = model_text("logger_b.txt").replace("to=1\nlabel=0", "to=1\nlabel=15").replace("to=3\nlabel=0", "to=3\nlabel=2");
    let (_folder, path) = named(&text, "label 2 fire\nedge 2 bark\n");
    let expected = "\
this run of 3 steps reaches the target
step  choice                             location  v0  x0  elapsed
   0  -                                         0   0   0        0
   1  edge 0: 0 -> 1, label 15                  1   0   0        0
   2  delay 3                                   1   0   3        3
   3  edge 2 bark: 1 -> 3, label 2 fire         3   0   3        3
step bytes: 5 3 7
";
    let found = wirdoku(&["walk", &path, "5", "3", "7"]);
    assert_eq!((found.status, found.out.as_str()), (10, expected));
}

/// A folder with the logger and the watchdog, named as is said.
fn pair(logger: Option<&str>, watchdog: Option<&str>) -> (Folder, [String; 2]) {
    let folder = Folder::new();
    let path = |name: &str, names: Option<&str>| {
        names.map(|names| folder.file(&format!("{}.names", name), names.as_bytes()));
        let file = format!("{}.txt", name);
        folder.file(&file, model_text(&file).as_bytes())
    };
    let paths = [path("logger", logger), path("watchdog", watchdog)];
    (folder, paths)
}

#[test]
fn names_in_the_trace_of_two_models() {
    let (_folder, [first, second]) = pair(Some(LOGGER), Some(WATCHDOG));
    let expected = "\
this run of 6 steps reaches the target
first: FIRST; second: SECOND
step  choice                location  first                           at       logged  pace  second                      at        v0  timer  elapsed
   0  -                            0  -                               idle          0     0  -                           counting   0      0        0
   1  delay 4                      0  delay 4                         idle          0     4  delay 4                     counting   0      4        4
   2  edge 0                       2  edge 0 begin: idle -> hashing   hashing       0     0  stays                       counting   0      4        4
   3  delay 2                      2  delay 2                         hashing       0     2  delay 2                     counting   0      6        6
   4  edge 2                       4  edge 1 extend: hashing -> held  held          0     0  stays                       counting   0      6        6
   5  delay 3                      4  delay 3                         held          0     3  delay 3                     counting   0      9        9
   6  edge 9, label 2 fire         7  edge 7 fire: held -> lost       lost          0     3  edge 1 bark: counting -> 1  1          1      9        9
step bytes: 4 11 2 13 3 20
";
    let found = wirdoku(&["walk", &first, &second, "4", "11", "2", "13", "3", "20"]);
    assert_eq!((found.status, found.out), (10, expected.replace("FIRST", &first).replace("SECOND", &second)));
}

/// A label that only the second file names has that name; what has none keeps its number.
#[test]
fn names_of_one_of_two_models() {
    let (_folder, [first, second]) = pair(None, Some(WATCHDOG));
    let found = wirdoku(&["walk", &first, &second, "4", "11", "2", "13", "1", "15"]);
    let row = found.out.lines().rev().nth(1).unwrap();
    let expected = "   6  edge 4, label 1 kick         0  edge 2: 2 -> 0   0   1   0  edge 0: counting -> counting  counting   0      0        7";
    assert_eq!(row, expected);
}

/// What stands between the verdict and the trace.
fn reasons(found: &Outcome) -> Vec<&str> {
    assert!(found.status == 20 && found.err.is_empty(), "{:?}", found);
    let lines = found.out.lines().skip(1);
    lines.take_while(|line| line.starts_with("    ")).map(|line| &line[4..]).collect()
}

#[test]
fn all_that_keeps_a_step_from_being_taken() {
    let cases: [(&[&str], &[&str]); 7] = [
        (
            &["7"],
            &[
                "step 1, byte 7: edge 0: 0 -> 0, label 3",
                "guard: x1>2 fails, x1 is 0",
                "guard: v0!=1 fails, v0 is 1",
                "range: v0 would be -1, and its least value is 0",
                "range: v1 would be 4, and its greatest value is 3",
            ],
        ),
        (&["8"], &["step 1, byte 8: edge 1: 0 -> 1", "invariant of location 1: x1>=1 fails, x1 would be 0"]),
        (&["5", "8"], &["step 2, byte 8: edge 1: 0 -> 1", "invariant of location 1: x0<=2 fails, x0 would be 5"]),
        (&["1", "8", "9"], &["step 3, byte 9: edge 2: 1 -> 0", "range: v0 would be 3, and its greatest value is 2"]),
        (&["9"], &["step 1, byte 9: edge 2: 1 -> 0", "the edge goes from location 1, and the run is in 0"]),
        (&["2", "6"], &["step 2, byte 6: delay 6", "invariant of location 0: x0<=5 fails, x0 would be 6+"]),
        (&["3", "10"], &["byte 10 stands for nothing: 0 to 6 are delays, 7 to 9 edges"]),
    ];
    for (steps, expected) in cases {
        let found = wirdoku_with_input(&[&["walk", "-"], steps].concat(), MODEL.as_bytes());
        assert_eq!(reasons(&found), expected, "{:?}", steps);
    }
}

#[test]
fn reasons_with_names() {
    let cases: [(&[&str], &[&str]); 5] = [
        (
            &["7"],
            &[
                "step 1, byte 7: edge 0 retry: open -> open, label 3 again",
                "guard: watch>2 fails, watch is 0",
                "guard: left!=1 fails, left is 1",
                "range: left would be -1, and its least value is 0",
                "range: v1 would be 4, and its greatest value is 3",
            ],
        ),
        (&["8"], &["step 1, byte 8: edge 1: open -> 1", "invariant of location 1: watch>=1 fails, watch would be 0"]),
        (&["9"], &["step 1, byte 9: edge 2: 1 -> open", "the edge goes from location 1, and the run is in 0 open"]),
        (&["6"], &["step 1, byte 6: delay 6", "invariant of open: x0<=5 fails, x0 would be 6+"]),
        (&["1"], &["the run ends in 0 open, and the target is 1"]),
    ];
    let (_folder, path) = named(MODEL, NAMES);
    for (steps, expected) in cases {
        let found = wirdoku(&[&["walk", &path], steps].concat());
        assert_eq!(reasons(&found), expected, "{:?}", steps);
    }
}

#[test]
fn bytes_that_stand_for_nothing() {
    let without = "locations=1\ninit=0\ntarget=0\nclocks=0\nvars=0\ninv=-\nedges=0\n";
    let found = wirdoku_with_input(&["walk", "-", "2"], without.as_bytes());
    assert_eq!(reasons(&found), ["byte 2 stands for nothing: 0 to 1 are delays, and there is no edge"]);
    let found = wirdoku(&["walk", &bare_model("a.txt"), "3"]);
    assert_eq!(reasons(&found), ["byte 3 stands for nothing: 0 to 1 are delays, 2 is the edge"]);
}

/// The whole invariant of the first location fails, and there is no trace.
#[test]
fn an_initial_state_that_is_not_allowed() {
    let text = MODEL.replace("init=0", "init=1").replace("x0<=2,x1>=1", "x0>3,x1>=1");
    let found = wirdoku_with_input(&["walk", "-", "1"], text.as_bytes());
    assert_eq!(
        reasons(&found),
        ["invariant of location 1: x0>3 fails, x0 is 0", "invariant of location 1: x1>=1 fails, x1 is 0"]
    );
    assert_eq!(found.out.lines().count(), 3);
}

/// Reasons of two models name the composed location as a pair, and clocks and counters with their model.
#[test]
fn reasons_of_two_models() {
    let cases: [(&[&str], &[&str]); 4] = [
        (
            &["4", "11", "2", "13", "2", "20"],
            &[
                "step 6, byte 20: edge 9, label 2 fire; first: edge 7 fire: held -> lost; second: edge 1 bark: counting -> 1",
                "guard: second.timer>=9 fails, second.timer is 8",
            ],
        ),
        (
            &["13"],
            &[
                "step 1, byte 13: edge 2; first: edge 1 extend: hashing -> held; second: stays",
                "the edge goes from location 2 (hashing, counting), and the run is in 0 (idle, counting)",
            ],
        ),
        (
            &["10"],
            &[
                "step 1, byte 10: delay 10",
                "invariant of (idle, counting): first.pace<=4 fails, first.pace would be 10+",
                "invariant of (idle, counting): second.timer<=9 fails, second.timer would be 10+",
            ],
        ),
        (&["3"], &["the run ends in 0 (idle, counting), and the target is 7 (lost, 1)"]),
    ];
    let (_folder, [first, second]) = pair(Some(LOGGER), Some(WATCHDOG));
    for (steps, expected) in cases {
        let found = wirdoku(&[&["walk", &first, &second], steps].concat());
        assert_eq!(reasons(&found), expected, "{:?}", steps);
    }
    let (_folder, [first, second]) = pair(None, None);
    let found = wirdoku(&["walk", &first, &second, "4", "11", "2", "13", "2", "20"]);
    let expected = [
        "step 6, byte 20: edge 9, label 2; first: edge 7: 2 -> 3; second: edge 1: 0 -> 1",
        "guard: second.x0>=9 fails, second.x0 is 8",
    ];
    assert_eq!(reasons(&found), expected);
}

#[test]
fn walks_as_json() {
    let (_folder, path) = named(MODEL, NAMES);
    let walk = |steps: &[&str]| wirdoku(&[&["walk", "--json", &path], steps].concat());
    let found = walk(&["2", "9"]);
    let expected = "\"verdict\": \"no run\", \"number\": 28, \"place\": 2, \"reasons\": \
                    [\"the edge goes from location 1, and the run is in 0 open\"], \"run\": [2, 9], ";
    assert!(found.status == 20 && found.out.contains(expected), "{:?}", found);
    let found = walk(&["1", "8"]);
    let expected = "\"verdict\": \"run\", \"number\": null, \"place\": null, \"reasons\": [], \"run\": [1, 8], ";
    assert!(found.status == 10 && found.out.contains(expected), "{:?}", found);
}
