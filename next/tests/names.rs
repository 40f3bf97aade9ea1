//! The file of names beside a model: what it may hold, how it is refused, and that it changes no answer.

mod common;

use std::fs;
use std::os::unix::fs::symlink;

use common::{calls, command, model_text, outcome, wirdoku, Folder};
use wirdoku_next::drawing::Drawing;
use wirdoku_next::names::Names;

const LOGGER: &str = "# logger B\n\nlocation 0 before\nlocation 1 extended\nlocation 2 written\nlocation 3 lost\n\
                      clock 0 stopwatch\ncounter 0 logged\nedge 0 extend\nedge 1 write\nedge 2 fire\n";

fn drawing() -> Drawing {
    Drawing::of(model_text("logger_b.txt").as_bytes()).unwrap()
}

fn names(text: &str) -> Names {
    Names::of(text.as_bytes(), &drawing()).unwrap()
}

/// A folder with logger B and a file of names beside it; the path of the model.
fn logger(names: &[u8]) -> (Folder, String) {
    let folder = Folder::new();
    let path = folder.file("logger_b.txt", model_text("logger_b.txt").as_bytes());
    folder.file("logger_b.names", names);
    (folder, path)
}

#[test]
fn names_stand_in_place_of_numbers() {
    let names = names(LOGGER);
    assert_eq!((names.location(1), names.place(1)), ("extended".to_string(), "1 extended".to_string()));
    assert_eq!((names.clock(0), names.counter(0)), ("stopwatch".to_string(), "logged".to_string()));
    assert_eq!((names.edge(2), names.label(2)), ("edge 2 fire".to_string(), "label 2".to_string()));
    assert!(names.has_locations());
}

#[test]
fn what_has_no_name_keeps_its_number() {
    for text in ["", "\n\n", "# location 0 idle\n", "#", "edge 1 write", "label 2 fire\nlabel 15 last\n"] {
        let names = names(text);
        assert_eq!((names.location(1), names.place(1)), ("1".to_string(), "1".to_string()), "{}", text);
        assert_eq!((names.clock(0), names.counter(0), names.edge(0)), ("x0".into(), "v0".into(), "edge 0".into()), "{}", text);
        assert!(!names.has_locations(), "{}", text);
    }
    assert_eq!(names("label 2 fire\nlabel 15 last\n").label(15), "label 15 last");
}

#[test]
fn accepted_forms() {
    let longest = format!("clock 0 {}", "a".repeat(24));
    for text in [
        "location 3 A-z_0.9\n",
        "location 3 lost",
        &longest,
        "\n#\nedge 0 e\n\n",
        "location 0 a\nclock 0 a\nedge 0 a\nedge 1 b\n",
    ] {
        assert!(Names::of(text.as_bytes(), &drawing()).is_ok(), "{}", text);
    }
    // what a comment holds does not matter
    assert!(Names::of(b"# \xff\x00 and so on\nlocation 0 idle\n", &drawing()).is_ok());
}

const FORM: &str = "a line is a kind, a number and a name, one space apart";
const KIND: &str = "the kind is none of location, clock, counter, edge, label";
const NUMBER: &str = "the number is not 1 to 3 digits without a leading zero";
const NAME: &str = "a name is 1 to 24 letters, digits, `_`, `-` or `.`, a letter first";

/// A file of names, the line of it that is refused, why, and how the line is shown.
const REFUSED: [(&[u8], usize, &str, &str); 27] = [
    (b"location 0\n", 1, FORM, "location 0"),
    (b"# x\n\nlocation\n", 3, FORM, "location"),
    (b"location 0 two words\n", 1, FORM, "location 0 two words"),
    (b"location  0 idle\n", 1, FORM, "location  0 idle"),
    (b"location\t0\tidle\n", 1, FORM, "location\\t0\\tidle"),
    (b" location 0 idle\n", 1, FORM, " location 0 idle"),
    (b" # a comment\n", 1, FORM, " # a comment"),
    (b"place 0 idle\n", 1, KIND, "place 0 idle"),
    (b"Location 0 idle\n", 1, KIND, "Location 0 idle"),
    (b"location x idle\n", 1, NUMBER, "location x idle"),
    (b"location 00 idle\n", 1, NUMBER, "location 00 idle"),
    (b"location 1000 idle\n", 1, NUMBER, "location 1000 idle"),
    (b"location 0 \n", 1, NAME, "location 0 "),
    (b"location 0 0idle\n", 1, NAME, "location 0 0idle"),
    (b"location 0 id,le\n", 1, NAME, "location 0 id,le"),
    (b"location 0 abcdefghijklmnopqrstuvwxy\n", 1, NAME, "location 0 abcdefghijklmnopqrstuvwxy"),
    (b"location 0 id\xc3\xa9e\n", 1, NAME, "location 0 id\\xc3\\xa9e"),
    (b"location 0 idl\xff\n", 1, NAME, "location 0 idl\\xff"),
    (b"location 3 lost\nlocation 4 gone", 2, "the model has no location 4", "location 4 gone"),
    (b"clock 1 timer\n", 1, "the model has no clock 1", "clock 1 timer"),
    (b"counter 999 cause\n", 1, "the model has no counter 999", "counter 999 cause"),
    (b"edge 3 boot\n", 1, "the model has no edge 3", "edge 3 boot"),
    (b"label 16 boot\n", 1, "16 is above 15, the greatest label", "label 16 boot"),
    (b"label 0 private\n", 1, "label 0 means private and has no name", "label 0 private"),
    (b"edge 1 write\nedge 1 write\n", 2, "edge 1 has a name already", "edge 1 write"),
    (b"edge 1 write\n#\nedge 2 write\n", 3, "another edge has this name", "edge 2 write"),
    (b"# names\r\nedge 1 write\r\n", 1, "the line ends with CR LF; lines end with LF alone", "# names\\r"),
];

#[test]
fn refused_lines_are_told_with_file_line_and_reason() {
    for (text, line, reason, shown) in REFUSED {
        let (folder, path) = logger(text);
        let file = folder.path().join("logger_b.names");
        let found = wirdoku(&["walk", &path, "5", "3", "7"]);
        let message = format!("wirdoku: {}, line {}: {}\n    {}\n", file.display(), line, reason, shown);
        assert_eq!((found.status, found.out.as_str(), found.err), (2, "", message));
    }
}

#[test]
fn every_command_stops_where_names_are_refused() {
    let (folder, path) = logger(b"clock 7 timer\n");
    let file = folder.path().join("logger_b.names");
    for arguments in calls(&path) {
        wirdoku(&arguments).assert_stopped(2, &format!("{}, line 1: the model has no clock 7\n", file.display()));
    }
    let other = folder.file("other.txt", model_text("a.txt").as_bytes());
    for models in [[&path, &other], [&other, &path]] {
        wirdoku(&["walk", models[0], models[1]]).assert_stopped(2, &format!("{}, line 1: ", file.display()));
    }
    // a text that is refused is told first, and a refusal is explained without names
    fs::write(&path, "locations=17\n").unwrap();
    wirdoku(&["walk", &path]).assert_stopped(2, &format!("{}: refusal 4, line 1: ", path));
    assert_eq!(wirdoku(&["explain", "4", &path]).status, 0);
}

#[test]
fn a_long_line_is_cut_and_a_long_file_refused() {
    let (folder, path) = logger(&[b'z'; 5_000]);
    let file = folder.path().join("logger_b.names");
    let found = wirdoku(&["walk", &path]);
    let shown = format!("\n    {} .. (5000 bytes)\n", "z".repeat(160));
    assert!(found.status == 2 && found.err.ends_with(&shown), "{:?}", found);
    let mut content = b"edge 0 extend\n#".to_vec();
    content.resize(65_536, b'x');
    fs::write(&file, &content).unwrap();
    assert!(wirdoku(&["walk", &path, "5"]).out.contains("edge 0 extend: 0 -> 1"));
    content.push(b'\n');
    fs::write(&file, &content).unwrap();
    let message = format!("{}, which has more than 65536 bytes, is refused\n", file.display());
    wirdoku(&["walk", &path]).assert_stopped(2, &message);
}

#[test]
fn a_file_that_cannot_be_read() {
    let (folder, path) = logger(b"");
    let file = folder.path().join("logger_b.names");
    let message = format!("{} cannot be read: ", file.display());
    fs::remove_file(&file).unwrap();
    fs::create_dir(&file).unwrap();
    wirdoku(&["walk", &path]).assert_stopped(5, &message);
    fs::remove_dir(&file).unwrap();
    symlink(&file, &file).unwrap();
    wirdoku(&["walk", &path]).assert_stopped(5, &message);
    // a link to no file is no file
    fs::remove_file(&file).unwrap();
    symlink(folder.path().join("missing"), &file).unwrap();
    assert_eq!(wirdoku(&["walk", &path, "5", "3", "7"]).status, 10);
}

/// Which file of names belongs to a model file: one with another ending, and none to standard input.
#[test]
fn where_the_file_stands() {
    let folder = Folder::new();
    let text = model_text("logger_b.txt");
    for (model, names) in [("one", "one.names"), ("two.v2.txt", "two.v2.names"), (".txt", ".txt.names")] {
        let path = folder.file(model, text.as_bytes());
        folder.file(names, LOGGER.as_bytes());
        assert!(wirdoku(&["walk", &path, "5"]).out.contains("edge 0 extend: before -> extended"), "{}", model);
    }
    for (model, names) in [("three.txt", "three.txt.names"), ("four.v2.txt", "four.names"), ("five.names", "five.txt")] {
        let path = folder.file(model, text.as_bytes());
        folder.file(names, LOGGER.as_bytes());
        assert!(wirdoku(&["walk", &path, "5"]).out.contains("edge 0: 0 -> 1"), "{}", model);
    }
    folder.file("-.names", b"no names\n");
    let model = folder.file("model.txt", text.as_bytes());
    let input = fs::File::open(model).unwrap();
    let output = command(&["walk", "-", "5", "3", "7"]).current_dir(folder.path()).stdin(input).output().unwrap();
    assert_eq!(output.status.code(), Some(10), "{:?}", output);
}

#[test]
fn names_change_no_answer() {
    let (folder, path) = logger(LOGGER.as_bytes());
    let bare = folder.file("bare.txt", model_text("logger_b.txt").as_bytes());
    for rest in [
        &["size", "--bound", "3"][..],
        &["dimacs", "--bound", "3"],
        &["walk", "5", "3", "7"],
        &["walk", "5", "4"],
        &["walk", "9"],
    ] {
        let asked = |path: &str| wirdoku(&[&rest[..1], &[path], &rest[1..]].concat());
        let (found, expected) = (asked(&path), asked(&bare));
        assert_eq!((found.status, found.err), (expected.status, expected.err));
        match rest[0] {
            "walk" => assert_eq!(found.out.lines().last(), expected.out.lines().last()),
            _ => assert_eq!(found.out, expected.out),
        }
    }
    let check = |path: &str| wirdoku(&["check", path, "--quiet", "--up-to", "4"]);
    let (found, expected) = (check(&path), check(&bare));
    for outcome in [&found, &expected] {
        assert!(outcome.status == 10 && outcome.out.contains("\nstep bytes: 5 3 7\n"), "{:?}", outcome);
    }
    assert_eq!(found.out.lines().last(), expected.out.lines().last());
}

/// What next/docs/NAMES.md shows is what the command prints, with the page's own file of names.
#[test]
fn the_page_on_names() {
    let page = fs::read_to_string(concat!(env!("CARGO_MANIFEST_DIR"), "/docs/NAMES.md")).unwrap();
    let block = |after: &str| page.split(after).nth(1).unwrap().split("```").next().unwrap().to_string();
    let names = block("```names\n");
    let folder = Folder::new();
    fs::create_dir(folder.path().join("models")).unwrap();
    folder.file("models/logger_b.txt", model_text("logger_b.txt").as_bytes());
    let examples: Vec<&str> =
        page.split("```console\n$ wirdoku ").skip(1).map(|rest| rest.split("```").next().unwrap()).collect();
    assert_eq!(examples.len(), 3);
    for (example, clock) in examples.iter().zip(["clock 0", "clock 0", "clock 1"]) {
        folder.file("models/logger_b.names", names.replace("clock 0", clock).as_bytes());
        let (line, shown) = example.split_once('\n').unwrap();
        let words: Vec<&str> = line.split(' ').collect();
        let found = outcome(command(&words).current_dir(folder.path()));
        assert_eq!(found.out + &found.err, shown, "{}", line);
    }
    let rows: Vec<(&str, &str)> =
        page.lines().filter_map(|row| row.strip_prefix("| `")?.strip_suffix(" |")?.split_once("` | ")).collect();
    assert_eq!(rows.len(), 11);
    for (line, reason) in rows {
        let told = Names::of(line.as_bytes(), &drawing()).expect_err(line);
        assert_eq!(told, format!("line 1: {}\n    {}", reason, line));
    }
}
