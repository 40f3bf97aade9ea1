//! `dot`: the graph, as it is stored for logger B and as Graphviz reads it for every shipped model; paths of runs.

mod common;

use std::collections::BTreeSet;
use std::fs;
use std::io::Write;
use std::process::{Command, Stdio};

use common::{installed, model, model_text, wirdoku, wirdoku_with_input, Folder};
use wirdoku_next::drawing::Drawing;
use wirdoku_next::joined::joined;

const BLUE: &str = "#0b4f8a";

/// What Graphviz makes of a graph; it must not have anything to say about it.
fn rendered(graph: &str, form: &str) -> String {
    let mut command = Command::new(installed("dot"));
    let mut child = command.arg(form).stdin(Stdio::piped()).stdout(Stdio::piped()).stderr(Stdio::piped()).spawn().unwrap();
    child.stdin.take().unwrap().write_all(graph.as_bytes()).unwrap();
    let output = child.wait_with_output().unwrap();
    assert!(output.status.success() && output.stderr.is_empty(), "{:?}\n{}", output, graph);
    String::from_utf8(output.stdout).unwrap()
}

/// The texts of a picture, without the spaces around them.
fn texts(svg: &str) -> BTreeSet<String> {
    let inner = svg.split("<text ").skip(1).map(|piece| piece.split('>').nth(1).unwrap().split('<').next().unwrap());
    inner.map(|text| text.replace("&#160;", " ").trim_matches(|c: char| c.is_whitespace()).to_string()).collect()
}

fn stored(name: &str) -> String {
    fs::read_to_string(format!("{}/docs/{}", env!("CARGO_MANIFEST_DIR"), name)).unwrap()
}

/// The line of a graph that begins so, after its indent.
fn line_of<'a>(graph: &'a str, beginning: &str) -> &'a str {
    let found = graph.lines().map(str::trim_start).find(|line| line.starts_with(beginning));
    found.unwrap_or_else(|| panic!("no line {} in {}", beginning, graph))
}

#[test]
fn the_stored_graph_and_picture_of_logger_b() {
    let outcome = wirdoku(&["dot", &model("logger_b.txt"), "5", "3", "7"]);
    assert_eq!((outcome.status, outcome.err.as_str()), (10, ""));
    assert_eq!(outcome.out, stored("logger_b.dot"));
    // the layout may differ with Graphviz's release and the fonts, what is written in the picture must not
    let picture = texts(&stored("logger_b.svg"));
    assert!(picture.contains("step 2: delay 3") && picture.contains("3 lost"), "{:?}", picture);
    assert_eq!(texts(&rendered(&outcome.out, "-Tsvg")), picture);
}

/// Asserts that Graphviz reads these locations and edges, the arrow at the initial one, and no others.
fn assert_graph(graph: &str, drawing: &Drawing, shown: &BTreeSet<usize>) {
    let plain = rendered(graph, "-Tplain");
    let words = |kind: &str, count: usize| -> Vec<Vec<String>> {
        let lines = plain.lines().map(|line| line.split(' ').map(str::to_string).collect::<Vec<_>>());
        lines.filter(|words| words[0] == kind).map(|words| words[1..=count].to_vec()).collect()
    };
    let mut nodes = words("node", 1).concat();
    let mut expected: Vec<String> = shown.iter().map(usize::to_string).chain(["start".to_string()]).collect();
    nodes.sort();
    expected.sort();
    assert_eq!(nodes, expected);
    let mut arrows = words("edge", 2);
    let edges = drawing.edges.iter().filter(|edge| shown.contains(&edge.source));
    let mut expected: Vec<Vec<String>> = edges.map(|edge| vec![edge.source.to_string(), edge.target.to_string()]).collect();
    expected.push(vec!["start".to_string(), drawing.initial.to_string()]);
    arrows.sort();
    expected.sort();
    assert_eq!(arrows, expected);
    let doubled: Vec<&str> = graph.lines().filter(|line| line.contains("peripheries=2")).collect();
    assert_eq!(doubled.len(), usize::from(shown.contains(&drawing.target)));
}

#[test]
fn graphviz_reads_every_shipped_model() {
    let entries = fs::read_dir(model("")).unwrap().map(|entry| entry.unwrap().file_name().into_string().unwrap());
    let names: Vec<String> = entries.filter(|name| name.ends_with(".txt")).collect();
    assert!(names.len() >= 11);
    for name in names {
        let outcome = wirdoku(&["dot", &model(&name)]);
        assert_eq!((outcome.status, outcome.out.contains(BLUE)), (0, false), "{:?}", outcome);
        let drawing = Drawing::of(model_text(&name).as_bytes()).unwrap();
        assert_graph(&outcome.out, &drawing, &(0..drawing.locations()).collect());
    }
}

/// Of two models the locations are shown that edges lead to, each with the pair's number.
#[test]
fn graphviz_reads_two_models_composed() {
    let text = |name: &str| Drawing::of(model_text(name).as_bytes()).unwrap();
    let whole = joined(&text("logger.txt"), &text("watchdog.txt"));
    let run = ["4", "11", "2", "13", "3", "20"];
    let (first, second) = (model("logger.txt"), model("watchdog.txt"));
    let outcome = wirdoku(&[&["dot", &first, &second], &run[..]].concat());
    assert_eq!(outcome.status, 10);
    assert_graph(&outcome.out, &whole, &[0, 2, 4, 7, 9, 10].into());
    assert!(
        line_of(&outcome.out, "label=").contains(&format!("<br/>first: {}<br/>second: {}<br/>a run of 6 steps", first, second))
    );
    // the pair that fires, with the edge of each, and the delay before it
    let fired = line_of(&outcome.out, "4 -> 7 ");
    for part in ["step 6<", "<b>edge 9", "first: edge 7", "second: edge 1", "label 2", BLUE] {
        assert!(fired.contains(part), "{}: {}", part, fired);
    }
    assert!(line_of(&outcome.out, "4 [").contains("<b>step 5: delay 3</b>"));
    // an edge of one model alone
    let alone = line_of(&outcome.out, "0 -> 2 ");
    assert!(alone.contains("first: edge 0") && !alone.contains("second: "), "{}", alone);
}

/// Edges between the same locations stay apart, and so does one that leads back to where it begins.
#[test]
fn parallel_edges_and_loops() {
    let head = "locations=2\ninit=1\ntarget=1\nclocks=2\nvars=2\nvar=31,0\nvar=31,0\ninv=-\ninv=x0<=3,x1>1\nedges=3\n";
    let edges = "from=0\nto=1\nlabel=0\nwhen=-\nset=v0:=7,v1:=v0-2\nreset=x0,x1:=x0\n\
                 from=0\nto=1\nlabel=15\nwhen=x0<2,v0!=31\nset=v0:=v1+0\nreset=-\n\
                 from=1\nto=1\nlabel=0\nwhen=-\nset=v1:=v1+3\nreset=-\n";
    let text = format!("{}{}", head, edges);
    let outcome = wirdoku_with_input(&["dot", "-"], text.as_bytes());
    assert_eq!(outcome.status, 0);
    assert_graph(&outcome.out, &Drawing::of(text.as_bytes()).unwrap(), &[0, 1].into());
    let lines = [
        "0 [label=<<b>0</b>>]",
        "1 [label=<<b>1</b><br/>x0 &lt;= 3, x1 &gt; 1>, peripheries=2]",
        "0 -> 1 [label=<&#160;<b>edge 0</b>&#160;<br/>&#160;v0 := 7&#160;<br/>&#160;v1 := v0 - 2&#160;<br/>&#160;x0 := 0&#160;<br/>&#160;x1 := x0&#160;>]",
        "0 -> 1 [label=<&#160;<b>edge 1</b>&#160;<br/>&#160;label 15&#160;<br/>&#160;x0 &lt; 2, v0 != 31&#160;<br/>&#160;v0 := v1&#160;>]",
        "1 -> 1 [label=<&#160;<b>edge 2</b>&#160;<br/>&#160;v1 := v1 + 3&#160;>]",
        "start -> 1",
    ];
    let found: BTreeSet<&str> = outcome.out.lines().skip(5).map(str::trim_start).collect();
    assert_eq!(found, lines.into_iter().chain(["}"]).collect());
}

#[test]
fn a_run_is_marked_as_far_as_it_is_allowed() {
    let path = model("logger_b.txt");
    let cases = [
        (
            &["5", "4", "7"][..],
            "no run into the target: refusal 28, step 2: the step is not<br/>",
            &["0 [", "1 [", "0 -> 1 "][..],
        ),
        (&["5", "3"], "no run into the target: refusal 30: the", &["0 [", "1 [", "0 -> 1 "]),
        (
            &["5", "0", "6", "8"],
            "no run into the target: refusal 27, step 4: the step byte<br/>",
            &["0 [", "1 [", "2 [", "0 -> 1 ", "1 -> 2 "],
        ),
        (&["7"], "no run into the target: refusal 28, step 1: the step is not<br/>", &["0 ["]),
    ];
    for (steps, caption, marked) in cases {
        let outcome = wirdoku(&[&["dot", &path], steps].concat());
        assert_eq!((outcome.status, outcome.err.as_str()), (20, ""));
        assert!(line_of(&outcome.out, "label=").starts_with(&format!("label=<<br/>{}", caption)), "{}", outcome.out);
        for beginning in ["0 [", "1 [", "2 [", "3 [", "0 -> 1 ", "1 -> 2 ", "1 -> 3 "] {
            let line = line_of(&outcome.out, beginning);
            assert_eq!(line.contains(BLUE), marked.contains(&beginning), "{:?}: {}", steps, line);
        }
        rendered(&outcome.out, "-Tsvg");
    }
    let text = model_text("logger_b.txt").replacen("inv=-", "inv=x0>=1", 1);
    let outcome = wirdoku_with_input(&["dot", "-", "5"], text.as_bytes());
    assert_eq!((outcome.status, outcome.out.contains(BLUE)), (20, false));
    assert!(line_of(&outcome.out, "label=").contains("refusal 29: "));
    wirdoku(&[&["dot", &path[..]][..], &["0"; 65]].concat()).assert_stopped(2, &format!("{}: refusal 21: ", path));
}

/// Steps that do the same stand together, in lines that are not too long.
#[test]
fn repeated_steps_are_told_together() {
    let path = model("logger_b.txt");
    let steps: Vec<&str> = [vec!["1"; 2], vec!["0"; 30], vec!["1", "5", "0", "6"]].concat();
    let outcome = wirdoku(&[&["dot", &path[..]][..], &steps].concat());
    let line = line_of(&outcome.out, "0 [");
    assert!(line.contains("<b>steps 1, 2, 33: delay 1</b>"), "{}", line);
    assert!(line.contains("<b>steps 3, 4, 5, 6, 7, 8, 9, 10, 11, 12,</b>"), "{}", line);
    assert!(line.contains("<b>32: delay 0</b>"), "{}", line);
    assert!(line_of(&outcome.out, "1 [").contains("<b>step 35: delay 0</b>"));
    assert!(line_of(&outcome.out, "1 -> 2 ").contains("<b>step 36</b>"));
    let picture = texts(&rendered(&outcome.out, "-Tsvg"));
    assert!(picture.iter().all(|text| text.len() <= 60), "{:?}", picture);
}

/// A file's name may hold whatever Graphviz would act on.
#[test]
fn names_of_files_are_escaped() {
    let folder = Folder::new();
    let text = model_text("a.txt");
    let name = "a\\N\\\"<b>&amp;\n]}{.txt";
    let (first, second) = (folder.file(name, text.as_bytes()), folder.file("-\\", text.as_bytes()));
    let outcome = wirdoku(&["dot", &first, &second]);
    assert_eq!(outcome.status, 0, "{:?}", outcome);
    let picture = texts(&rendered(&outcome.out, "-Tsvg"));
    let shown = |ending: &str| picture.iter().any(|text| text.ends_with(ending));
    assert!(shown("/a\\N\\&quot;&lt;b&gt;&amp;amp;\u{fffd}]}{.txt"), "{:?}", picture);
    assert!(shown("/&#45;\\") || shown("/-\\"), "{:?}", picture);
}
