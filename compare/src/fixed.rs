//! Worked cases: the answers stand here as the document gives them, or follow from trying everything.

use reference::gen::models::{model_a, model_b, saving};
use reference::model::{Atom, Model, Relation};
use wirdoku::library::{self, Answer, FileAnswer, Sizes, State};

use crate::expected::List;
use crate::lent::Lent;
use crate::part::Seeds;
use crate::tally::Tally;
use crate::texts::written;
use crate::{calls, nulls, outputs, pair_fixed};

const ACCEPTED: Answer = Answer { number: 0, place: 0 };

pub fn fixed(tally: &mut Tally, _: Seeds) {
    models_in_the_repository(tally);
    lists(tally);
    files(tally);
    assignments_of_a(tally);
    runs_of_a_at_2(tally);
    runs_of_b(tally);
    initial_invariant(tally);
    listed_updates(tally);
    sets(tally);
    copied_clocks(tally);
    resets(tally);
    labelled(tally);
    labels(tally);
    greatest_bound(tally);
    limits_of_the_text(tally);
    outputs::worked(tally);
    pair_fixed::worked(tally);
    nulls::nulls(tally);
}

fn sizes(number: u8, variables: usize, clauses: usize, words: usize) -> Sizes {
    Sizes { number, line: 0, variables, clauses, words }
}

fn told(number: u8, place: usize) -> Answer {
    Answer { number, place }
}

/// `models/a.txt` and `models/logger_b.txt` are the two models of the document.
fn models_in_the_repository(tally: &mut Tally) {
    let models = concat!(env!("CARGO_MANIFEST_DIR"), "/../models");
    for (name, model) in [("a.txt", model_a()), ("logger_b.txt", model_b())] {
        let stored = std::fs::read(format!("{models}/{name}")).unwrap_or_default();
        tally.same("stored text", written(&model), stored.clone());
        tally.answer("read", ACCEPTED, library::read(&stored));
        tally.case(|| format!("models/{name}"));
    }
}

/// The words of P1 and P2 stand in tool/tests/library.rs.
fn lists(tally: &mut Tally) {
    let (a, b) = (written(&model_a()), written(&model_b()));
    list(tally, &a, 0, sizes(0, 2, 4, 10));
    list(tally, &a, 1, sizes(0, 7, 16, 51));
    list(tally, &a, 2, sizes(0, 12, 28, 92));
    list(tally, &b, 3, sizes(0, 68, 424, 1516));
    let shape = library::shape(&b);
    tally.same("M, S and H of B", (4, 11, 8), (shape.ceiling, shape.state, shape.choices));
    tally.case(|| "shape of B".to_string());
}

/// The totals; the words needed suffice and one less gives 22; the list is the reference's.
fn list(tally: &mut Tally, text: &[u8], bound: usize, expected: Sizes) {
    tally.answer("counts", expected, library::counts(text, bound));
    let mut exact = Lent::new(3, expected.words);
    tally.answer("emit", expected, library::emit(text, bound, exact.slice()));
    let mut short = Lent::new(5, expected.words - 1);
    let refused = sizes(22, 0, 0, expected.words);
    tally.answer("emit", refused, library::emit(text, bound, short.slice()));
    tally.buffer("emit", &short, &[]);
    calls::list(tally, 7, text, bound, &[expected.words, expected.words + 9, expected.words - 1, 0]);
    tally.case(|| format!("list of a worked model at bound {bound}"));
}

/// The whole file of A at bound 1 stands in tool/tests/library.rs.
fn files(tally: &mut Tally) {
    let (a, b) = (written(&model_a()), written(&model_b()));
    for (bound, bytes) in [(0, 32), (1, 133), (2, 249)] {
        file(tally, &a, bound, bytes);
    }
    for (bound, bytes) in [(0, 211), (1, 1_708), (2, 3_266), (3, 4_824), (64, 124_483)] {
        file(tally, &b, bound, bytes);
    }
}

/// The length; it suffices, one byte more is left as it was, and one less gives 32; the file is the reference's.
fn file(tally: &mut Tally, text: &[u8], bound: usize, bytes: usize) {
    let accepted = FileAnswer { number: 0, line: 0, bytes };
    let mut more = Lent::<u8>::new(3, bytes + 1);
    tally.answer("dimacs", accepted, library::dimacs(text, bound, more.slice()));
    let mut short = Lent::<u8>::new(5, bytes - 1);
    tally.answer("dimacs", FileAnswer { number: 32, ..accepted }, library::dimacs(text, bound, short.slice()));
    tally.buffer("dimacs", &short, &[]);
    let list = List::of_text(text, bound);
    for room in [bytes, bytes + 1, bytes + 9, bytes - 1, 0] {
        calls::file(tally, 7 + room as u64, text, bound, (&list, &list.file()), room);
    }
    tally.case(|| format!("file of a worked model at bound {bound}"));
}

/// P3 and P4; and of all 128 assignments for bound 1 exactly one is accepted, of all 4,096 for bound 2
/// exactly four, each answered as the reference does.
fn assignments_of_a(tally: &mut Tally) {
    let a = written(&model_a());
    let mut run = [9];
    let p3 = library::assignment_to_run(&a, 1, &[1, 0, 0, 0, 1, 0, 1], &mut run);
    tally.same("P3", (ACCEPTED, [2]), (p3, run));
    tally.case(|| "P3".to_string());
    let p4 = library::assignment_to_run(&a, 1, &[1, 0, 1, 0, 0, 1, 0], &mut run);
    tally.same("P4", (told(26, 15), [2]), (p4, run));
    tally.case(|| "P4".to_string());
    for (bound, variables, runs) in [(0, 2, 0), (1, 7, 1), (2, 12, 4)] {
        let mut accepted = 0;
        for bits in 0..1_u32 << variables {
            let assignment: Vec<u8> = (0..variables).map(|v| (bits >> v & 1) as u8).collect();
            calls::decode(tally, u64::from(bits), &a, (bound, &assignment), bound);
            let told = library::assignment_to_run(&a, bound, &assignment, &mut [0; 2]);
            accepted += u32::from(told.number == 0);
        }
        tally.same("accepted", runs, accepted);
        tally.case(|| format!("every assignment of A at bound {bound}"));
    }
}

/// P5: of the nine pairs of steps exactly four are runs; each becomes an assignment and a run again.
fn runs_of_a_at_2(tally: &mut Tally) {
    let a = written(&model_a());
    let mut accepted = Vec::new();
    for run in (0..9).map(|pair| [pair / 3, pair % 3]) {
        calls::walk(tally, &a, &run);
        calls::encode(tally, 5, &a, &run, 12);
        let mut assignment = [9; 12];
        if library::run_to_assignment(&a, &run, &mut assignment) == ACCEPTED {
            let mut back = [9; 2];
            let answer = library::assignment_to_run(&a, 2, &assignment, &mut back);
            tally.same("run to assignment to run", (ACCEPTED, run), (answer, back));
            accepted.push(run);
        }
    }
    tally.same("runs", vec![[0, 2], [1, 2], [2, 0], [2, 1]], accepted);
    tally.case(|| "P5: the runs of A at bound 2".to_string());
}

/// P6 to P9.
fn runs_of_b(tally: &mut Tally) {
    let b = written(&model_b());
    let every = (0..512_u32).map(|n| [(n / 64) as u8, (n / 8 % 8) as u8, (n % 8) as u8]);
    let runs: Vec<[u8; 3]> = every.filter(|run| library::walk(&b, run) == ACCEPTED).collect();
    tally.same("runs of 3 steps", vec![[5, 3, 7]], runs);
    tally.case(|| "P6: the only run of B at bound 3".to_string());
    tally.answer("walk", told(28, 2), library::walk(&b, &[5, 4, 7]));
    tally.case(|| "P7".to_string());
    tally.answer("walk", told(30, 0), library::walk(&b, &[5, 3]));
    tally.case(|| "P8".to_string());
    tally.answer("walk", told(27, 3), library::walk(&b, &[5, 3, 8]));
    tally.case(|| "P9".to_string());
    let mut assignment = [9; 68];
    tally.answer("run_to_assignment", ACCEPTED, library::run_to_assignment(&b, &[5, 3, 7], &mut assignment));
    let flipped = |index: usize| {
        let mut other = assignment;
        other[index] ^= 1;
        other
    };
    calls::decode(tally, 5, &b, (3, &assignment), 3);
    for index in 0..68 {
        calls::decode(tally, 5, &b, (3, &flipped(index)), 3);
        tally.same("flipped", 26, library::assignment_to_run(&b, 3, &flipped(index), &mut [0; 3]).number);
    }
    tally.case(|| "the run of B at bound 3 and each byte of its assignment flipped".to_string());
}

/// P10: A with one clock and x0>=1 in location 0 has no run, not even of 0 steps.
fn initial_invariant(tally: &mut Tally) {
    let mut model: Model = model_a();
    model.clocks = 1;
    model.invariant[0][0] = Atom::clock(0, Relation::GreaterEqual, 1);
    model.target = 0;
    let text = written(&model);
    tally.answer("walk", told(29, 0), library::walk(&text, &[]));
    calls::encode(tally, 5, &text, &[], 5);
    calls::reading(tally, 5, &text);
    tally.case(|| "P10".to_string());
}

/// Model A with two counters of greatest value 1 and a list of updates, which stands in line 15.
fn setting(set: &str) -> Vec<u8> {
    let a = String::from_utf8(written(&model_a())).unwrap_or_default();
    a.replace("vars=0", "vars=2\nvar=1,0\nvar=1,0").replace("\nset=-", &format!("\nset={set}")).into_bytes()
}

fn counters(location: u8, v0: u8, v1: u8) -> State {
    State { location, counters: [v0, v1, 0, 0], clocks: [0; 4] }
}

/// Updates in their written order: a raised counter and its copy in both orders, of which the lists differ in two
/// clauses and the runs in their end; and two copies.
fn listed_updates(tally: &mut Tally) {
    let (after, before) = ("v0:=v0+1,v1:=v0+0", "v1:=v0+0,v0:=v0+1");
    for (set, copied, clauses) in [(after, 1, [[-9, -12, 14], [-9, -13, 15]]), (before, 0, [[-9, -3, 14], [-9, -4, 15]])] {
        let text = setting(set);
        list(tally, &text, 1, sizes(0, 15, 38, 126));
        let mut words = [0; 126];
        library::emit(&text, 1, &mut words);
        let found = words.split(|word| *word == 0).skip(29).take(2);
        tally.same("clauses 30 and 31", clauses.map(|clause| clause.to_vec()).to_vec(), found.map(<[i32]>::to_vec).collect());
        let stepped = library::step(&text, counters(0, 0, 0), 2);
        tally.same("the edge", (0, counters(1, 1, copied)), (stepped.number, stepped.state));
        let again = library::step(&text, counters(0, 1, 0), 2);
        tally.same("the edge from v0=1", (28, counters(0, 1, 0)), (again.number, again.state));
        let mut assignment = [9; 15];
        let answer = library::run_to_assignment(&text, &[2], &mut assignment);
        let expected = [1, 0, 1, 0, 1, 0, 0, 0, 1, 0, 1, 0, 1, 1 - copied, copied];
        tally.same("the run 2", (ACCEPTED, expected), (answer, assignment));
        calls::decode(tally, 5, &text, (1, &expected), 1);
        tally.case(|| format!("set={set}"));
    }
    let copies = setting("v0:=v1+0,v1:=v0+0");
    let stepped = library::step(&copies, counters(0, 0, 1), 2);
    tally.same("two copies", (0, counters(1, 1, 1)), (stepped.number, stepped.state));
    calls::step(tally, &copies, counters(0, 0, 1), 2);
    tally.case(|| "set=v0:=v1+0,v1:=v0+0".to_string());
}

/// Lists of updates: any order is taken, a counter that is set twice is not; 3, 4 and 5 come before 6.
fn sets(tally: &mut Tally) {
    let cases = [
        ("v1:=1,v0:=1", 0),
        ("v1:=v1+0,v0:=v1+0", 0),
        ("v1:=1,v0:=1,v1:=0", 6),
        ("v0:=1,v0:=1", 6),
        ("v1:=1,v1:=v9+0", 5),
        ("v0:=1,v1:=1,v0:=1,v1:=1,v0:=32", 4),
        ("v0:=1,v1:=1,v0:=1,v1:=1,v0:=31", 6),
        ("v1:=1,v0:=1,x", 3),
    ];
    values(tally, 15, &cases, setting);
}

/// Values of a line, accepted or refused there.
fn values(tally: &mut Tally, line: usize, cases: &[(&str, u8)], text: fn(&str) -> Vec<u8>) {
    for (value, number) in cases {
        let text = text(value);
        tally.answer("read", told(*number, if *number == 0 { 0 } else { line }), library::read(&text));
        calls::reading(tally, 5, &text);
        tally.case(|| format!("line {line}: {value}"));
    }
}

/// The model that saves a clock, with other reset items and without its guard; the items stand in line 14.
fn resetting(reset: &str) -> Vec<u8> {
    let text = String::from_utf8(written(&saving())).unwrap_or_default();
    text.replace("when=x0>=1", "when=-").replace("reset=x0,x1:=x0", &format!("reset={reset}")).into_bytes()
}

fn clocks(location: u8, x0: u8, x1: u8) -> State {
    State { location, counters: [0; 4], clocks: [x0, x1, 0, 0] }
}

/// Copies of clocks: a clock saved beside its reset, with all its runs of 2 steps; two clocks exchanged.
fn copied_clocks(tally: &mut Tally) {
    let text = written(&saving());
    list(tally, &text, 1, sizes(0, 20, 62, 215));
    list(tally, &text, 2, sizes(0, 32, 110, 390));
    let shape = library::shape(&text);
    tally.same("M, S and H", (2, 8, 4), (shape.ceiling, shape.state, shape.choices));
    let saved: [&[i32]; 7] = [&[-12, 1], &[-12, 14], &[-12, -3], &[-12, 15], &[-12, -3, 18], &[-12, -4, 19], &[-12, -5, 20]];
    edge_clauses(tally, &text, &saved);
    stepped(tally, &text, clocks(0, 1, 2), 3, clocks(1, 0, 1));
    let every = (0..16).map(|pair| [pair / 4, pair % 4]);
    let runs: Vec<[u8; 2]> = every.filter(|run| library::walk(&text, run) == ACCEPTED).collect();
    tally.same("runs of 2 steps", vec![[1, 3], [2, 3]], runs);
    tally.case(|| "a clock saved beside its reset".to_string());
    let exchange = resetting("x0:=x1,x1:=x0");
    list(tally, &exchange, 1, sizes(0, 15, 38, 127));
    edge_clauses(tally, &exchange, &[&[-9, 1], &[-9, 11], &[-9, -5, 12], &[-9, -6, 13], &[-9, -3, 14], &[-9, -4, 15]]);
    stepped(tally, &exchange, clocks(0, 0, 1), 2, clocks(1, 1, 0));
    tally.case(|| "two clocks exchanged".to_string());
    for reset in ["x1:=x1", "-"] {
        stepped(tally, &resetting(reset), clocks(0, 0, 1), 2, clocks(1, 0, 1));
        tally.case(|| format!("reset={reset}"));
    }
}

/// The clauses at bound 1 that begin with the last choice, which is the edge of the model.
fn edge_clauses(tally: &mut Tally, text: &[u8], expected: &[&[i32]]) {
    let shape = library::shape(text);
    let edge = (shape.state + shape.choices) as i32;
    let mut words = vec![0; library::counts(text, 1).words];
    library::emit(text, 1, &mut words);
    let found: Vec<&[i32]> = words.split(|word| *word == 0).filter(|clause| clause.first() == Some(&-edge)).collect();
    tally.same("clauses of the edge", expected, &found[..]);
}

fn stepped(tally: &mut Tally, text: &[u8], before: State, byte: u8, after: State) {
    let answer = library::step(text, before, byte);
    tally.same("the edge", (0, after), (answer.number, answer.state));
    calls::step(tally, text, before, byte);
}

/// Reset items: copies in every form, 3, 5 and 6 and their order.
fn resets(tally: &mut Tally) {
    let cases = [
        ("x0:=x1", 0),
        ("x0:=x0", 0),
        ("x0,x1:=x0", 0),
        ("x0:=x1,x1:=x0", 0),
        ("x1:=x0,x0", 6),
        ("x0:=x1,x0", 6),
        ("x0:=x2", 5),
        ("x2:=x0", 5),
        ("x1:=x0,x0:=x9", 5),
        ("x0:=x999", 5),
        ("x0:=x1000", 3),
        ("x0:=x1,", 3),
        ("x0:=0", 3),
        ("x0:=x1+0", 3),
        ("x0=x1", 3),
    ];
    values(tally, 14, &cases, resetting);
}

/// Model B with another line 14, which is the label of its first edge.
fn with_first_label(line: &str) -> Vec<u8> {
    b_text().replacen("label=0", line, 1).into_bytes()
}

fn b_text() -> String {
    String::from_utf8(written(&model_b())).unwrap_or_default()
}

/// Model B with labels: its list and its runs are those without.
fn labelled(tally: &mut Tally) {
    tally.same("bytes of A and B", (105, 227), (written(&model_a()).len(), b_text().len()));
    for (one, every) in [(15, 0), (1, 15), (9, 9)] {
        let text = b_text().replacen("label=0", &format!("label={one}"), 1).replace("label=0", &format!("label={every}"));
        list(tally, text.as_bytes(), 3, sizes(0, 68, 424, 1516));
        let mut lists = [[0; 1516]; 2];
        library::emit(text.as_bytes(), 3, &mut lists[0]);
        library::emit(b_text().as_bytes(), 3, &mut lists[1]);
        tally.same("list of B without labels", true, lists[0] == lists[1]);
        for (run, expected) in
            [(&[5, 3, 7][..], ACCEPTED), (&[5, 4, 7], told(28, 2)), (&[5, 3], told(30, 0)), (&[5, 3, 8], told(27, 3))]
        {
            tally.answer("walk", expected, library::walk(text.as_bytes(), run));
        }
        tally.case(|| format!("B with label {one} and then {every}"));
    }
}

/// Label lines: both sides of the limit, every form, lines that are not there.
fn labels(tally: &mut Tally) {
    let cases = [
        ("label=0", 0),
        ("label=15", 0),
        ("label=16", 4),
        ("label=999", 4),
        ("label=1000", 3),
        ("label=015", 3),
        ("label=-", 3),
        ("label=", 3),
        ("label=x1", 3),
        ("when=-", 2),
        ("Label=1", 2),
    ];
    values(tally, 14, &cases, with_first_label);
    let second = b_text().replace("to=2\nlabel=0\n", "to=2\n");
    let none = b_text().replace("label=0\n", "");
    for (text, line) in [(second, 20), (none, 14)] {
        tally.answer("read", told(2, line), library::read(text.as_bytes()));
        calls::reading(tally, 5, text.as_bytes());
        tally.case(|| format!("no label in line {line}"));
    }
}

/// 64 is taken and 65 gives 21, in every call with a bound or a run.
fn greatest_bound(tally: &mut Tally) {
    let a = written(&model_a());
    let mut run = [0; 65];
    run[0] = 2;
    for (bound, number) in [(64, 0), (65, 21)] {
        let run = &run[..bound];
        tally.same("counts", number, library::counts(&a, bound).number);
        tally.same("walk", number, library::walk(&a, run).number);
        let mut words = vec![0; library::counts(&a, bound).words];
        tally.same("emit", number, library::emit(&a, bound, &mut words).number);
        tally.same("dimacs", number, library::dimacs(&a, bound, &mut [0; 20_000]).number);
        let mut assignment = vec![0; 2 + 5 * bound];
        tally.same("run to assignment", number, library::run_to_assignment(&a, run, &mut assignment).number);
        let answer = library::assignment_to_run(&a, bound, &assignment, &mut [0; 65]);
        tally.same("assignment to run", number, answer.number);
        let input = [format!("bound={bound}\n").as_bytes(), &a].concat();
        tally.same("size", number, library::size(&input, &mut words).number);
        tally.case(|| format!("bound {bound}"));
    }
}

/// Texts on both sides of a limit.
fn limits_of_the_text(tally: &mut Tally) {
    let a = String::from_utf8(written(&model_a())).unwrap_or_default();
    let b = String::from_utf8(written(&model_b())).unwrap_or_default();
    let locations = |count: usize| {
        a.replace("locations=2", &format!("locations={count}"))
            .replace("inv=-\n", "")
            .replace("edges", &("inv=-\n".repeat(count) + "edges"))
    };
    let invariant = |value: &str| b.replace("inv=x0<=3", &format!("inv={value}"));
    let longer = |length: usize| a.clone() + &"\n".repeat(length - a.len());
    let cases = [
        (locations(16), told(0, 0)),
        (locations(17), told(4, 1)),
        (invariant("x0<=30"), told(0, 0)),
        (invariant("x0<=31"), told(4, 8)),
        (invariant("x0<=3,x0<=3,x0<=3,x0<=3"), told(0, 0)),
        (invariant("x0<=3,x0<=3,x0<=3,x0<=3,x0<=3"), told(7, 8)),
        (longer(8192), told(8, 15)),
        (longer(8193), told(1, 0)),
        (String::new(), told(2, 1)),
    ];
    for (text, expected) in cases {
        tally.answer("read", expected, library::read(text.as_bytes()));
        calls::reading(tally, 5, text.as_bytes());
        tally.case(|| crate::show::text(text.as_bytes()));
    }
}
