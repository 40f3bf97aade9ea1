//! The safe calls over the C boundary: that every number arrives where it belongs, with the document's worked cases.

mod common;

use common::model_text;
use wirdoku::library::{
    self, Answer, FileAnswer, OutputAnswer, PairAnswer, PartSteps, RefutationAnswer, Shape, Sizes, State, StateAnswer,
    NOT_REFUTED, REFUTED, SATISFIABLE, STAYS, UNSATISFIABLE,
};

const UNTOUCHED: u8 = 77;

fn a() -> Vec<u8> {
    model_text("a.txt").into_bytes()
}

fn b() -> Vec<u8> {
    model_text("logger_b.txt").into_bytes()
}

/// Model A with a clock and an initial invariant that fails.
fn without_start() -> Vec<u8> {
    let text = model_text("a.txt").replace("clocks=0", "clocks=1");
    text.replacen("inv=-", "inv=x0>=1", 1).into_bytes()
}

fn answer(number: u8, place: usize) -> Answer {
    Answer { number, place }
}

fn sizes(number: u8, line: usize, variables: usize, clauses: usize, words: usize) -> Sizes {
    Sizes { number, line, variables, clauses, words }
}

fn file_answer(number: u8, line: usize, bytes: usize) -> FileAnswer {
    FileAnswer { number, line, bytes }
}

fn state(location: u8, v0: u8, x0: u8) -> State {
    State { location, counters: [v0, 0, 0, 0], clocks: [x0, 0, 0, 0] }
}

fn state_answer(number: u8, line: usize, state: State) -> StateAnswer {
    StateAnswer { number, line, state }
}

/// The lines that the C header's structs are held to as well (compare/c/layout.c): struct or field, its offset, its size.
macro_rules! layout {
    ($name:literal, $value:expr, $($field:ident)*) => {{
        let value = $value;
        let start = &value as *const _ as usize;
        let line = |field: &str, place: usize, size: usize| format!("{}{} {} {}\n", $name, field, place - start, size);
        [
            line("", start, std::mem::size_of_val(&value)),
            $(line(
                concat!(".", stringify!($field)),
                &value.$field as *const _ as usize,
                std::mem::size_of_val(&value.$field),
            ),)*
        ]
        .concat()
    }};
}

#[test]
fn structs_have_the_headers_layout() {
    let shape = layout!(
        "wirdoku_shape", Shape::default(),
        number line locations initial target clocks counters edges ceiling state choices
    );
    let found = layout!("wirdoku_answer", Answer::default(), number place)
        + &layout!("wirdoku_sizes", Sizes::default(), number line variables clauses words)
        + &layout!("wirdoku_file", FileAnswer::default(), number line bytes)
        + &shape
        + &layout!("wirdoku_state", State::default(), location counters clocks)
        + &layout!("wirdoku_state_answer", StateAnswer::default(), number line state)
        + &layout!("wirdoku_output", OutputAnswer::default(), number line outcome)
        + &layout!("wirdoku_pair", PairAnswer::default(), number text line)
        + &layout!("wirdoku_part_steps", PartSteps::default(), number line first second);
    assert_eq!(found, include_str!("../../compare/c/layout.txt"));
}

#[test]
fn the_answer_on_refutations_has_the_headers_layout() {
    let found = layout!("wirdoku_refutation", RefutationAnswer::default(), number line words outcome);
    assert_eq!(found, include_str!("../../compare/c/refutation_layout.txt"));
}

#[test]
fn texts_are_read() {
    assert_eq!(library::read(&a()), answer(0, 0));
    assert_eq!(library::read(&b()), answer(0, 0));
    assert_eq!(library::read(b""), answer(2, 1));
    assert_eq!(library::read(&[b'\n'; 8193]), answer(1, 0));
    let text = [&b()[..], b"\n"].concat();
    assert_eq!(library::read(&text), answer(8, 30));
}

#[test]
fn a_model_shows_what_it_declares() {
    let expected = Shape {
        number: 0,
        line: 0,
        locations: 4,
        initial: 0,
        target: 3,
        clocks: 1,
        counters: 1,
        edges: 3,
        ceiling: 4,
        state: 11,
        choices: 8,
    };
    assert_eq!(library::shape(&b()), expected);
    let refused = Shape { number: 5, line: 2, ..Shape::default() };
    assert_eq!(library::shape(b"locations=2\ninit=2\n"), refused);
}

#[test]
fn totals_by_formula() {
    assert_eq!(library::counts(&a(), 0), sizes(0, 0, 2, 4, 10));
    assert_eq!(library::counts(&a(), 1), sizes(0, 0, 7, 16, 51));
    assert_eq!(library::counts(&a(), 2), sizes(0, 0, 12, 28, 92));
    assert_eq!(library::counts(&b(), 3), sizes(0, 0, 68, 424, 1516));
    assert_eq!(library::counts(&a(), 64).number, 0);
    assert_eq!(library::counts(&a(), 65), sizes(21, 0, 0, 0, 0));
    assert_eq!(library::counts(&a(), usize::MAX), sizes(21, 0, 0, 0, 0));
    assert_eq!(library::counts(b"locations=2\ninit=2\n", 65), sizes(5, 2, 0, 0, 0));
}

#[test]
fn lists_are_written_from_the_start_and_nothing_beyond() {
    let mut out = [i32::MIN; 11];
    assert_eq!(library::emit(&a(), 0, &mut out), sizes(0, 0, 2, 4, 10));
    assert_eq!(out, [1, 2, 0, -1, -2, 0, 1, 0, 2, 0, i32::MIN]);
    let list = [
        1, 2, 0, -1, -2, 0, 1, 0, 3, 4, 5, 0, -3, -4, 0, -3, -5, 0, -4, -5, 0, -3, -1, 6, 0, -3, -2, 7, 0, -4, -1, 6, 0, -4, -2,
        7, 0, -5, 1, 0, -5, 7, 0, 6, 7, 0, -6, -7, 0, 7, 0,
    ];
    let mut out = [i32::MIN; 53];
    assert_eq!(library::emit(&a(), 1, &mut out), sizes(0, 0, 7, 16, 51));
    assert_eq!(out[..51], list);
    assert_eq!(out[51..], [i32::MIN; 2]);
    let mut out = [i32::MIN; 51];
    assert_eq!(library::emit(&a(), 1, &mut out).number, 0);
    assert_eq!(out, list);
    let mut out = [i32::MIN; 50];
    assert_eq!(library::emit(&a(), 1, &mut out), sizes(22, 0, 0, 0, 51));
    assert_eq!(library::emit(&a(), 65, &mut out), sizes(21, 0, 0, 0, 0));
    assert_eq!(library::emit(b"x", 1, &mut out), sizes(2, 1, 0, 0, 0));
    assert_eq!(out, [i32::MIN; 50]);
    assert_eq!(library::emit(&a(), 1, &mut []), sizes(22, 0, 0, 0, 51));
}

#[test]
fn files() {
    let whole = "p cnf 7 16\n1 2 0\n-1 -2 0\n1 0\n3 4 5 0\n-3 -4 0\n-3 -5 0\n-4 -5 0\n-3 -1 6 0\n-3 -2 7 0\n\
                 -4 -1 6 0\n-4 -2 7 0\n-5 1 0\n-5 7 0\n6 7 0\n-6 -7 0\n7 0\n";
    let mut out = [UNTOUCHED; 134];
    assert_eq!(library::dimacs(&a(), 1, &mut out[..132]), file_answer(32, 0, 133));
    assert_eq!(library::dimacs(&a(), 1, &mut []), file_answer(32, 0, 133));
    assert_eq!(library::dimacs(&a(), 65, &mut out), file_answer(21, 0, 0));
    assert_eq!(library::dimacs(&a(), usize::MAX, &mut []), file_answer(21, 0, 0));
    assert_eq!(library::dimacs(b"locations=2\nx", 65, &mut out), file_answer(2, 2, 0));
    assert_eq!(out, [UNTOUCHED; 134]);
    assert_eq!(library::dimacs(&a(), 1, &mut out), file_answer(0, 0, 133));
    assert_eq!((&out[..133], out[133]), (whole.as_bytes(), UNTOUCHED));
    let mut exact = [UNTOUCHED; 133];
    assert_eq!(library::dimacs(&a(), 1, &mut exact), file_answer(0, 0, 133));
    assert_eq!(exact, whole.as_bytes());
    for (text, bound, bytes) in [(a(), 0, 32), (a(), 2, 249), (b(), 0, 211), (b(), 3, 4_824), (b(), 64, 124_483)] {
        assert_eq!(library::dimacs(&text, bound, &mut []), file_answer(32, 0, bytes));
    }
}

#[test]
fn the_size_programs_question() {
    let mut out = [i32::MIN; 51];
    let input = [b"bound=1\n", &a()[..]].concat();
    assert_eq!(library::size(&input, &mut out[..50]), sizes(22, 0, 0, 0, 51));
    assert_eq!(library::size(&a(), &mut out), sizes(9, 0, 0, 0, 0));
    assert_eq!(library::size(b"bound=1\nx", &mut out), sizes(2, 1, 0, 0, 0));
    assert_eq!(out, [i32::MIN; 51]);
    assert_eq!(library::size(&input, &mut out), sizes(0, 0, 7, 16, 51));
    assert_eq!(out[48..], [0, 7, 0]);
}

#[test]
fn steps_from_states() {
    assert_eq!(library::initial(&b()), state_answer(0, 0, state(0, 0, 0)));
    assert_eq!(library::initial(b"x"), state_answer(2, 1, state(0, 0, 0)));
    assert_eq!(library::initial(&without_start()).number, 0);
    assert_eq!(library::step(&b(), state(0, 0, 2), 5), state_answer(0, 0, state(1, 0, 0)));
    assert_eq!(library::step(&b(), state(1, 0, 2), 6), state_answer(0, 0, state(2, 1, 2)));
    assert_eq!(library::step(&b(), state(0, 1, 3), 4), state_answer(0, 0, state(0, 1, 4)));
    assert_eq!(library::step(&b(), state(1, 0, 0), 4), state_answer(28, 0, state(1, 0, 0)));
    assert_eq!(library::step(&b(), state(1, 1, 2), 6), state_answer(28, 0, state(1, 1, 2)));
    assert_eq!(library::step(&b(), state(1, 0, 3), 8), state_answer(27, 0, state(1, 0, 3)));
    assert_eq!(library::step(&b(), state(9, 8, 7), 0), state_answer(10, 0, state(9, 8, 7)));
    let unused = State { location: 0, counters: [0, 0, 0, 1], clocks: [0, 0, 0, 2] };
    assert_eq!(library::step(&b(), unused, 0), state_answer(10, 0, unused));
    assert_eq!(library::step(b"x", unused, 0), state_answer(2, 1, unused));
}

#[test]
fn all_slots_of_a_state_arrive() {
    let text = b"locations=2\ninit=0\ntarget=1\nclocks=4\nvars=4\nvar=9,1\nvar=9,2\nvar=9,3\nvar=9,4\ninv=-\ninv=-\nedges=1\n\
                 from=0\nto=1\nlabel=6\nwhen=x0<=30\nset=v0:=v3+0,v1:=v2+4,v2:=v1-6,v3:=v0-2\nreset=x1,x3\n";
    let start = State { location: 0, counters: [1, 2, 3, 4], clocks: [0; 4] };
    assert_eq!(library::initial(text), state_answer(0, 0, start));
    let before = State { clocks: [5, 6, 7, 8], ..start };
    let after = State { location: 1, counters: [4, 7, 1, 2], clocks: [5, 0, 7, 0] };
    assert_eq!(library::step(text, before, 32), state_answer(0, 0, after));
}

/// Model A with two counters, of which the edge raises the first and copies it, in two orders.
#[test]
fn updates_happen_in_their_written_order() {
    let text = |set: &str| {
        let counters = model_text("a.txt").replace("vars=0", "vars=2\nvar=1,0\nvar=1,0");
        counters.replace("\nset=-", &format!("\nset={}", set)).into_bytes()
    };
    let state = |location, v0, v1| State { location, counters: [v0, v1, 0, 0], clocks: [0; 4] };
    let cases =
        [("v0:=v0+1,v1:=v0+0", 1, [-9, -12, 14, 0, -9, -13, 15, 0]), ("v1:=v0+0,v0:=v0+1", 0, [-9, -3, 14, 0, -9, -4, 15, 0])];
    for (set, copied, clauses) in cases {
        let text = text(set);
        assert_eq!(library::step(&text, state(0, 0, 0), 2), state_answer(0, 0, state(1, 1, copied)), "{}", set);
        assert_eq!(library::step(&text, state(0, 1, 0), 2), state_answer(28, 0, state(0, 1, 0)), "{}", set);
        let mut out = [i32::MIN; 126];
        assert_eq!(library::emit(&text, 1, &mut out), sizes(0, 0, 15, 38, 126), "{}", set);
        assert!(out.windows(8).any(|words| words == clauses), "{}", set);
    }
    assert_eq!(library::read(&text("v1:=1,v0:=1,v1:=0")), answer(6, 15));
}

/// Model A with two clocks, and a guard and reset items of its edge, which stand in lines 12 and 14.
fn two_clocks(when: &str, reset: &str) -> Vec<u8> {
    let clocks = model_text("a.txt").replace("clocks=0", "clocks=2").replace("\nwhen=-", &format!("\nwhen={}", when));
    clocks.replace("\nreset=-", &format!("\nreset={}", reset)).into_bytes()
}

/// A copy names the clock copied from in the state before the edge, also beside its reset and beside another copy.
#[test]
fn copies_of_clocks_read_the_values_before_the_edge() {
    let state = |location, x0, x1| State { location, counters: [0; 4], clocks: [x0, x1, 0, 0] };
    let saving = two_clocks("x0>=1", "x0,x1:=x0");
    assert_eq!(library::step(&saving, state(0, 1, 2), 3), state_answer(0, 0, state(1, 0, 1)));
    assert_eq!(library::counts(&saving, 2), sizes(0, 0, 32, 110, 390));
    assert_eq!((library::walk(&saving, &[1, 3]), library::walk(&saving, &[0, 3])), (answer(0, 0), answer(28, 2)));
    let exchange = two_clocks("-", "x0:=x1,x1:=x0");
    assert_eq!(library::step(&exchange, state(0, 0, 1), 2), state_answer(0, 0, state(1, 1, 0)));
    let saved: &[i32] = &[-12, 15, 0, -12, -3, 18, 0, -12, -4, 19, 0, -12, -5, 20, 0];
    let exchanged: &[i32] = &[-9, -5, 12, 0, -9, -6, 13, 0, -9, -3, 14, 0, -9, -4, 15, 0];
    for (text, counts, clauses) in [(saving, sizes(0, 0, 20, 62, 215), saved), (exchange, sizes(0, 0, 15, 38, 127), exchanged)] {
        let mut out = vec![i32::MIN; counts.words];
        assert_eq!(library::emit(&text, 1, &mut out), counts);
        assert!(out.windows(clauses.len()).any(|words| words == clauses), "{:?}", clauses);
    }
}

#[test]
fn copies_of_clocks_in_texts() {
    let cases = [
        ("x0:=x1", 0),
        ("x0:=x0", 0),
        ("x0,x1:=x0", 0),
        ("x0:=x1,x1:=x0", 0),
        ("x0:=0", 3),
        ("x0:=x1+0", 3),
        ("x0=x1", 3),
        ("x0:=x1,", 3),
        ("x0:=x1000", 3),
        ("x0:=x999", 5),
        ("x0:=x2", 5),
        ("x2:=x0", 5),
        ("x1:=x0,x0:=x9", 5),
        ("x1:=x0,x0", 6),
        ("x0:=x1,x0", 6),
    ];
    for (reset, number) in cases {
        let line = if number == 0 { 0 } else { 14 };
        assert_eq!(library::read(&two_clocks("-", reset)), answer(number, line), "{}", reset);
    }
}

/// The first label line of model B is line 14, the second line 20.
#[test]
fn labels_in_texts() {
    let cases = [
        ("label=15", 0),
        ("label=16", 4),
        ("label=999", 4),
        ("label=1000", 3),
        ("label=015", 3),
        ("label=-", 3),
        ("label=", 3),
        ("label=x1", 3),
        ("when=-", 2),
        ("Label=1", 2),
    ];
    for (label, number) in cases {
        let line = if number == 0 { 0 } else { 14 };
        let text = model_text("logger_b.txt").replacen("label=0", label, 1);
        assert_eq!(library::read(text.as_bytes()), answer(number, line), "{}", label);
    }
    let second_missing = model_text("logger_b.txt").replace("to=2\nlabel=0\n", "to=2\n");
    assert_eq!(library::read(second_missing.as_bytes()), answer(2, 20));
    let without_labels = model_text("logger_b.txt").replace("label=0\n", "");
    assert_eq!(library::read(without_labels.as_bytes()), answer(2, 14));
}

#[test]
fn lists_and_runs_do_not_depend_on_labels() {
    let private = b();
    let labelled = model_text("logger_b.txt").replace("label=0", "label=15").into_bytes();
    assert_ne!(labelled, private);
    assert_eq!(library::shape(&labelled), library::shape(&private));
    let [list, other] = [&private, &labelled].map(|text| {
        let mut words = vec![i32::MIN; 1516];
        assert_eq!(library::emit(text, 3, &mut words), sizes(0, 0, 68, 424, 1516));
        words
    });
    assert_eq!(list, other);
    let [file, other] = [&private, &labelled].map(|text| {
        let mut bytes = vec![UNTOUCHED; 4_824];
        assert_eq!(library::dimacs(text, 3, &mut bytes), file_answer(0, 0, 4_824));
        bytes
    });
    assert_eq!(file, other);
    for run in [&[5, 3, 7][..], &[5, 4, 7], &[5, 3], &[5, 3, 8]] {
        assert_eq!(library::walk(&labelled, run), library::walk(&private, run), "{:?}", run);
    }
}

#[test]
fn runs_are_walked() {
    assert_eq!(library::walk(&b(), &[5, 3, 7]), answer(0, 0));
    assert_eq!(library::walk(&b(), &[5, 4, 7]), answer(28, 2));
    assert_eq!(library::walk(&b(), &[5, 3]), answer(30, 0));
    assert_eq!(library::walk(&b(), &[5, 3, 8]), answer(27, 3));
    assert_eq!(library::walk(&b(), &[]), answer(30, 0));
    assert_eq!(library::walk(&b(), &[0; 65]), answer(21, 0));
    assert_eq!(library::walk(&without_start(), &[]), answer(29, 0));
    assert_eq!(library::walk(b"x", &[]), answer(2, 1));
}

#[test]
fn assignments_become_runs() {
    let mut run = [UNTOUCHED; 2];
    assert_eq!(library::assignment_to_run(&a(), 1, &[1, 0, 1, 0, 0, 1, 0], &mut run), answer(26, 15));
    assert_eq!(library::assignment_to_run(&a(), 1, &[1, 0, 0, 0, 1, 0], &mut run), answer(23, 0));
    assert_eq!(library::assignment_to_run(&a(), 1, &[1, 0, 0, 2, 1, 0, 3], &mut run), answer(24, 3));
    assert_eq!(library::assignment_to_run(&a(), 1, &[1, 0, 0, 0, 1, 0, 1], &mut []), answer(25, 0));
    assert_eq!(library::assignment_to_run(&a(), 65, &[], &mut run), answer(21, 0));
    assert_eq!(library::assignment_to_run(b"x", 1, &[], &mut run), answer(2, 1));
    assert_eq!(run, [UNTOUCHED; 2]);
    assert_eq!(library::assignment_to_run(&a(), 1, &[1, 0, 0, 0, 1, 0, 1], &mut run), answer(0, 0));
    assert_eq!(run, [2, UNTOUCHED]);
}

#[test]
fn runs_become_assignments() {
    let mut assignment = [UNTOUCHED; 8];
    assert_eq!(library::run_to_assignment(&a(), &[2], &mut assignment[..6]), answer(31, 0));
    assert_eq!(library::run_to_assignment(&a(), &[1], &mut assignment), answer(30, 0));
    assert_eq!(library::run_to_assignment(&a(), &[0, 3], &mut assignment), answer(27, 2));
    assert_eq!(library::run_to_assignment(&a(), &[2, 2], &mut assignment), answer(28, 2));
    assert_eq!(library::run_to_assignment(&without_start(), &[2], &mut assignment), answer(29, 0));
    assert_eq!(library::run_to_assignment(&a(), &[0; 65], &mut assignment), answer(21, 0));
    assert_eq!(library::run_to_assignment(b"x", &[2], &mut assignment), answer(2, 1));
    assert_eq!(assignment, [UNTOUCHED; 8]);
    assert_eq!(library::run_to_assignment(&a(), &[2], &mut assignment), answer(0, 0));
    assert_eq!(assignment, [1, 0, 0, 0, 1, 0, 1, UNTOUCHED]);
}

#[test]
fn a_run_comes_back_from_its_assignment() {
    let mut assignment = [UNTOUCHED; 68];
    let mut run = [UNTOUCHED; 3];
    assert_eq!(library::run_to_assignment(&b(), &[5, 3, 7], &mut assignment), answer(0, 0));
    assert_eq!(library::assignment_to_run(&b(), 3, &assignment, &mut run), answer(0, 0));
    assert_eq!(run, [5, 3, 7]);
}

fn output_answer(number: u8, line: usize, outcome: u8) -> OutputAnswer {
    OutputAnswer { number, line, outcome }
}

#[test]
fn outputs_become_assignments() {
    assert_eq!((SATISFIABLE, UNSATISFIABLE), (10, 20));
    let mut assignment = [UNTOUCHED; 7];
    assert_eq!(library::output_to_assignment(b"", &mut assignment), output_answer(35, 1, 0));
    assert_eq!(library::output_to_assignment(b"s SATISFIABLE\nv 7 1", &mut assignment), output_answer(33, 2, 0));
    assert_eq!(library::output_to_assignment(b"s SATISFIABLE\nc \nv 7 8\n", &mut assignment), output_answer(34, 3, 0));
    assert_eq!(library::output_to_assignment(b"s SATISFIABLE\nv 7 0\nx\n", &mut assignment), output_answer(35, 2, 0));
    assert_eq!(library::output_to_assignment(b"s UNSATISFIABLE\n", &mut assignment), output_answer(0, 0, 20));
    assert_eq!(assignment, [UNTOUCHED; 7]);
    let whole = b"s SATISFIABLE\nv 1 -2 -3 -4 5 -6 7 0\n";
    let split = b"c x\ns SATISFIABLE\nc \nv 7 -6\nv 5 -4 -3\nc y\nv -2 1\nv 0\nc z\n";
    for output in [&whole[..], split] {
        let mut assignment = [UNTOUCHED; 7];
        assert_eq!(library::output_to_assignment(output, &mut assignment), output_answer(0, 0, 10));
        assert_eq!(assignment, [1, 0, 0, 0, 1, 0, 1]);
    }
    assert_eq!(library::output_to_assignment(b"s SATISFIABLE\nv 0\n", &mut []), output_answer(0, 0, 10));
}

#[test]
fn lists_are_refuted() {
    let answer = |number, line, words, outcome| RefutationAnswer { number, line, words, outcome };
    let mut words = [0; 11];
    assert_eq!(library::refute(&a(), 0, &mut words, &[6, 8, 3]), answer(0, 0, 10, REFUTED));
    assert_eq!(words, [1, 2, 0, -1, -2, 0, 1, 0, 2, 0, 0]);
    assert_eq!(library::refute(&a(), 0, &mut words, &[6, 8, 4]), answer(0, 0, 10, NOT_REFUTED));
    assert_eq!(library::refute(&a(), 0, &mut words, &[]), answer(0, 0, 10, NOT_REFUTED));
    let mut short = [7; 9];
    assert_eq!(library::refute(&a(), 0, &mut short, &[6, 8, 3]), answer(22, 0, 10, 0));
    assert_eq!(library::refute(&a(), 65, &mut short, &[6, 8, 3]), answer(21, 0, 0, 0));
    assert_eq!(library::refute(b"", 0, &mut short, &[]), answer(2, 1, 0, 0));
    assert_eq!(library::pair_refute(&a(), b"", 0, &mut short, &[]), answer(2, 1, 0, 0));
    assert_eq!(short, [7; 9]);
    let mut satisfiable = [0; 52];
    assert_eq!(library::refute(&a(), 1, &mut satisfiable, &[6, 49, 3]), answer(0, 0, 51, NOT_REFUTED));
    let needed = library::pair_counts(&a(), &a(), 0).words;
    assert_eq!(library::pair_refute(&a(), &a(), 0, &mut short, &[]), answer(22, 0, needed, 0));
}

/// The worked pair: a logger that raises its counter, and a watchdog that shares label 3 with it.
fn l() -> Vec<u8> {
    b"locations=2\ninit=0\ntarget=1\nclocks=1\nvars=1\nvar=2,0\ninv=x0<=1\ninv=-\nedges=2\n\
      from=0\nto=0\nlabel=0\nwhen=-\nset=v0:=v0+1\nreset=x0\n\
      from=0\nto=1\nlabel=3\nwhen=x0>=1,v0>=1\nset=-\nreset=-\n"
        .to_vec()
}

fn w() -> Vec<u8> {
    b"locations=2\ninit=0\ntarget=1\nclocks=1\nvars=1\nvar=1,1\ninv=-\ninv=x0<=4\nedges=2\n\
      from=0\nto=1\nlabel=3\nwhen=x0>=2\nset=v0:=v0-1\nreset=x0\n\
      from=1\nto=0\nlabel=5\nwhen=-\nset=-\nreset=x0:=x0\n"
        .to_vec()
}

/// Five locations and no edge: with model B, of four, it is too much.
fn five() -> Vec<u8> {
    let text = format!("locations=5\ninit=0\ntarget=0\nclocks=0\nvars=0\n{}edges=0\n", "inv=-\n".repeat(5));
    text.into_bytes()
}

fn pair_answer(number: u8, text: u8, line: usize) -> PairAnswer {
    PairAnswer { number, text, line }
}

fn part_steps(number: u8, line: usize, first: u8, second: u8) -> PartSteps {
    PartSteps { number, line, first, second }
}

#[test]
fn two_texts_are_read_in_their_order() {
    let (early, late) = (b"locations=2\ninit=2\n", [&a()[..], b"\n"].concat());
    assert_eq!(library::pair_read(&l(), &w()), pair_answer(0, 0, 0));
    assert_eq!(library::pair_read(early, &late), pair_answer(5, 1, 2));
    assert_eq!(library::pair_read(&late, early), pair_answer(8, 1, 15));
    assert_eq!(library::pair_read(&a(), &late), pair_answer(8, 2, 15));
    assert_eq!(library::pair_read(&five(), early), pair_answer(5, 2, 2));
    assert_eq!(library::pair_read(&[b'\n'; 8193], early), pair_answer(1, 1, 0));
    assert_eq!(library::pair_read(&a(), &[b'\n'; 8193]), pair_answer(1, 2, 0));
    assert_eq!(library::pair_read(&b(), &five()), pair_answer(38, 0, 0));
    assert_eq!(library::pair_read(&b(), &b()), pair_answer(0, 0, 0));
}

#[test]
fn the_worked_pair() {
    let (l, w) = (l(), w());
    let shape = Shape {
        number: 0,
        line: 0,
        locations: 4,
        initial: 0,
        target: 3,
        clocks: 2,
        counters: 2,
        edges: 5,
        ceiling: 5,
        state: 21,
        choices: 11,
    };
    assert_eq!(library::pair_shape(&l, &w), shape);
    assert_eq!(library::pair_counts(&l, &w, 1), sizes(0, 0, 53, 382, 1361));
    let start = State { location: 0, counters: [0, 1, 0, 0], clocks: [0; 4] };
    assert_eq!(library::pair_initial(&l, &w), state_answer(0, 0, start));
    let before = State { location: 0, counters: [1, 1, 0, 0], clocks: [1, 2, 0, 0] };
    let after = State { location: 3, counters: [1, 0, 0, 0], clocks: [1, 0, 0, 0] };
    assert_eq!(library::pair_step(&l, &w, before, 10), state_answer(0, 0, after));
    assert_eq!(library::pair_step(&l, &w, after, 10), state_answer(28, 0, after));
    assert_eq!(library::pair_step(&l, &w, after, 11), state_answer(27, 0, after));
    let outside = State { location: 4, ..after };
    assert_eq!(library::pair_step(&l, &w, outside, 0), state_answer(10, 0, outside));
    assert_eq!(library::pair_walk(&l, &w, &[1, 6, 1, 10]), answer(0, 0));
    assert_eq!(library::pair_walk(&l, &w, &[1, 6, 0, 10]), answer(28, 4));
    assert_eq!(library::pair_walk(&l, &w, &[1, 6, 1]), answer(30, 0));
    assert_eq!(library::pair_walk(&l, &w, &[0; 65]), answer(21, 0));
    // the other way round the numbers are the same, and the states are not
    assert_eq!(library::pair_counts(&w, &l, 1), sizes(0, 0, 53, 382, 1361));
    let start = State { location: 0, counters: [1, 0, 0, 0], clocks: [0; 4] };
    assert_eq!(library::pair_initial(&w, &l), state_answer(0, 0, start));
}

#[test]
fn step_bytes_of_the_parts() {
    let (l, w) = (l(), w());
    let cases = [(1, 1, 1), (2, 2, 2), (5, 2, 5), (6, 3, STAYS), (7, 3, STAYS), (8, STAYS, 7), (9, STAYS, 7), (10, 4, 6)];
    for (byte, first, second) in cases {
        assert_eq!(library::pair_parts(&l, &w, byte), part_steps(0, 0, first, second), "{}", byte);
    }
    for byte in 11..=255 {
        assert_eq!(library::pair_parts(&l, &w, byte), part_steps(27, 0, 0, 0), "{}", byte);
    }
    assert_eq!(library::pair_parts(b"x", &w, 0), part_steps(2, 1, 0, 0));
    assert_eq!(library::pair_parts(&l, b"locations=2\ninit=2\n", 0), part_steps(5, 2, 0, 0));
    assert_eq!(library::pair_parts(&b(), &five(), 0), part_steps(38, 0, 0, 0));
}

#[test]
fn lists_files_and_assignments_of_a_pair() {
    let with_label = |label: &str| model_text("a.txt").replace("label=0", label).into_bytes();
    let (one, other) = (with_label("label=1"), with_label("label=1"));
    assert_eq!(library::pair_counts(&one, &with_label("label=2"), 1), sizes(0, 0, 14, 48, 158));
    let counts = sizes(0, 0, 11, 30, 101);
    let mut words = [i32::MIN; 102];
    assert_eq!(library::pair_emit(&one, &other, 1, &mut words[..100]), sizes(22, 0, 0, 0, 101));
    assert_eq!(library::pair_emit(&one, &other, 65, &mut words), sizes(21, 0, 0, 0, 0));
    assert_eq!(words, [i32::MIN; 102]);
    assert_eq!(library::pair_emit(&one, &other, 1, &mut words), counts);
    assert_eq!((words[100], words[101]), (0, i32::MIN));
    // location 0 is one of four; the edge is variable 7 and leads to location 3, variable 11
    assert_eq!(words[..5], [1, 2, 3, 4, 0]);
    assert!(words.windows(6).any(|part| part == [-7, 1, 0, -7, 11, 0]));
    let bytes = library::pair_dimacs(&one, &other, 1, &mut []).bytes;
    let mut file = vec![UNTOUCHED; bytes + 1];
    assert_eq!(library::pair_dimacs(&one, &other, 1, &mut file[..bytes - 1]), file_answer(32, 0, bytes));
    assert_eq!(file, vec![UNTOUCHED; bytes + 1]);
    assert_eq!(library::pair_dimacs(&one, &other, 1, &mut file), file_answer(0, 0, bytes));
    assert!(file.starts_with(b"p cnf 11 30\n1 2 3 4 0\n") && file[bytes] == UNTOUCHED);
    let mut assignment = [UNTOUCHED; 12];
    assert_eq!(library::pair_run_to_assignment(&one, &other, &[2], &mut assignment[..10]), answer(31, 0));
    assert_eq!(assignment, [UNTOUCHED; 12]);
    assert_eq!(library::pair_run_to_assignment(&one, &other, &[2], &mut assignment), answer(0, 0));
    assert_eq!(assignment, [1, 0, 0, 0, 0, 0, 1, 0, 0, 0, 1, UNTOUCHED]);
    let mut run = [UNTOUCHED; 2];
    assert_eq!(library::pair_assignment_to_run(&one, &other, 1, &assignment[..10], &mut run), answer(23, 0));
    assert_eq!(library::pair_assignment_to_run(&one, &other, 1, &assignment[..11], &mut []), answer(25, 0));
    assert_eq!(run, [UNTOUCHED; 2]);
    assert_eq!(library::pair_assignment_to_run(&one, &other, 1, &assignment[..11], &mut run), answer(0, 0));
    assert_eq!(run, [2, UNTOUCHED]);
}

#[test]
fn refused_pairs_leave_buffers_as_they_were() {
    let (mut words, mut bytes) = ([i32::MIN; 9], [UNTOUCHED; 9]);
    let given = State { location: 9, counters: [1, 2, 3, 4], clocks: [5, 6, 7, 8] };
    let late = [&a()[..], b"\n"].concat();
    for (first, second, number, line) in [(&late, &five(), 8, 15), (&five(), &late, 8, 15), (&b(), &five(), 38, 0)] {
        assert_eq!(library::pair_shape(first, second), Shape { number, line, ..Shape::default() });
        assert_eq!(library::pair_counts(first, second, 65), sizes(number, line, 0, 0, 0));
        assert_eq!(library::pair_emit(first, second, 0, &mut words), sizes(number, line, 0, 0, 0));
        assert_eq!(library::pair_dimacs(first, second, 0, &mut bytes), file_answer(number, line, 0));
        assert_eq!(library::pair_initial(first, second), state_answer(number, line, State::default()));
        assert_eq!(library::pair_step(first, second, given, 255), state_answer(number, line, given));
        assert_eq!(library::pair_walk(first, second, &[0; 65]), answer(number, line));
        assert_eq!(library::pair_assignment_to_run(first, second, 65, &[2], &mut bytes), answer(number, line));
        assert_eq!(library::pair_run_to_assignment(first, second, &[0; 65], &mut bytes), answer(number, line));
    }
    assert_eq!((words, bytes), ([i32::MIN; 9], [UNTOUCHED; 9]));
}
