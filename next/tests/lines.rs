//! Each refusal of a model text: number and line, the line itself, and what is said of it.

mod common;

use common::{calls, model_text, wirdoku, Folder};

/// A change of the logger's text, and the number and the line that are reported, with what is shown below: the line's text and what is
/// said of it, parted by `|`.
struct Case {
    old: &'static str,
    new: &'static str,
    number: u8,
    line: usize,
    shown: &'static str,
}

const fn case(old: &'static str, new: &'static str, number: u8, line: usize, shown: &'static str) -> Case {
    Case { old, new, number, line, shown }
}

const CASES: [Case; 53] = [
    case("locations=4\n", "places=4\n", 2, 1, "places=4|due here: locations="),
    case("var=1,0\n", "", 2, 6, "inv=-|due here: var="),
    case("edges=3", "edge=3", 2, 11, "edge=3|due here: edges="),
    case("set=v0:=v0+1\n", "", 2, 22, "reset=-|due here: set="),
    case("when=x0>=3\nset=-\nreset=-\n", "when=x0>=3\n", 2, 28, "(the text ends before this line)|due here: set="),
    case("set=-\nreset=-\n", "set=-\nreset=-", 2, 29, "reset=-|due here: reset=|the line has no LF at its end"),
    case("to=3\nlabel=0\n", "to=3\n", 2, 26, "when=x0>=3|due here: label="),
    case("to=1\nlabel=0\n", "to=1\nLabel=1\n", 2, 14, "Label=1|due here: label="),
    case("init=0", "init=00", 3, 2, "init=00|`00` is not a number of 1 to 3 digits without a leading zero"),
    case("init=0", "init= 0", 3, 2, "init= 0|` 0` is not a number of 1 to 3 digits without a leading zero"),
    case("init=0", "init=", 3, 2, "init=|an empty item is not a number of 1 to 3 digits without a leading zero"),
    case(
        "init=0",
        "init=\t\u{e9}\"",
        3,
        2,
        "init=\\t\\xc3\\xa9\"|`\\t\\xc3\\xa9\"` is not a number of 1 to 3 digits without a leading zero",
    ),
    case("init=0", "init=0\r", 3, 2, "init=0\\r|the line ends with CR LF; lines end with LF alone"),
    case("var=1,0", "var=1", 3, 6, "var=1|`1` is not a greatest and an initial value, such as 3,0"),
    case("inv=x0<=3", "inv=x0!=3", 3, 8, "inv=x0!=3|`x0!=3` is not an atom of a clock, such as x0<=3"),
    case("inv=x0<=3", "inv=v0<=1,x0<1", 3, 8, "inv=v0<=1,x0<1|`v0<=1` is not an atom of a clock, such as x0<=3"),
    case("when=x0>=3", "when=x0>=3,", 3, 27, "when=x0>=3,|an empty item is not an atom, such as x0<=3 or v0!=1"),
    case(
        "when=x0>=3",
        "when=a,b,x0<1,c,d,e,f",
        3,
        27,
        "when=a,b,x0<1,c,d,e,f|`a` is not an atom, such as x0<=3 or v0!=1|`b` is not an atom, such as x0<=3 or v0!=1|\
         `c` is not an atom, such as x0<=3 or v0!=1|`d` is not an atom, such as x0<=3 or v0!=1|and 2 more",
    ),
    case("set=v0:=v0+1", "set=v0:=v0", 3, 22, "set=v0:=v0|`v0:=v0` is not an update, such as v0:=1 or v0:=v1+0"),
    case(
        "reset=x0",
        "reset=x0:=0",
        3,
        17,
        "reset=x0:=0|`x0:=0` is neither a clock, such as x0, nor a copy, such as x0:=x1",
    ),
    case("to=2\nlabel=0\n", "to=2\nlabel=-\n", 3, 20, "label=-|`-` is not a number of 1 to 3 digits without a leading zero"),
    case("to=2\nlabel=0\n", "to=2\nlabel=015\n", 3, 20, "label=015|`015` is not a number of 1 to 3 digits without a leading zero"),
    case("locations=4", "locations=17", 4, 1, "locations=17|17 locations, and a model has at most 16"),
    case("locations=4", "locations=0", 4, 1, "locations=0|0 locations, and a model has at least 1"),
    case("clocks=1", "clocks=5", 4, 4, "clocks=5|5 clocks, and a model has at most 4"),
    case("vars=1", "vars=999", 4, 5, "vars=999|999 counters, and a model has at most 4"),
    case("edges=3", "edges=33", 4, 11, "edges=33|33 edges, and a model has at most 32"),
    case("inv=x0<=3", "inv=x0<=31", 4, 8, "inv=x0<=31|x0<=31: 31 is above 30, the greatest clock constant"),
    case(
        "when=x0>=3",
        "when=x9=99,v0<31,v0!=32,x0=30",
        4,
        27,
        "when=x9=99,v0<31,v0!=32,x0=30|x9=99: 99 is above 30, the greatest clock constant|\
         v0!=32: 32 is above 31, the greatest counter constant",
    ),
    case("var=1,0", "var=1,2", 4, 6, "var=1,2|the initial value 2 is above the greatest value 1"),
    case("var=1,0", "var=32,0", 4, 6, "var=32,0|32 is above 31, the greatest value that a counter may have"),
    case("set=v0:=v0+1", "set=v0:=32", 4, 22, "set=v0:=32|v0:=32: 32 is above 31, the greatest counter constant"),
    case("set=v0:=v0+1", "set=v0:=v0-33", 4, 22, "set=v0:=v0-33|v0:=v0-33: 33 is above 31, the greatest offset"),
    case("to=1\nlabel=0\n", "to=1\nlabel=16\n", 4, 14, "label=16|16 is above 15, the greatest label"),
    case("init=0", "init=999", 5, 2, "init=999|location 999 is not declared: the locations are 0 to 3"),
    case("target=3", "target=4", 5, 3, "target=4|location 4 is not declared: the locations are 0 to 3"),
    case("from=0", "from=4", 5, 12, "from=4|location 4 is not declared: the locations are 0 to 3"),
    case("to=2", "to=9", 5, 19, "to=9|location 9 is not declared: the locations are 0 to 3"),
    case("inv=x0<=3", "inv=x7<1,x0<1", 5, 8, "inv=x7<1,x0<1|x7 is not declared: the model has 1 clock, x0"),
    case("when=x0>=3", "when=x1>=3", 5, 27, "when=x1>=3|x1 is not declared: the model has 1 clock, x0"),
    case(
        "when=x0>=3",
        "when=x1>=3,v4=1,x1=1,v9!=1",
        5,
        27,
        "when=x1>=3,v4=1,x1=1,v9!=1|x1 is not declared: the model has 1 clock, x0|\
         v4 is not declared: the model has 1 counter, v0|v9 is not declared: the model has 1 counter, v0",
    ),
    case("set=v0:=v0+1", "set=v0:=v2+1", 5, 22, "set=v0:=v2+1|v2 is not declared: the model has 1 counter, v0"),
    case("set=v0:=v0+1", "set=v1:=0", 5, 22, "set=v1:=0|v1 is not declared: the model has 1 counter, v0"),
    case("reset=x0", "reset=x0:=x1", 5, 17, "reset=x0:=x1|x1 is not declared: the model has 1 clock, x0"),
    case("reset=x0", "reset=x1:=x0", 5, 17, "reset=x1:=x0|x1 is not declared: the model has 1 clock, x0"),
    case("clocks=1", "clocks=0", 5, 8, "inv=x0<=3|x0 is not declared: the model has no clock"),
    case("set=v0:=v0+1", "set=v0:=v0+1,v0:=1", 6, 22, "set=v0:=v0+1,v0:=1|v0 is set more than once"),
    case("reset=x0", "reset=x0,x0", 6, 17, "reset=x0,x0|x0 is set more than once"),
    case("reset=x0", "reset=x0:=x0,x0", 6, 17, "reset=x0:=x0,x0|x0 is set more than once"),
    case(
        "clocks=1\nvars=1\nvar=1,0\ninv=-\ninv=x0<=3\ninv=-\ninv=-\nedges=3\nfrom=0\nto=1\nlabel=0\nwhen=-\nset=-\nreset=x0",
        "clocks=3\nvars=1\nvar=1,0\ninv=-\ninv=x0<=3\ninv=-\ninv=-\nedges=3\nfrom=0\nto=1\nlabel=0\nwhen=-\nset=-\nreset=x1,x2:=x0,x0",
        6,
        17,
        "reset=x1,x2:=x0,x0|x0 stands after x2, and the clocks that are set rise",
    ),
    case(
        "inv=x0<=3",
        "inv=x0<=3,x0<=3,x0<=3,x0<=3,x0<=3",
        7,
        8,
        "inv=x0<=3,x0<=3,x0<=3,x0<=3,x0<=3|5 atoms, and an invariant has at most 4",
    ),
    case("when=x0>=3", "when=x0=0,x0=0,x0=0,x0=0,v9=0,v0=0", 7, 27, "when=x0=0,x0=0,x0=0,x0=0,v9=0,v0=0|6 atoms, and a guard has at most 4"),
    case("when=x0>=3\nset=-\nreset=-\n", "when=x0>=3\nset=-\nreset=-\n\n", 8, 30, "(an empty line)"),
];

#[test]
fn texts_are_refused_with_number_line_and_the_line_itself() {
    let folder = Folder::new();
    for Case { old, new, number, line, shown } in &CASES {
        let text = model_text("logger_b.txt");
        // the last place, so that the last edge's lines can be meant
        let place = text.rfind(old).unwrap_or_else(|| panic!("{}", old));
        let changed = format!("{}{}{}", &text[..place], new, &text[place + old.len()..]);
        let path = folder.file("model.txt", changed.as_bytes());
        for arguments in calls(&path) {
            let outcome = wirdoku(&arguments);
            outcome.assert_stopped(2, &format!("{}: refusal {}, line {}: ", path, number, line));
            let (_, rest) = outcome.err.split_once('\n').unwrap();
            assert_eq!(rest, format!("    {}\n", shown.replace('|', "\n    ")), "{:?}", outcome);
        }
    }
}

#[test]
fn every_sort_of_text_refusal_is_among_the_cases() {
    for number in 2..=8 {
        assert!(CASES.iter().any(|case| case.number == number), "{}", number);
    }
}
