//! Refusals 1 to 8 of the reader, each on both sides of its limit, and the
//! order in which a line is tried.

mod common;

use common::{check, model, refusal, with_line, MODEL_A, MODEL_B, PAIR};
use reference::model::{Atom, ClockUpdate, Edge, Model, Relation, Update};
use reference::text::MAX_TEXT;

/// A text with `count` copies of some lines after line `line`.
fn with_copies(base: &str, line: usize, copies: &str, count: usize) -> String {
    let lines: Vec<&str> = base.split_inclusive('\n').collect();
    [lines[..line].concat(), copies.repeat(count), lines[line..].concat()].concat()
}

#[test]
fn refusal_1_length_of_the_text() {
    let mut text = MODEL_A.as_bytes().to_vec();
    text.resize(MAX_TEXT, b'\n');
    assert_eq!(refusal(&text), (8, 15));
    text.push(b'\n');
    assert_eq!(refusal(&text), (1, 0));
    assert_eq!(refusal(&vec![b'x'; MAX_TEXT]), (2, 1));
    assert_eq!(refusal(&vec![b'x'; MAX_TEXT + 1]), (1, 0));
}

#[test]
fn refusal_2_key_and_line_end() {
    assert_eq!(refusal(b""), (2, 1));
    assert_eq!(refusal(b"locations=2"), (2, 1));
    assert_eq!(refusal(b"locations=2\n"), (2, 2));
    check(
        MODEL_A,
        1,
        &[
            ("location=2", 2),
            ("locations", 2),
            ("locationss=2", 2),
            (" locations=2", 2),
            ("locations =2", 2),
            ("Locations=2", 2),
            ("", 2),
            ("init=0", 2),
        ],
    );
    check(MODEL_A, 6, &[("var=0,0", 2), ("invs=-", 2), ("inv", 2)]);
    check(PAIR, 6, &[("vars=1", 2), ("inv=-", 2)]);
    check(PAIR, 13, &[("when=-", 2), ("label", 2), ("labels=0", 2), ("Label=0", 2), (" label=0", 2), ("", 2)]);
    check(PAIR, 14, &[("set=-", 2), ("when", 2), ("label=0", 2)]);
    let whole = MODEL_A.as_bytes();
    assert_eq!(refusal(&whole[..whole.len() - 1]), (2, 14));
    // No LF comes before the value is tried.
    assert_eq!(refusal(b"locations=999"), (2, 1));
}

#[test]
fn refusal_2_at_every_cut_of_a_text() {
    for length in 0..MODEL_B.len() {
        let cut = &MODEL_B.as_bytes()[..length];
        let begun = cut.iter().filter(|byte| **byte == b'\n').count() as u32 + 1;
        assert_eq!(refusal(cut), (2, begun), "{length} bytes");
    }
}

#[test]
fn refusal_3_numbers() {
    check(
        MODEL_A,
        1,
        &[
            ("locations=2", 0),
            ("locations=", 3),
            ("locations=-", 3),
            ("locations=02", 3),
            ("locations=00", 3),
            ("locations=1000", 3),
            ("locations=999", 4),
            ("locations=2 ", 3),
            ("locations= 2", 3),
            ("locations=+2", 3),
            ("locations=-2", 3),
            ("locations=2\r", 3),
            ("locations=2,", 3),
            ("locations=x", 3),
            ("locations==2", 3),
        ],
    );
    check(MODEL_A, 2, &[("init=-", 3), ("init=01", 3), ("init=1000", 3), ("init=999", 5)]);
    check(
        PAIR,
        6,
        &[
            ("var=3,0", 0),
            ("var=3", 3),
            ("var=-", 3),
            ("var=3,", 3),
            ("var=,3", 3),
            ("var=3,0,0", 3),
            ("var=3,00", 3),
            ("var=3,-", 3),
            ("var=3, 0", 3),
            ("var=1000,0", 3),
        ],
    );
}

/// A label is a number: a hyphen, an item or several numbers are not of its form.
#[test]
fn refusal_3_labels() {
    check(
        PAIR,
        13,
        &[
            ("label=0", 0),
            ("label=9", 0),
            ("label=", 3),
            ("label=-", 3),
            ("label=00", 3),
            ("label=01", 3),
            ("label=1000", 3),
            ("label=x0", 3),
            ("label=v0", 3),
            ("label=1,2", 3),
            ("label=-1", 3),
            ("label=+1", 3),
            ("label=1 ", 3),
            ("label=1\r", 3),
            ("label=kick", 3),
        ],
    );
}

#[test]
fn refusal_3_invariants() {
    check(
        PAIR,
        8,
        &[
            ("inv=-", 0),
            ("inv=x0<1", 0),
            ("inv=x0<=1", 0),
            ("inv=x0=0", 0),
            ("inv=x0>=0", 0),
            ("inv=x1>30", 0),
            ("inv=x0<1,x1<1,x0<1,x0<1", 0),
            ("inv=", 3),
            ("inv=--", 3),
            ("inv=-,x0<1", 3),
            ("inv=x0<1,-", 3),
            ("inv=x0<1,", 3),
            ("inv=,x0<1", 3),
            ("inv=x0<1,,x0<1", 3),
            ("inv=x0!=1", 3),
            ("inv=v0<1", 3),
            ("inv=x0", 3),
            ("inv=x0<", 3),
            ("inv=x<1", 3),
            ("inv=0<1", 3),
            ("inv=x0==1", 3),
            ("inv=x0=<1", 3),
            ("inv=x0=>1", 3),
            ("inv=x0<>1", 3),
            ("inv=x0<=01", 3),
            ("inv=x00<=1", 3),
            ("inv=x1000<=1", 3),
            ("inv=x999<=1", 5),
            ("inv=x0<=1000", 3),
            ("inv=x0<=-1", 3),
            ("inv=x0 <=1", 3),
            ("inv=X0<=1", 3),
            ("inv=x0<=1\r", 3),
            ("inv=x0<x1", 3),
        ],
    );
}

#[test]
fn refusal_3_guards() {
    check(
        PAIR,
        14,
        &[
            ("when=-", 0),
            ("when=v0!=1", 0),
            ("when=v0<1,v1<=1,x0=1,v1>=1", 0),
            ("when=v0>1", 0),
            ("when=v0=3", 0),
            ("when=x0!=1", 3),
            ("when=", 3),
            ("when=v0!1", 3),
            ("when=v0:=1", 3),
            ("when=v00=1", 3),
            ("when=y0=1", 3),
            ("when=v0=1,", 3),
            ("when=-,-", 3),
        ],
    );
}

#[test]
fn refusal_3_updates_and_resets() {
    check(
        PAIR,
        15,
        &[
            ("set=-", 0),
            ("set=v0:=0", 0),
            ("set=v0:=31", 0),
            ("set=v0:=v1+0,v1:=v0-31", 0),
            ("set=v0:=v0+0", 0),
            ("set=v0:=v1-0", 3),
            ("set=v0:=v1-00", 3),
            ("set=v0:=v1+00", 3),
            ("set=v0:=v1", 3),
            ("set=v0:=v1+", 3),
            ("set=v0:=-1", 3),
            ("set=v0:=-0", 3),
            ("set=v0:=+1", 3),
            ("set=v0=1", 3),
            ("set=v0:1", 3),
            ("set=v0:=", 3),
            ("set=x0:=0", 3),
            ("set=v0:=x0+0", 3),
            ("set=v0:=v1+-1", 3),
            ("set=v0:=v1+1+1", 3),
            ("set=", 3),
            ("set=v0:=1,", 3),
            ("set=-,v0:=1", 3),
            ("set=v00:=1", 3),
        ],
    );
    check(
        PAIR,
        16,
        &[
            ("reset=-", 0),
            ("reset=x0", 0),
            ("reset=x0,x1", 0),
            ("reset=", 3),
            ("reset=x", 3),
            ("reset=v0", 3),
            ("reset=x00", 3),
            ("reset=x0,", 3),
            ("reset=x0,-", 3),
            ("reset=0", 3),
        ],
    );
}

#[test]
fn refusal_3_copies_of_clocks() {
    check(
        PAIR,
        16,
        &[
            ("reset=x0:=x1", 0),
            ("reset=x0:=x0", 0),
            ("reset=x0,x1:=x0", 0),
            ("reset=x0:=x1,x1", 0),
            ("reset=x0:=x1,x1:=x0", 0),
            ("reset=x0:=0", 3),
            ("reset=x0:=1", 3),
            ("reset=x0:=v0", 3),
            ("reset=v0:=x0", 3),
            ("reset=v0:=1", 3),
            ("reset=x0:=x1+0", 3),
            ("reset=x0:=x1-1", 3),
            ("reset=x0=x1", 3),
            ("reset=x0:x1", 3),
            ("reset=x0:=", 3),
            ("reset=x0:=x", 3),
            ("reset=:=x0", 3),
            ("reset=x:=x0", 3),
            ("reset=x0:=x00", 3),
            ("reset=x00:=x0", 3),
            ("reset=x0:=x1000", 3),
            ("reset=x1000:=x0", 3),
            ("reset=x0:=x1:=x0", 3),
            ("reset=x0:=x1,", 3),
            ("reset=x0:=x1,-", 3),
            ("reset=x0:=-", 3),
            ("reset=x0:= x1", 3),
            ("reset=x0:=x1\r", 3),
            ("reset=x0:=X1", 3),
        ],
    );
    check(PAIR, 15, &[("set=x0:=x1", 3), ("set=v0:=1,x0:=x1", 3)]);
}

#[test]
fn refusal_4_ranges() {
    check(MODEL_A, 1, &[("locations=0", 4), ("locations=17", 4)]);
    check(MODEL_A, 4, &[("clocks=0", 0), ("clocks=4", 0), ("clocks=5", 4)]);
    check(MODEL_A, 5, &[("vars=5", 4), ("vars=999", 4)]);
    check(MODEL_A, 8, &[("edges=33", 4)]);
    // Labels name nothing that is declared: 4, never 5.
    check(
        MODEL_A,
        11,
        &[("label=15", 0), ("label=16", 4), ("label=17", 4), ("label=255", 4), ("label=256", 4), ("label=999", 4)],
    );
    check(
        PAIR,
        6,
        &[("var=31,31", 0), ("var=0,0", 0), ("var=32,0", 4), ("var=3,4", 4), ("var=0,1", 4), ("var=32,32", 4), ("var=31,32", 4)],
    );
    check(PAIR, 8, &[("inv=x0<=30", 0), ("inv=x0<=31", 4), ("inv=x0<=0,x1<999", 4)]);
    check(PAIR, 14, &[("when=x0<=30", 0), ("when=x0<=31", 4), ("when=v0<=31", 0), ("when=v0<=32", 4), ("when=v0!=32", 4)]);
    check(
        PAIR,
        15,
        &[
            ("set=v0:=31", 0),
            ("set=v0:=32", 4),
            ("set=v0:=v0+31", 0),
            ("set=v0:=v0+32", 4),
            ("set=v0:=v0-31", 0),
            ("set=v0:=v0-32", 4),
        ],
    );
}

#[test]
fn refusal_4_sizes_taken_at_their_greatest() {
    let locations = with_line(&with_copies(MODEL_A, 7, "inv=-\n", 14), 1, "locations=16");
    assert_eq!(refusal(locations.as_bytes()), (0, 0));
    let counters = with_line(&with_copies(MODEL_A, 5, "var=31,31\n", 4), 5, "vars=4");
    assert_eq!(refusal(counters.as_bytes()), (0, 0));
    let edge = "from=0\nto=1\nlabel=0\nwhen=-\nset=-\nreset=-\n";
    let edges = with_line(&with_copies(MODEL_A, 14, edge, 31), 8, "edges=32");
    assert_eq!(refusal(edges.as_bytes()), (0, 0));
    let one = "locations=1\ninit=0\ntarget=0\nclocks=0\nvars=0\ninv=-\nedges=0\n";
    assert_eq!(model(one), Model::blank());
}

#[test]
fn refusal_5_declarations() {
    check(MODEL_A, 2, &[("init=1", 0), ("init=2", 5), ("init=17", 5)]);
    check(MODEL_A, 3, &[("target=0", 0), ("target=2", 5)]);
    check(MODEL_A, 6, &[("inv=x0<=1", 5)]);
    check(MODEL_A, 9, &[("from=1", 0), ("from=2", 5), ("from=999", 5)]);
    check(MODEL_A, 10, &[("to=0", 0), ("to=2", 5)]);
    check(PAIR, 8, &[("inv=x1<1", 0), ("inv=x2<1", 5), ("inv=x0<1,x4<1", 5)]);
    check(PAIR, 14, &[("when=x2<1", 5), ("when=v1<1", 0), ("when=v2<1", 5)]);
    check(PAIR, 15, &[("set=v1:=1", 0), ("set=v2:=1", 5), ("set=v999:=1", 5), ("set=v0:=v2+0", 5), ("set=v0:=v1+0", 0)]);
    check(PAIR, 16, &[("reset=x1", 0), ("reset=x2", 5)]);
    check(PAIR, 16, &[("reset=x0:=x1", 0), ("reset=x0:=x2", 5), ("reset=x0:=x999", 5), ("reset=x2:=x0", 5), ("reset=x2:=x2", 5)]);
    check(&with_line(PAIR, 4, "clocks=0"), 16, &[("reset=-", 0), ("reset=x0:=x0", 5)]);
    check(&with_line(PAIR, 4, "clocks=4"), 16, &[("reset=x3:=x0,x2:=x3", 6), ("reset=x0:=x3,x3:=x2", 0), ("reset=x0:=x4", 5)]);
}

#[test]
fn refusal_6_set_twice_or_reset_not_rising() {
    check(
        PAIR,
        15,
        &[
            ("set=v0:=1,v1:=1", 0),
            ("set=v1:=1,v0:=1", 0),
            ("set=v0:=1,v0:=1", 6),
            ("set=v0:=1,v0:=v1+0", 6),
            ("set=v0:=1,v1:=1,v0:=1", 6),
            ("set=v1:=1,v0:=1,v1:=0", 6),
        ],
    );
    check(PAIR, 16, &[("reset=x0,x1", 0), ("reset=x1,x0", 6), ("reset=x0,x0", 6), ("reset=x0,x1,x1", 6)]);
    // The clock set decides, not the clock copied from.
    check(
        PAIR,
        16,
        &[
            ("reset=x0:=x1,x1:=x0", 0),
            ("reset=x1:=x0,x0", 6),
            ("reset=x0:=x1,x0", 6),
            ("reset=x0,x0:=x1", 6),
            ("reset=x0:=x0,x0:=x0", 6),
            ("reset=x1:=x0,x0:=x1", 6),
        ],
    );
}

#[test]
fn refusal_7_more_than_four_items() {
    let four = ["x0<1"; 4].join(",");
    let five = ["x0<1"; 5].join(",");
    check(PAIR, 8, &[(&format!("inv={four}"), 0), (&format!("inv={five}"), 7)]);
    check(PAIR, 14, &[(&format!("when={four}"), 0), (&format!("when={five}"), 7)]);
    // 7 is for inv and when alone.
    check(PAIR, 15, &[("set=v0:=1,v1:=1,v1:=1,v1:=1,v1:=1", 6), ("set=v0:=1,v1:=1,v2:=1,v3:=1,v4:=1", 5)]);
    check(PAIR, 16, &[("reset=x0,x1,x1,x1,x1", 6), ("reset=x0,x1,x2,x3,x4", 5), ("reset=x0,x1:=x0,x1,x1,x1", 6)]);
}

#[test]
fn refusal_8_bytes_left() {
    for rest in ["\n", "x", "locations=2\n", "\0"] {
        assert_eq!(refusal(format!("{MODEL_A}{rest}").as_bytes()), (8, 15));
        assert_eq!(refusal(format!("{MODEL_B}{rest}").as_bytes()), (8, 30));
    }
}

#[test]
fn each_number_is_tried_over_the_whole_line() {
    check(
        PAIR,
        8,
        &[
            // 3 before 7, 4 and 5.
            ("inv=x0<31,v9=1", 3),
            ("inv=x0<1,x0<1,x0<1,x0<1,x0!=1", 3),
            // 7 before 4 and 5.
            ("inv=x7<31,x0<1,x0<1,x0<1,x0<1", 7),
            // 4 before 5.
            ("inv=x7<1,x0<31", 4),
            ("inv=x0<31,x7<1", 4),
        ],
    );
    check(PAIR, 14, &[("when=v9<40", 4), ("when=v9<1,x0<31", 4), ("when=v9<1", 5)]);
    check(PAIR, 15, &[("set=v1:=1,v0:=v9+0", 5), ("set=v1:=1,v0:=v0+32", 4), ("set=v9:=1,v0:=32", 4), ("set=v9:=32,v0:=1,x", 3)]);
    // 3, 4 and 5 before 6.
    check(
        PAIR,
        15,
        &[("set=v1:=1,v1:=v9+0", 5), ("set=v0:=1,v1:=1,v0:=1,v1:=1,v0:=32", 4), ("set=v1:=1,v0:=1,x", 3), ("set=v9:=1,v9:=1", 5)],
    );
    check(PAIR, 16, &[("reset=x1,x0,x2", 5), ("reset=x1,x0,y", 3)]);
    check(PAIR, 16, &[("reset=x1:=x0,x0:=x9", 5), ("reset=x1:=x9,x0", 5), ("reset=x1:=x9,x0:=0", 3), ("reset=x1,x0:=x", 3)]);
}

#[test]
fn the_first_bad_line_is_the_one_named() {
    let text = with_line(&with_line(PAIR, 8, "inv=x9<1"), 7, "var=3,4");
    assert_eq!(refusal(text.as_bytes()), (4, 7));
    let text = with_line(&with_line(PAIR, 15, "set=v1:=1,v1:=1"), 16, "reset=");
    assert_eq!(refusal(text.as_bytes()), (6, 15));
    let text = with_line(&with_line(PAIR, 13, "label=16"), 14, "when=");
    assert_eq!(refusal(text.as_bytes()), (4, 13));
    let text = with_line(&with_line(PAIR, 13, "label=16"), 12, "to=2");
    assert_eq!(refusal(text.as_bytes()), (5, 12));
}

#[test]
fn items_fill_the_record() {
    let mut text = with_line(PAIR, 8, "inv=x0<=3,x1>0");
    text = with_line(&text, 13, "label=7");
    text = with_line(&text, 14, "when=v1!=2,x1>=4");
    text = with_line(&text, 15, "set=v0:=v1-3,v1:=9");
    text = with_line(&text, 16, "reset=x0:=x1,x1");
    let found = model(&text);
    assert_eq!(
        found.invariant[0][..3],
        [Atom::clock(0, Relation::LessEqual, 3), Atom::clock(1, Relation::Greater, 0), Atom::Blank,]
    );
    let expected = Edge {
        source: 0,
        target: 1,
        label: 7,
        guard: [Atom::counter(1, Relation::NotEqual, 2), Atom::clock(1, Relation::GreaterEqual, 4), Atom::Blank, Atom::Blank],
        updates: [Update::Sum { source: 1, offset: -3 }, Update::Constant(9), Update::Keep, Update::Keep],
        order: [0, 1, 0, 0],
        clock_updates: [ClockUpdate::Copy(1), ClockUpdate::Reset, ClockUpdate::Unchanged, ClockUpdate::Unchanged],
    };
    assert_eq!(found.edge[0], expected);
}

#[test]
fn plus_zero_is_an_update_and_not_keep() {
    let found = model(&with_line(PAIR, 15, "set=v0:=v0+0"));
    assert_eq!(found.edge[0].updates[0], Update::Sum { source: 0, offset: 0 });
    assert_eq!(found.edge[0].updates[1], Update::Keep);
    let listed = model(&with_line(PAIR, 15, "set=v1:=v1+0,v0:=v0+0"));
    assert_eq!((listed.edge[0].order, listed.edge[0].listed()), ([1, 0, 0, 0], &[1, 0][..]));
}
