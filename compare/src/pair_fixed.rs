//! Worked pairs: the answers stand here as they were worked out by hand; limits on both sides; the blank model, which changes nothing.

use reference::gen::models::{self, model_a, model_b, model_l, model_w};
use reference::model::{Atom, Model, Relation, MAX_BOUND};
use wirdoku::library::{self, Answer, PairAnswer, PartSteps, Shape, Sizes, State, STAYS};

use crate::pair_calls::{self, Pair};
use crate::tally::Tally;
use crate::texts::written;

const ACCEPTED: Answer = Answer { number: 0, place: 0 };

pub fn worked(tally: &mut Tally) {
    a_with_a(tally);
    l_with_w(tally);
    refused_texts(tally);
    limits(tally);
    the_same_text_twice(tally);
    neutral(tally);
}

/// Every call without a buffer, and the list at some bounds with buffers on both sides of its length.
fn every_call(tally: &mut Tally, pair: &Pair) {
    pair_calls::reading(tally, 3, pair);
    for bound in [0, 1, 2, 3, MAX_BOUND, MAX_BOUND + 1] {
        let needed = pair.list(bound).counts.words;
        pair_calls::list(tally, 5, pair, bound, &[needed, needed + 9, needed.saturating_sub(1), 0]);
    }
    for byte in 0..=255 {
        pair_calls::parts(tally, pair, byte);
    }
}

fn a(label: u8) -> Model {
    let mut model = model_a();
    model.edge[0].label = label;
    model
}

/// Model A with itself under some labels: the edges that can be taken from each location, by their targets, and totals at bound 1.
fn a_with_a(tally: &mut Tally) {
    let alone = vec![(0, 2, 2), (1, 3, 3), (0, 4, 1), (2, 5, 3)];
    let cases = [
        (0, 0, alone.clone(), (14, 48, 158)),
        (1, 1, vec![(0, 2, 3)], (11, 30, 101)),
        (1, 2, alone.clone(), (14, 48, 158)),
        (15, 15, vec![(0, 2, 3)], (11, 30, 101)),
        (0, 15, alone, (14, 48, 158)),
    ];
    for (x, y, mut edges, (variables, clauses, words)) in cases {
        let pair = Pair::of_models(&a(x), &a(y));
        let shape = library::pair_shape(&pair.first, &pair.second);
        tally.same("locations, initial, target", (4, 0, 3), (shape.locations, shape.initial, shape.target));
        let sizes = Sizes { number: 0, line: 0, variables, clauses, words };
        tally.answer("pair_counts", sizes, library::pair_counts(&pair.first, &pair.second, 1));
        edges.sort_unstable();
        tally.same("edges", edges, taken(&pair, shape));
        every_call(tally, &pair);
        tally.case(|| format!("A with A, labels {x} and {y}"));
    }
    let [lone, both] = [0, 1].map(|label| Pair::of_models(&a(label), &a(label)));
    tally.answer("pair_walk", ACCEPTED, library::pair_walk(&lone.first, &lone.second, &[2, 5]));
    tally.answer("pair_walk", Answer { number: 30, place: 0 }, library::pair_walk(&lone.first, &lone.second, &[2]));
    tally.answer("pair_walk", ACCEPTED, library::pair_walk(&both.first, &both.second, &[2]));
    tally.case(|| "shortest runs of A with A".to_string());
}

/// From each location of a pair without clocks and counters, the edges that can be taken: location, byte, where to.
fn taken(pair: &Pair, shape: Shape) -> Vec<(u8, u8, u8)> {
    let mut taken = Vec::new();
    for location in 0..shape.locations {
        for byte in shape.ceiling as u8 + 1..shape.choices as u8 {
            let state = State { location, ..State::default() };
            let answer = library::pair_step(&pair.first, &pair.second, state, byte);
            if answer.number == 0 {
                taken.push((location, byte, answer.state.location));
            }
        }
    }
    taken.sort_unstable();
    taken
}

/// The text of L with W.
const L_WITH_W: &[u8] = b"locations=4\ninit=0\ntarget=3\nclocks=2\nvars=2\nvar=2,0\nvar=1,1\n\
    inv=x0<=1\ninv=x0<=1,x1<=4\ninv=-\ninv=x1<=4\nedges=5\n\
    from=0\nto=0\nlabel=0\nwhen=-\nset=v0:=v0+1\nreset=x0\n\
    from=1\nto=1\nlabel=0\nwhen=-\nset=v0:=v0+1\nreset=x0\n\
    from=1\nto=0\nlabel=5\nwhen=-\nset=-\nreset=x1:=x1\n\
    from=3\nto=2\nlabel=5\nwhen=-\nset=-\nreset=x1:=x1\n\
    from=0\nto=3\nlabel=3\nwhen=x0>=1,v0>=1,x1>=2\nset=v1:=v1-1\nreset=x1\n";

/// L with W: what it declares, its totals, a shortest run, each step byte's parts; and the list is that of the composed text, which stands here.
fn l_with_w(tally: &mut Tally) {
    let pair = Pair::of_models(&model_l(), &model_w());
    let shape = library::pair_shape(&pair.first, &pair.second);
    tally.same("M, S and H", (5, 21, 11), (shape.ceiling, shape.state, shape.choices));
    let declared = (shape.locations, shape.initial, shape.target, shape.clocks, shape.counters, shape.edges);
    tally.same("declared", (4, 0, 3, 2, 2, 5), declared);
    let sizes = Sizes { number: 0, line: 0, variables: 53, clauses: 382, words: 1361 };
    tally.answer("pair_counts", sizes, library::pair_counts(&pair.first, &pair.second, 1));
    tally.answer("pair_walk", ACCEPTED, library::pair_walk(&pair.first, &pair.second, &[1, 6, 1, 10]));
    let mut runs = (0..11_u32.pow(3)).map(|n| [(n / 121) as u8, (n / 11 % 11) as u8, (n % 11) as u8]);
    tally.same("no run of 3 steps", false, runs.any(|run| library::pair_walk(&pair.first, &pair.second, &run).number == 0));
    let parts = [(0, 0), (1, 1), (2, 2), (2, 3), (2, 4), (2, 5), (3, STAYS), (3, STAYS), (STAYS, 7), (STAYS, 7), (4, 6)];
    for (byte, (first, second)) in (0..).zip(parts) {
        let expected = PartSteps { number: 0, line: 0, first, second };
        tally.answer("pair_parts", expected, library::pair_parts(&pair.first, &pair.second, byte));
    }
    every_call(tally, &pair);
    same_lists(tally, &pair, L_WITH_W, &[0, 1, 2, 7, MAX_BOUND]);
    tally.case(|| "L with W".to_string());
}

/// The words of a pair are those of one text.
fn same_lists(tally: &mut Tally, pair: &Pair, text: &[u8], bounds: &[usize]) {
    for bound in bounds {
        let counts = library::counts(text, *bound);
        let (mut words, mut of_pair) = (vec![1; counts.words], vec![2; counts.words]);
        tally.answer("pair_emit", counts, library::pair_emit(&pair.first, &pair.second, *bound, &mut of_pair));
        library::emit(text, *bound, &mut words);
        tally.same("words of the composed text", true, words == of_pair);
    }
    tally.same("shape of the composed text", library::shape(text), library::pair_shape(&pair.first, &pair.second));
}

/// The first text's refusal comes before the second's, and both before 38; which text it is.
fn refused_texts(tally: &mut Tally) {
    let (right, large) = (written(&model_b()), written(&models::largest()));
    let (early, late) = (b"locations=2\ninit=2\n".to_vec(), [&right[..], b"\n"].concat());
    let long = vec![b'\n'; 8_193];
    let cases = [
        (&early, &late, (5, 1, 2)),
        (&late, &early, (8, 1, 30)),
        (&right, &early, (5, 2, 2)),
        (&large, &late, (8, 2, 30)),
        (&large, &early, (5, 2, 2)),
        (&long, &early, (1, 1, 0)),
        (&large, &long, (1, 2, 0)),
        (&large, &large, (38, 0, 0)),
        (&large, &right, (38, 0, 0)),
        (&right, &large, (38, 0, 0)),
    ];
    for (first, second, (number, text, line)) in cases {
        let pair = Pair::of(first, second);
        tally.answer("pair_read", PairAnswer { number, text, line }, library::pair_read(first, second));
        every_call(tally, &pair);
        tally.case(|| format!("{number}, text {text}, line {line}"));
    }
}

/// A model that declares some numbers, edges from 0 to 0 with one label, and so many atoms in the last location or in each guard.
fn plain(locations: u8, clocks: u8, counters: u8, (edges, label): (u8, u8), (invariant, guard): (usize, usize)) -> Model {
    let mut model = Model { locations, clocks, counters, edges, ..Model::blank() };
    model.invariant[usize::from(locations) - 1][..invariant].fill(Atom::clock(0, Relation::LessEqual, 7));
    for edge in &mut model.edge[..usize::from(edges)] {
        edge.label = label;
        edge.guard[..guard].fill(Atom::clock(0, Relation::LessEqual, 7));
    }
    model
}

/// Both sides of every limit.
fn limits(tally: &mut Tally) {
    let sized = |locations, clocks, counters| plain(locations, clocks, counters, (0, 0), (0, 0));
    let edges = |count, label| plain(2, 0, 0, (count, label), (0, 0));
    let invariant = |atoms| plain(1, 1, 0, (0, 0), (atoms, 0));
    let guard = |atoms, label| plain(1, 1, 0, (1, label), (0, atoms));
    let cases = [
        ("locations", sized(4, 0, 0), sized(4, 0, 0), sized(4, 0, 0), sized(5, 0, 0)),
        ("locations, 256", sized(1, 0, 0), sized(16, 0, 0), sized(16, 0, 0), sized(16, 0, 0)),
        ("clocks", sized(1, 2, 0), sized(1, 2, 0), sized(1, 3, 0), sized(1, 2, 0)),
        ("counters", sized(1, 0, 2), sized(1, 0, 2), sized(1, 0, 3), sized(1, 0, 2)),
        ("lone edges", edges(8, 0), edges(8, 0), edges(9, 0), edges(8, 0)),
        ("lone edges with labels", edges(8, 1), edges(8, 2), edges(8, 1), edges(9, 2)),
        ("pairs of edges", edges(4, 3), edges(8, 3), edges(3, 3), edges(11, 3)),
        ("pairs of edges, 256", edges(1, 3), edges(32, 3), edges(16, 3), edges(16, 3)),
        ("pairs of edges, 1,024", edges(32, 3), edges(1, 3), edges(32, 3), edges(32, 3)),
        ("invariants", invariant(2), invariant(2), invariant(3), invariant(2)),
        ("invariants of four", invariant(4), invariant(0), invariant(4), invariant(1)),
        ("guards", guard(2, 3), guard(2, 3), guard(3, 3), guard(2, 3)),
        ("guards of edges that are no pair", guard(3, 3), guard(2, 4), guard(3, 3), guard(2, 3)),
        ("guards of private edges", guard(4, 0), guard(4, 0), guard(4, 1), guard(4, 1)),
    ];
    for (name, one, other, third, fourth) in cases {
        for (first, second, number) in [(&one, &other, 0), (&other, &one, 0), (&third, &fourth, 38), (&fourth, &third, 38)] {
            let pair = Pair::of_models(first, second);
            tally.answer("pair_read", PairAnswer { number, text: 0, line: 0 }, library::pair_read(&pair.first, &pair.second));
            pair_calls::reading(tally, 7, &pair);
        }
        tally.case(|| name.to_string());
    }
}

/// One text lent as both.
fn the_same_text_twice(tally: &mut Tally) {
    let text = written(&a(7));
    let sizes = Sizes { number: 0, line: 0, variables: 11, clauses: 30, words: 101 };
    tally.answer("pair_counts", sizes, library::pair_counts(&text, &text, 1));
    tally.answer("pair_walk", ACCEPTED, library::pair_walk(&text, &text, &[2]));
    tally.case(|| "the same text twice".to_string());
}

/// The blank model on either side: all answers are those of the other text. Among the models is one at every limit.
fn neutral(tally: &mut Tally) {
    let blank = written(&Model::blank());
    for (name, model) in [("A", model_a()), ("B", model_b()), ("W", model_w()), ("a model at every limit", models::full())] {
        let text = written(&model);
        for (first, second) in [(&text, &blank), (&blank, &text)] {
            let pair = Pair::of(first, second);
            same_lists(tally, &pair, &text, &[0, 1, 4]);
            pair_calls::reading(tally, 9, &pair);
        }
        tally.case(|| format!("{name} with the blank model"));
    }
}
