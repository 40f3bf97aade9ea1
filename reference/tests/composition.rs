//! Two models as one: the worked pairs, both sides of every limit, the order of the
//! refusals, and the law of steps on every state of small products.

mod common;

use std::collections::HashSet;
use std::path::Path;

use common::{model, with_line, MODEL_A, MODEL_B};
use reference::compose::{compose, compose_call, measure, moves, read_pair, Composed, Move, PairRefusal};
use reference::gen::models::{any_model, full, largest, model_a, model_l, model_w};
use reference::gen::pairs::{near, pair, small_pair, Limit};
use reference::gen::rng::Rng;
use reference::list::{totals, Totals};
use reference::model::{ceiling, choice_length, state_length, well_formed, Atom, Edge, Model, Relation};
use reference::refusal::{Refusal, NOT_WELL_FORMED, NO_SUCH_STEP, TOO_LARGE_TOGETHER};
use reference::search::{all_runs, shortest, Shortest};
use reference::state::{all_states, number_of_states, State};
use reference::step::{delay, edge, step};
use reference::subject::shipped_pairs;
use reference::text::write;

/// The worked pair and what it gives.
const L: &str = "\
locations=2
init=0
target=1
clocks=1
vars=1
var=2,0
inv=x0<=1
inv=-
edges=2
from=0
to=0
label=0
when=-
set=v0:=v0+1
reset=x0
from=0
to=1
label=3
when=x0>=1,v0>=1
set=-
reset=-
";

const W: &str = "\
locations=2
init=0
target=1
clocks=1
vars=1
var=1,1
inv=-
inv=x0<=4
edges=2
from=0
to=1
label=3
when=x0>=2
set=v0:=v0-1
reset=x0
from=1
to=0
label=5
when=-
set=-
reset=x0:=x0
";

const L_WITH_W: &str = "\
locations=4
init=0
target=3
clocks=2
vars=2
var=2,0
var=1,1
inv=x0<=1
inv=x0<=1,x1<=4
inv=-
inv=x1<=4
edges=5
from=0
to=0
label=0
when=-
set=v0:=v0+1
reset=x0
from=1
to=1
label=0
when=-
set=v0:=v0+1
reset=x0
from=1
to=0
label=5
when=-
set=-
reset=x1:=x1
from=3
to=2
label=5
when=-
set=-
reset=x1:=x1
from=0
to=3
label=3
when=x0>=1,v0>=1,x1>=2
set=v1:=v1-1
reset=x1
";

/// Model A with a label.
fn a(label: u8) -> Model {
    let mut model = model_a();
    model.edge[0].label = label;
    model
}

fn composed(first: &Model, second: &Model) -> Composed {
    compose(first, second).unwrap()
}

/// Source, target and label of each edge.
fn ends(model: &Model) -> Vec<(u8, u8, u8)> {
    model.used_edges().iter().map(|edge| (edge.source, edge.target, edge.label)).collect()
}

fn sizes(model: &Model) -> (u32, u32, u32) {
    let Totals { variables, clauses, words } = totals(model, 1).unwrap();
    (variables, clauses, words)
}

#[test]
fn a_with_a_and_labels() {
    let alone = vec![(0, 2, 0), (1, 3, 0), (0, 1, 0), (2, 3, 0)];
    let labelled = |labels: [u8; 4]| alone.iter().zip(labels).map(|(&(from, to, _), label)| (from, to, label)).collect();
    let cases: [(u8, u8, Vec<_>, _); 5] = [
        (0, 0, alone.clone(), (14, 48, 158)),
        (1, 1, vec![(0, 3, 1)], (11, 30, 101)),
        (1, 2, labelled([1, 1, 2, 2]), (14, 48, 158)),
        (15, 15, vec![(0, 3, 15)], (11, 30, 101)),
        (0, 1, labelled([0, 0, 1, 1]), (14, 48, 158)),
    ];
    for (x, y, expected, totals) in cases {
        let found = composed(&a(x), &a(y)).model;
        assert_eq!((found.locations, found.init, found.target), (4, 0, 3));
        assert_eq!((ends(&found), sizes(&found)), (expected, totals), "labels {x} and {y}");
    }
    let alone = composed(&a(0), &a(0)).model;
    assert!(all_runs(&alone, 1).unwrap().is_empty() && all_runs(&alone, 2).unwrap().contains(&vec![2, 5]));
    assert_eq!(all_runs(&composed(&a(1), &a(1)).model, 1), Ok(vec![vec![2]]));
}

#[test]
fn the_logger_with_the_watchdog() {
    assert_eq!((model_l(), model_w()), (model(L), model(W)));
    let found = composed(&model(L), &model(W));
    assert_eq!(write(&found.model).unwrap(), L_WITH_W);
    assert_eq!((ceiling(&found.model), state_length(&found.model), choice_length(&found.model)), (5, 21, 11));
    assert_eq!(sizes(&found.model), (53, 382, 1361));
    assert_eq!(shortest(&found.model, 10_000), Ok(Shortest::Steps(4)));
    assert!(all_runs(&found.model, 4).unwrap().contains(&vec![1, 6, 1, 10]));
    let parts = [(1, 1), (3, 255), (1, 1), (4, 6)];
    for (byte, expected) in [1, 6, 1, 10].into_iter().zip(parts) {
        assert_eq!(bytes(&found, byte), Ok(expected), "byte {byte}");
    }
    assert_eq!([bytes(&found, 5), bytes(&found, 8), bytes(&found, 11)], [Ok((2, 5)), Ok((255, 7)), Err(27)]);
}

/// The parts' step bytes, 255 for a part that stands still.
fn bytes(composed: &Composed, byte: u8) -> Result<(u8, u8), u32> {
    composed.part_steps(byte).map(|(first, second)| (first.unwrap_or(255), second.unwrap_or(255)))
}

/// The order of updates and what they read: the second's numbers move up.
#[test]
fn updates_keep_their_listed_order() {
    let two = |set: &str| {
        model(
            &with_line(MODEL_A, 5, "vars=2\nvar=3,1\nvar=3,2")
                .replace("\nset=-", &format!("\n{set}"))
                .replace("label=0", "label=9"),
        )
    };
    let found = composed(&two("set=v1:=v0+1,v0:=2"), &two("set=v1:=0,v0:=v1-1"));
    let text = write(&found.model).unwrap();
    assert!(text.contains("\nset=v1:=v0+1,v0:=2,v3:=0,v2:=v3-1\n"), "{text}");
    assert!(text.contains("var=3,1\nvar=3,2\nvar=3,1\nvar=3,2\n"));
}

#[test]
fn copies_of_clocks_move_up() {
    let clocks = |reset: &str| model(&with_line(MODEL_A, 4, "clocks=2").replace("reset=-", reset).replace("label=0", "label=9"));
    let found = composed(&clocks("reset=x0,x1:=x0"), &clocks("reset=x0:=x1,x1:=x0"));
    let text = write(&found.model).unwrap();
    assert!(text.ends_with("\nreset=x0,x1:=x0,x2:=x3,x3:=x2\n"), "{text}");
}

/// Pairs in lexicographic order, also where one model's edges with a label stand
/// apart; lone edges before them.
#[test]
fn pairs_are_listed_by_the_first_edge_and_then_the_second() {
    let with_labels = |labels: &[u8]| {
        let mut model = Model { edges: labels.len() as u8, ..Model::blank() };
        for (slot, label) in model.edge.iter_mut().zip(labels) {
            slot.label = *label;
        }
        model
    };
    let found = moves(&with_labels(&[4, 0, 2, 4, 9]), &with_labels(&[2, 4, 8, 4]));
    let both = |first, second| Move::Both { first, second };
    let expected = vec![
        Move::First { edge: 1, beside: 0 },
        Move::First { edge: 4, beside: 0 },
        Move::Second { edge: 2, beside: 0 },
        both(0, 1),
        both(0, 3),
        both(2, 0),
        both(3, 1),
        both(3, 3),
    ];
    assert_eq!(found, expected);
}

/// The blank model, which has one location and no edge, changes nothing on either
/// side.
#[test]
fn the_blank_model_is_neutral() {
    let mut rng = Rng::new(20);
    let mut models = vec![largest(), full(), model(MODEL_B)];
    models.extend((0..200).map(|_| any_model(&mut rng)));
    for model in models {
        assert_eq!(composed(&model, &Model::blank()).model, model);
        assert_eq!(composed(&Model::blank(), &model).model, model);
    }
}

/// A model that declares some numbers and nothing else.
fn plain(locations: u8, clocks: u8, counters: u8, labels: &[u8]) -> Model {
    let mut model = Model { locations, clocks, counters, edges: labels.len() as u8, ..Model::blank() };
    for (slot, label) in model.edge.iter_mut().zip(labels) {
        slot.label = *label;
    }
    model
}

fn number(first: &Model, second: &Model) -> u32 {
    let (number, model) = compose_call(first, second);
    assert_eq!(model == Model::blank(), number != 0);
    number
}

#[test]
fn locations_clocks_and_counters() {
    for (first, second, expected) in
        [(4, 4, 0), (4, 5, 38), (5, 4, 38), (16, 1, 0), (1, 16, 0), (8, 2, 0), (9, 2, 38), (16, 16, 38)]
    {
        assert_eq!(number(&plain(first, 0, 0, &[]), &plain(second, 0, 0, &[])), expected, "{first} by {second}");
    }
    for (first, second, expected) in [(2, 2, 0), (3, 2, 38), (2, 3, 38), (4, 0, 0), (0, 4, 0), (1, 4, 38), (4, 4, 38)] {
        assert_eq!(number(&plain(2, first, 0, &[]), &plain(1, second, 0, &[])), expected, "clocks {first} and {second}");
        assert_eq!(number(&plain(2, 0, first, &[]), &plain(1, 0, second, &[])), expected, "counters {first} and {second}");
    }
}

#[test]
fn edges_alone_and_in_pairs() {
    let alone = |first: usize, second: usize| number(&plain(2, 0, 0, &vec![0; first]), &plain(2, 0, 0, &vec![0; second]));
    assert_eq!((alone(8, 8), alone(9, 8), alone(8, 9), alone(16, 0), alone(0, 16), alone(17, 0)), (0, 38, 38, 0, 0, 38));
    let pairs = |first: usize, second: usize| number(&plain(2, 0, 0, &vec![3; first]), &plain(2, 0, 0, &vec![3; second]));
    assert_eq!((pairs(4, 8), pairs(3, 11), pairs(11, 3), pairs(32, 1), pairs(1, 32)), (0, 38, 38, 0, 0));
    let mixed = |lone| number(&plain(2, 0, 0, &[vec![1; lone], vec![3; 5]].concat()), &plain(2, 0, 0, &[3; 6]));
    assert_eq!((mixed(1), mixed(2)), (0, 38));
}

/// Numbers that a byte does not hold.
#[test]
fn numbers_are_counted_wide() {
    let full = |label| plain(16, 0, 0, &[label; 32]);
    let found = measure(&full(0), &full(0));
    assert_eq!((found.locations, found.edges), (256, 1024));
    assert_eq!(measure(&full(9), &full(9)).edges, 1024);
    assert_eq!((number(&full(0), &full(0)), number(&full(9), &full(9))), (38, 38));
    // 256 locations, and 16 times 16 and no edges, would be 0 in a byte
    assert_eq!(number(&plain(16, 0, 0, &[]), &plain(16, 0, 0, &[])), 38);
    let edges = measure(&plain(16, 0, 0, &[0; 16]), &plain(16, 0, 0, &[]));
    assert_eq!(edges.edges, 256);
    assert_eq!(number(&plain(1, 0, 0, &[7; 16]), &plain(1, 0, 0, &[7; 16])), 38);
}

/// Clocks and so many atoms in the invariant of location 1, or in the guard of edge 0.
fn with_atoms(invariant: usize, guard: usize, label: u8) -> Model {
    let mut model = plain(2, 1, 0, &[label]);
    model.invariant[1][..invariant].fill(Atom::clock(0, Relation::LessEqual, 7));
    model.edge[0].guard[..guard].fill(Atom::clock(0, Relation::LessEqual, 7));
    model
}

#[test]
fn atoms_of_invariants_and_guards() {
    for (first, second, expected) in [(2, 2, 0), (3, 2, 38), (2, 3, 38), (4, 0, 0), (0, 4, 0), (4, 1, 38), (4, 4, 38)] {
        assert_eq!(number(&with_atoms(first, 0, 0), &with_atoms(second, 0, 0)), expected, "invariants {first} and {second}");
        assert_eq!(number(&with_atoms(0, first, 3), &with_atoms(0, second, 3)), expected, "guards {first} and {second}");
        for (one, other) in [(3, 4), (0, 0), (0, 3), (3, 0)] {
            assert_eq!(number(&with_atoms(0, first, one), &with_atoms(0, second, other)), 0, "labels {one} and {other}");
        }
    }
}

/// Invariants count also where no edge leads; guards count only where a pair is
/// formed, among other edges that share a label too.
#[test]
fn pairs_never_formed_do_not_count() {
    let mut first = with_atoms(0, 4, 3);
    let mut second = with_atoms(0, 4, 4);
    for model in [&mut first, &mut second] {
        (model.edges, model.edge[1].label) = (2, 7);
        model.edge[1].guard[..2].fill(Atom::clock(0, Relation::Less, 3));
    }
    assert_eq!((number(&first, &second), measure(&first, &second).guard), (0, 4));
    first.edge[1].label = 4;
    assert_eq!((number(&first, &second), measure(&first, &second).guard), (38, 6));
    let unreachable = with_atoms(3, 0, 0);
    assert_eq!(number(&unreachable, &unreachable), 38);
}

/// 20 for either record comes before 38, and is told of records alone.
#[test]
fn records_are_tested_before_the_limits() {
    let (mut wrong, large) = (plain(16, 4, 4, &[0; 32]), plain(16, 4, 4, &[0; 32]));
    wrong.target = 16;
    for (first, second, expected) in
        [(&wrong, &large, NOT_WELL_FORMED), (&large, &wrong, NOT_WELL_FORMED), (&wrong, &wrong, NOT_WELL_FORMED)]
    {
        assert_eq!(number(first, second), expected);
    }
    assert_eq!(number(&large, &large), TOO_LARGE_TOGETHER);
    let mut unused = a(0);
    unused.edge[1].label = 3;
    assert_eq!((number(&unused, &a(0)), number(&a(0), &unused)), (NOT_WELL_FORMED, NOT_WELL_FORMED));
}

#[test]
fn texts_are_read_in_their_order() {
    let large = write(&plain(16, 0, 0, &[])).unwrap();
    let refused = |first: &str, second: &str| read_pair(first.as_bytes(), second.as_bytes()).map(|_| ()).unwrap_err();
    let at = |number, line, text| PairRefusal { refusal: Refusal::at(number, line), text };
    let (early, late) = (MODEL_A.replace("init=0", "init=2"), format!("{MODEL_A}\n"));
    assert_eq!(refused(&early, &late), at(5, 2, 1));
    assert_eq!(refused(&late, &early), at(8, 15, 1));
    assert_eq!(refused(MODEL_A, &late), at(8, 15, 2));
    assert_eq!(refused(&large, &early), at(5, 2, 2));
    assert_eq!(refused(&large, &large), at(38, 0, 0));
    assert!(
        read_pair(MODEL_A.as_bytes(), large.replace("locations=16", "locations=8").replacen("inv=-\n", "", 8).as_bytes()).is_ok()
    );
}

/// What composing keeps: well-formedness, the pairs of initial and target, the larger
/// ceiling, and the labels of both.
#[test]
fn generated_pairs() {
    let (mut rng, mut accepted, mut joined) = (Rng::new(7), 0, 0);
    for _ in 0..3000 {
        let (first, second) = pair(&mut rng);
        let found = match compose(&first, &second) {
            Ok(found) => found,
            Err(refusal) => {
                assert_eq!(refusal, Refusal::plain(TOO_LARGE_TOGETHER));
                assert!(!measure(&first, &second).fits());
                continue;
            }
        };
        let model = &found.model;
        assert!(measure(&first, &second).fits() && well_formed(model));
        assert_eq!(ceiling(model), ceiling(&first).max(ceiling(&second)));
        let (start, goal) =
            (State { location: model.init, ..State::initial(model) }, State { location: model.target, ..State::initial(model) });
        assert_eq!(found.parts(&start), (State::initial(&first), State::initial(&second)));
        assert_eq!((found.parts(&goal).0.location, found.parts(&goal).1.location), (first.target, second.target));
        let used = |model: &Model, label| model.used_edges().iter().any(|edge| edge.label == label);
        for label in 0..=15 {
            assert_eq!(used(model, label), used(&first, label) || used(&second, label), "label {label}");
        }
        accepted += 1;
        joined += usize::from(found.moves.iter().any(|joint| matches!(joint, Move::Both { .. })));
    }
    assert!((2000..=2900).contains(&accepted) && joined >= 800, "{accepted} accepted, {joined} with pairs");
}

#[test]
fn pairs_near_each_limit() {
    let mut rng = Rng::new(8);
    for limit in Limit::ALL {
        for turn in 0..200 {
            let beyond = turn % 2 == 1;
            let (first, second) = near(&mut rng, limit, beyond);
            let found = measure(&first, &second);
            for other in Limit::ALL {
                let (size, most) = other.of(&found);
                let expected = if other == limit { size > most } else { false };
                assert_eq!(size > most, expected, "{limit:?} {found:?}");
                assert!(other != limit || beyond || size == most, "{limit:?} {found:?}");
            }
            assert_eq!(number(&first, &second), if beyond { 38 } else { 0 }, "{limit:?}");
        }
    }
}

#[test]
fn all_states_are_listed_once() {
    for (model, count) in
        [(model_a(), 2), (model(MODEL_B), 4 * 2 * 5), (composed(&model_l(), &model_w()).model, 4 * 3 * 2 * 6 * 6)]
    {
        let states: HashSet<State> = all_states(&model).into_iter().collect();
        assert_eq!((states.len(), number_of_states(&model)), (count, count));
        assert!(states.iter().all(|state| state.in_groups(&model)));
    }
}

/// What the parts do by themselves in a step of the product from parts a and b; the
/// new parts, or nothing if one of them does not allow it.
fn by_parts(found: &Composed, (a, b): (State, State), byte: u8) -> Option<(State, State)> {
    let (first, second) = (&found.first, &found.second);
    let moved = |model: &Model, state, number: usize| edge(model, state, &model.edge[number]);
    match usize::from(byte).checked_sub(ceiling(&found.model) as usize + 1) {
        None => {
            let ticks = u32::from(byte);
            Some((delay(first, a, ticks.min(ceiling(first)))?, delay(second, b, ticks.min(ceiling(second)))?))
        }
        Some(number) => match found.moves[number] {
            Move::First { edge, beside } if usize::from(b.location) == beside => Some((moved(first, a, edge)?, b)),
            Move::Second { edge, beside } if usize::from(a.location) == beside => Some((a, moved(second, b, edge)?)),
            Move::Both { first: e, second: f } => Some((moved(first, a, e)?, moved(second, b, f)?)),
            _ => None,
        },
    }
}

/// "A joint state that meets its invariant, with each part's clocks cut to that part's
/// own ceiling, must step exactly as the parts do."
#[test]
fn joint_states_step_as_the_parts_do() {
    let (mut rng, mut steps, mut taken, mut pairs) = (Rng::new(9), 0, 0, 0);
    while pairs < 60 {
        let (first, second) = small_pair(&mut rng);
        let found = composed(&first, &second);
        if number_of_states(&found.model) > 3_000 {
            continue;
        }
        pairs += 1;
        for state in all_states(&found.model).into_iter().filter(|state| state.meets_invariant(&found.model)) {
            for byte in 0..choice_length(&found.model) as u8 {
                let after = step(&found.model, state, byte).ok();
                let expected = by_parts(&found, found.parts(&state), byte);
                assert_eq!(after.map(|after| found.parts(&after)), expected, "{found:?} {state:?} {byte}");
                steps += 1;
                taken += usize::from(after.is_some());
            }
        }
    }
    assert!(steps > 100_000 && taken > steps / 10, "{taken} of {steps}");
}

/// From a joint state that breaks its invariant a lone edge tests the other part's
/// invariant too, so the law says nothing of such states.
#[test]
fn a_lone_edge_tests_both_invariants() {
    let mut first = a(0);
    first.invariant[0] = Model::blank().invariant[0];
    let mut second = plain(1, 1, 0, &[]);
    second.invariant[0][0] = Atom::clock(0, Relation::LessEqual, 2);
    let found = composed(&first, &second);
    let late = State { location: 0, counters: [0; 4], clocks: [3, 0, 0, 0] };
    assert!(!late.meets_invariant(&found.model));
    assert_eq!(step(&found.model, late, 4), Err(28));
    let (a, b) = found.parts(&late);
    assert!(edge(&first, a, &first.edge[0]).is_some() && b.clocks[0] == 3);
}

/// Step bytes of the product for its parts, against the moves.
#[test]
fn step_bytes_of_the_parts() {
    let mut rng = Rng::new(10);
    for _ in 0..500 {
        let (first, second) = pair(&mut rng);
        let found = match compose(&first, &second) {
            Ok(found) => found,
            Err(_) => continue,
        };
        let (own, other, joint) = (ceiling(&first) as u8, ceiling(&second) as u8, ceiling(&found.model) as u8);
        for ticks in 0..=joint {
            assert_eq!(bytes(&found, ticks), Ok((ticks.min(own), ticks.min(other))));
        }
        for (number, joined) in found.moves.iter().enumerate() {
            let expected = match *joined {
                Move::First { edge, .. } => (own + 1 + edge as u8, 255),
                Move::Second { edge, .. } => (255, other + 1 + edge as u8),
                Move::Both { first, second } => (own + 1 + first as u8, other + 1 + second as u8),
            };
            assert_eq!(bytes(&found, joint + 1 + number as u8), Ok(expected));
        }
        for byte in choice_length(&found.model)..=255 {
            assert_eq!(bytes(&found, byte as u8), Err(NO_SUCH_STEP));
        }
    }
}

/// The shipped pairs: the one that loses the entry, and the one in which nothing does.
#[test]
fn the_shipped_pairs() {
    let pairs = shipped_pairs(Path::new(concat!(env!("CARGO_MANIFEST_DIR"), "/../models"))).unwrap();
    let names: Vec<[&str; 2]> = pairs.iter().map(|(first, second)| [&first.name[..], &second.name]).collect();
    assert_eq!(names, [["logger.txt", "watchdog.txt"], ["logger.txt", "watchdog_patient.txt"]]);
    let models = pairs.iter().map(|(first, second)| composed(&first.model, &second.model).model);
    let found: Vec<_> = models.map(|model| shortest(&model, 1_000_000)).collect();
    assert_eq!(found, [Ok(Shortest::Steps(6)), Ok(Shortest::None)]);
}

/// An edge of one model that no other shares keeps all that it has.
#[test]
fn a_lone_edge_keeps_its_content() {
    let found = composed(&model_l(), &model_w()).model;
    let of_l = model_l().edge[0];
    assert_eq!(found.edge[1], Edge { source: 1, target: 1, ..of_l });
}
