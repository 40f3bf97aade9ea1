//! Updates happen in their listed order: the worked cases, each value against the
//! one that its update reads, and edges for which the order does not matter.

mod common;

use common::{clocks_after, model, with_line, C2, PAIR};
use reference::assign::{assignment_of, run_of};
use reference::gen::models::{self, any_model};
use reference::gen::records::state_in_groups;
use reference::gen::rng::Rng;
use reference::list::{clauses, totals, Totals};
use reference::model::{rising_order, Edge, Model, Update};
use reference::numbering::Numbering;
use reference::search::all_runs;
use reference::solve::all_solutions;
use reference::state::State;
use reference::step::{edge, states_of_run, step_call};
use reference::text::write;

/// C2 with another list of updates.
fn setting(set: &str) -> Model {
    model(&with_line(C2, 15, &format!("set={set}")))
}

fn state(location: u8, v0: u8, v1: u8) -> State {
    State { location, counters: [v0, v1, 0, 0], clocks: [0; 4] }
}

#[test]
fn c2_reads_the_raised_counter() {
    let c2 = model(C2);
    assert_eq!(c2.edge[0].order, [0, 1, 0, 0]);
    assert_eq!(totals(&c2, 1), Ok(Totals { variables: 15, clauses: 38, words: 126 }));
    let list = clauses(&c2, 1).unwrap();
    assert_eq!(list[29..31], [vec![-9, -12, 14], vec![-9, -13, 15]]);
    let assignment = vec![1, 0, 1, 0, 1, 0, 0, 0, 1, 0, 1, 0, 1, 0, 1];
    assert_eq!(assignment_of(&c2, &[2]).as_ref(), Ok(&assignment));
    assert_eq!(all_solutions(&list, 15, 10), Some(vec![assignment]));
    assert_eq!(all_runs(&c2, 1), Ok(vec![vec![2]]));
    assert_eq!(states_of_run(&c2, &[2]).unwrap()[1], state(1, 1, 1));
    assert_eq!(step_call(&c2, state(0, 1, 0), 2), (28, state(0, 1, 0)));
}

#[test]
fn the_other_order_reads_the_counter_before_the_edge() {
    let other = setting("v1:=v0+0,v0:=v0+1");
    assert_eq!(other.edge[0].order, [1, 0, 0, 0]);
    assert_eq!(other.edge[0].updates, model(C2).edge[0].updates);
    let mut expected = clauses(&model(C2), 1).unwrap();
    (expected[29], expected[30]) = (vec![-9, -3, 14], vec![-9, -4, 15]);
    assert_eq!(clauses(&other, 1), Ok(expected));
    assert_eq!(states_of_run(&other, &[2]).unwrap()[1], state(1, 1, 0));
}

/// An assignment in which the copy has the value from before the edge is refused by
/// C2's list, and the one with the raised value by the other order's.
#[test]
fn lists_tell_the_orders_apart() {
    let (c2, other) = (model(C2), setting("v1:=v0+0,v0:=v0+1"));
    let (raised, before) = (assignment_of(&c2, &[2]).unwrap(), assignment_of(&other, &[2]).unwrap());
    assert_ne!(raised, before);
    assert_eq!(run_of(&c2, 1, &before).map_err(|refusal| (refusal.number, refusal.place)), Err((26, 30)));
    assert_eq!(run_of(&other, 1, &raised).map_err(|refusal| (refusal.number, refusal.place)), Err((26, 29)));
}

#[test]
fn two_copies_are_no_exchange() {
    let copies = setting("v0:=v1+0,v1:=v0+0");
    assert_eq!(step_call(&copies, state(0, 0, 1), 2), (0, state(1, 1, 1)));
    assert_eq!(step_call(&copies, state(0, 1, 0), 2), (0, state(1, 0, 0)));
    let falling = setting("v1:=v0+0,v0:=v1+0");
    assert_eq!(step_call(&falling, state(0, 0, 1), 2), (0, state(1, 0, 0)));
    // With a third counter that keeps one of the values the two are exchanged.
    let text = with_line(&with_line(C2, 5, "vars=3\nvar=1,0"), 16, "set=v2:=v0+0,v0:=v1+0,v1:=v2+0");
    let exchange = model(&text);
    let before = State { location: 0, counters: [0, 1, 0, 0], clocks: [0; 4] };
    let after = State { location: 1, counters: [1, 0, 0, 0], clocks: [0; 4] };
    assert_eq!(step_call(&exchange, before, 2), (0, after));
}

/// A value that is left on the way counts: it refuses the edge though no later
/// update reads it.
#[test]
fn a_value_out_of_range_refuses_the_edge() {
    for set in ["v0:=v0+1,v1:=1", "v1:=1,v0:=v0+1"] {
        assert_eq!(step_call(&setting(set), state(0, 1, 0), 2).0, 28, "{set}");
        assert_eq!(step_call(&setting(set), state(0, 0, 0), 2), (0, state(1, 1, 1)), "{set}");
    }
    // v1 is in range for one of the values of v0 alone, the one that it reads.
    assert_eq!(step_call(&setting("v0:=v0-1,v1:=v0+1"), state(0, 1, 0), 2), (0, state(1, 0, 1)));
    assert_eq!(step_call(&setting("v1:=v0+1,v0:=v0-1"), state(0, 1, 0), 2).0, 28);
}

/// A counter that is listed is not kept, though its value stays.
#[test]
fn plus_zero_is_listed() {
    let listed = setting("v1:=v1+0,v0:=v1+0");
    assert_eq!(listed.edge[0].order, [1, 0, 0, 0]);
    let numbering = Numbering::of(&listed);
    let source = numbering.counter(1, 1).member(0);
    let copy = numbering.counter(1, 0).member(0);
    assert!(clauses(&listed, 1).unwrap().contains(&vec![-9, -source, copy]));
    let kept = setting("v0:=v1+0");
    let source = numbering.counter(0, 1).member(0);
    assert!(clauses(&kept, 1).unwrap().contains(&vec![-9, -source, copy]));
}

#[test]
fn texts_are_written_in_the_listed_order() {
    for set in ["v0:=1,v1:=v0+0", "v1:=v0+0,v0:=1", "v1:=v1-1", "-"] {
        let text = with_line(PAIR, 15, &format!("set={set}"));
        assert_eq!(write(&model(&text)).as_ref(), Ok(&text));
    }
}

/// The value that an update gives, if it reads `read` for each counter.
fn given(update: Update, own: u8, read: impl Fn(u8) -> u8) -> i32 {
    match update {
        Update::Keep => i32::from(own),
        Update::Constant(constant) => i32::from(constant),
        Update::Sum { source, offset } => i32::from(read(source)) + i32::from(offset),
    }
}

/// The counters whose update reads a counter that is set earlier, rising.
fn readers(edge: &Edge) -> Vec<u8> {
    let mut readers: Vec<u8> = edge.later_readers().collect();
    readers.sort_unstable();
    readers
}

/// Some edge of generated models with a state in its source in which its guard holds.
fn edges_and_states(seeds: std::ops::Range<u64>) -> impl Iterator<Item = (Model, Edge, State)> {
    seeds.flat_map(|seed| {
        let mut rng = Rng::new(seed);
        let model = any_model(&mut rng);
        let mut found = Vec::new();
        for edge in model.used_edges() {
            let mut state = state_in_groups(&mut rng, &model);
            state.location = edge.source;
            if state.meets(&edge.guard) {
                found.push((model.clone(), *edge, state));
            }
        }
        found
    })
}

/// What an update reads is the value after the edge of a counter that is listed
/// before it, and else the value before the edge.
#[test]
fn each_value_is_the_one_that_its_update_gives() {
    let (mut taken, mut reading) = (0, 0);
    for (model, one, before) in edges_and_states(0..6_000) {
        let after = match edge(&model, before, &one) {
            Some(after) => after,
            None => continue,
        };
        taken += 1;
        reading += usize::from(!readers(&one).is_empty());
        for index in 0..model.counters {
            let read = |source: u8| {
                let place = |counter: u8| one.listed().iter().position(|listed| *listed == counter);
                let state = match (place(source), place(index)) {
                    (Some(earlier), Some(own)) if earlier < own => after,
                    _ => before,
                };
                state.counters[usize::from(source)]
            };
            let slot = usize::from(index);
            let expected = given(one.updates[slot], before.counters[slot], read);
            assert_eq!(i32::from(after.counters[slot]), expected, "{one:?} from {before:?}");
        }
    }
    assert!(taken >= 2_000 && reading >= 150, "{taken} {reading}");
}

/// An edge of which no update reads a counter set earlier steps as if all updates read
/// the values before the edge, and its list does not depend on its order.
#[test]
fn without_such_a_source_the_order_does_not_matter() {
    let (mut free, mut bound) = (0, 0);
    for (model, one, before) in edges_and_states(0..3_000) {
        let rising = Edge { order: rising_order(&one.updates), ..one };
        let falling = Edge { order: reversed(&rising), ..one };
        if readers(&rising).is_empty() && readers(&falling).is_empty() && one.listed().len() > 1 {
            free += 1;
            let together = together(&model, &one, before);
            for order in [one, rising, falling] {
                assert_eq!(edge(&model, before, &order), together);
                assert_eq!(clauses(&alone(&model, order), 1), clauses(&alone(&model, one), 1));
            }
        } else if readers(&rising) != readers(&falling) {
            bound += 1;
            assert_ne!(clauses(&alone(&model, rising), 1), clauses(&alone(&model, falling), 1));
        }
    }
    assert!(free >= 300 && bound >= 300, "{free} {bound}");
}

fn reversed(edge: &Edge) -> [u8; 4] {
    let mut order = edge.order;
    order[..edge.listed().len()].reverse();
    order
}

/// The edge with every source read before it.
fn together(model: &Model, edge: &Edge, before: State) -> Option<State> {
    let mut after = before;
    after.location = edge.target;
    for (index, counter) in model.used_counters().iter().enumerate() {
        let value = given(edge.updates[index], before.counters[index], |source| before.counters[usize::from(source)]);
        if !(0..=i32::from(counter.greatest)).contains(&value) {
            return None;
        }
        after.counters[index] = value as u8;
    }
    after.clocks = clocks_after(edge, &before);
    after.meets_invariant(model).then_some(after)
}

/// The model with one edge alone, clocks left out.
fn alone(model: &Model, edge: Edge) -> Model {
    let mut alone = Model::blank();
    (alone.locations, alone.counters, alone.counter) = (model.locations, model.counters, model.counter);
    alone.edges = 1;
    alone.edge[0] = Edge { guard: Edge::BLANK.guard, clock_updates: Edge::BLANK.clock_updates, ..edge };
    alone
}

/// Generated models have edges of every sort: none, one and several updates that read
/// a counter set earlier.
#[test]
fn generated_models_use_the_order() {
    let mut rng = Rng::new(1);
    let mut edges = [0; 4];
    for _ in 0..2_000 {
        for edge in models::any_model(&mut rng).used_edges() {
            edges[readers(edge).len()] += 1;
        }
    }
    assert!(edges[0] >= 5_000 && edges[1] >= 500 && edges[2] >= 50, "{edges:?}");
}
