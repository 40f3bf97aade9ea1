//! Refusal 20: well-formedness, each limit on both sides, and 20 as the first
//! test of every call with a record.

mod common;

use common::{model, MODEL_A, PAIR};
use reference::assign::{decode, encode};
use reference::gen::models::{largest, model_b};
use reference::list::{clauses, emit, totals, visit_clauses, words, Flow};
use reference::model::{rising_order, well_formed, Atom, ClockUpdate, Counter, Edge, Model, Relation, Update, NO_ATOMS};
use reference::refusal::Refusal;
use reference::search::{all_runs, count_runs, shortest};
use reference::state::State;
use reference::step::{step_call, walk};
use reference::text::write;

/// Whether the pair model is well formed after a change.
fn after(change: impl FnOnce(&mut Model)) -> bool {
    let mut record = model(PAIR);
    change(&mut record);
    well_formed(&record)
}

/// Gives an edge one update more, and the order that lists its updates.
fn set(model: &mut Model, edge: usize, counter: usize, update: Update) {
    let edge = &mut model.edge[edge];
    edge.updates[counter] = update;
    edge.order = rising_order(&edge.updates);
}

#[test]
fn fixed_models_are_well_formed() {
    assert!(well_formed(&Model::blank()));
    assert!(well_formed(&model(MODEL_A)));
    assert!(well_formed(&model_b()));
    assert!(well_formed(&largest()));
}

#[test]
fn numbers_at_every_byte() {
    for byte in 0..=255 {
        assert_eq!(after(|m| m.init = byte), byte < 2);
        assert_eq!(after(|m| m.target = byte), byte < 2);
        // Fewer locations would leave the target 1 undeclared.
        assert_eq!(after(|m| m.locations = byte), (2..=16).contains(&byte));
        // The pair's counters are used, so fewer leave a used slot.
        assert_eq!(after(|m| m.counters = byte), (2..=4).contains(&byte));
        assert_eq!(after(|m| m.clocks = byte), byte <= 4);
        // The edge slots after the first are blank, which is an edge from 0 to 0.
        assert_eq!(after(|m| m.edges = byte), (1..=32).contains(&byte));
        assert_eq!(after(|m| m.counter[0].greatest = byte), byte <= 31);
        assert_eq!(after(|m| m.counter[0].initial = byte), byte <= 3);
        assert_eq!(after(|m| m.counter[2].greatest = byte), byte == 0);
        assert_eq!(after(|m| m.counter[3].initial = byte), byte == 0);
    }
}

#[test]
fn one_location_is_taken_and_none_is_not() {
    let mut record = Model::blank();
    assert!(well_formed(&record));
    record.locations = 0;
    assert!(!well_formed(&record));
}

#[test]
fn edges_at_every_byte() {
    for byte in 0..=255 {
        assert_eq!(after(|m| m.edge[0].source = byte), byte < 2);
        assert_eq!(after(|m| m.edge[0].target = byte), byte < 2);
        assert_eq!(after(|m| m.edge[1].source = byte), byte == 0);
        assert_eq!(after(|m| m.edge[31].target = byte), byte == 0);
        assert_eq!(after(|m| set(m, 0, 1, Update::Constant(byte))), byte <= 31);
        let sum = |source| Update::Sum { source, offset: 0 };
        assert_eq!(after(|m| set(m, 0, 1, sum(byte))), byte < 2);
    }
    for offset in -128..=127 {
        let sum = Update::Sum { source: 0, offset };
        assert_eq!(after(|m| set(m, 0, 0, sum)), (-31..=31).contains(&offset));
    }
}

/// A label is at most 15, and 0 in a slot of no edge.
#[test]
fn labels_in_every_slot() {
    for byte in 0..=255 {
        assert_eq!(after(|m| m.edge[0].label = byte), byte <= 15);
        for unused in 1..32 {
            assert_eq!(after(|m| m.edge[unused].label = byte), byte == 0, "edge {unused}, label {byte}");
        }
        let mut full = largest();
        full.edge[31].label = byte;
        assert_eq!(well_formed(&full), byte <= 15);
    }
}

/// Whether the pair model is well formed if its edge sets these counters to 1 and has
/// this order.
fn ordered(counters: &[usize], order: [u8; 4]) -> bool {
    after(|m| {
        for counter in counters {
            m.edge[0].updates[*counter] = Update::Constant(1);
        }
        m.edge[0].order = order;
    })
}

#[test]
fn the_order_names_each_counter_that_is_set_once() {
    for order in [[0, 1, 0, 0], [1, 0, 0, 0]] {
        assert!(ordered(&[0, 1], order), "{order:?}");
    }
    for order in [[0, 0, 0, 0], [0, 1, 1, 0], [0, 1, 0, 1], [1, 1, 0, 0], [0, 2, 0, 0], [2, 1, 0, 0], [0, 1, 2, 3]] {
        assert!(!ordered(&[0, 1], order), "{order:?}");
    }
    assert!(ordered(&[1], [1, 0, 0, 0]));
    for order in [[0, 0, 0, 0], [0, 1, 0, 0], [1, 1, 0, 0]] {
        assert!(!ordered(&[1], order), "{order:?}");
    }
    // A blank slot is 0, which names v0 too.
    assert!(ordered(&[0], [0, 0, 0, 0]));
    assert!(ordered(&[], [0, 0, 0, 0]));
    assert!(!ordered(&[], [1, 0, 0, 0]));
    assert!(!ordered(&[], [0, 0, 0, 1]));
}

#[test]
fn orders_at_every_byte() {
    for byte in 0..=255 {
        assert_eq!(ordered(&[0, 1], [byte, 1, 0, 0]), byte == 0);
        assert_eq!(ordered(&[0, 1], [byte, 0, 0, 0]), byte == 1);
        assert_eq!(ordered(&[0, 1], [1, byte, 0, 0]), byte == 0);
        assert_eq!(ordered(&[0, 1], [0, 1, byte, 0]), byte == 0);
        assert_eq!(ordered(&[0, 1], [0, 1, 0, byte]), byte == 0);
        assert_eq!(ordered(&[0], [byte, 0, 0, 0]), byte == 0);
    }
}

/// Of all orders of four slots, 24 list four counters.
#[test]
fn every_order_of_four_counters() {
    let all = |m: &mut Model, order: [u8; 4]| {
        m.counters = 4;
        m.edge[0].updates = [Update::Constant(0); 4];
        m.edge[0].order = order;
    };
    let slots = (0..625_u16).map(|n| [n / 125, n / 25 % 5, n / 5 % 5, n % 5].map(|slot| slot as u8));
    let formed: Vec<[u8; 4]> = slots.filter(|order| after(|m| all(m, *order))).collect();
    assert_eq!(formed.len(), 24);
    for order in formed {
        let mut sorted = order;
        sorted.sort_unstable();
        assert_eq!(sorted, [0, 1, 2, 3]);
    }
}

#[test]
fn atoms_at_every_byte() {
    for byte in 0..=255 {
        for relation in Relation::ALL {
            let clock_relation = relation != Relation::NotEqual;
            let clock = Atom::clock(byte, relation, 0);
            assert_eq!(after(|m| m.invariant[0][0] = clock), byte < 2 && clock_relation);
            assert_eq!(after(|m| m.edge[0].guard[0] = clock), byte < 2 && clock_relation);
            let clock = Atom::clock(1, relation, byte);
            assert_eq!(after(|m| m.invariant[1][0] = clock), byte <= 30 && clock_relation);
            assert_eq!(after(|m| m.edge[0].guard[0] = clock), byte <= 30 && clock_relation);
            let counter = Atom::counter(byte, relation, 31);
            assert_eq!(after(|m| m.edge[0].guard[0] = counter), byte < 2);
            assert!(!after(|m| m.invariant[0][0] = counter));
            let counter = Atom::counter(0, relation, byte);
            assert_eq!(after(|m| m.edge[0].guard[0] = counter), byte <= 31);
        }
    }
}

#[test]
fn atom_slots_are_filled_from_the_first() {
    let atom = Atom::clock(0, Relation::Less, 1);
    for used in 0..16_usize {
        let mut atoms = NO_ATOMS;
        for (place, slot) in atoms.iter_mut().enumerate() {
            if used >> place & 1 == 1 {
                *slot = atom;
            }
        }
        let from_the_first = [0b0000, 0b0001, 0b0011, 0b0111, 0b1111].contains(&used);
        assert_eq!(after(|m| m.invariant[1] = atoms), from_the_first);
        assert_eq!(after(|m| m.edge[0].guard = atoms), from_the_first);
    }
}

#[test]
fn unused_slots_are_blank() {
    let atom = Atom::clock(0, Relation::Less, 1);
    assert!(!after(|m| m.invariant[2][0] = atom));
    assert!(!after(|m| m.invariant[15][0] = atom));
    assert!(!after(|m| m.edge[1].guard[0] = atom));
    assert!(!after(|m| m.edge[31].guard[0] = atom));
    assert!(!after(|m| set(m, 1, 0, Update::Constant(0))));
    assert!(!after(|m| m.edge[1].order[0] = 1));
    assert!(!after(|m| m.edge[31].order[3] = 1));
    assert!(!after(|m| set(m, 0, 2, Update::Constant(0))));
    assert!(!after(|m| set(m, 0, 3, Update::Sum { source: 0, offset: 0 })));
    assert!(!after(|m| m.counter[2] = Counter { greatest: 1, initial: 0 }));
    assert!(after(|m| m.edge[1] = Edge::BLANK));
}

#[test]
fn clock_updates_in_every_slot() {
    let clocks = [(0, 0), (0, 1), (0, 2), (0, 3), (1, 0), (31, 3)];
    for (edge, clock) in clocks {
        let used = edge == 0 && clock < 2;
        let with = |update| after(|m| m.edge[edge].clock_updates[clock] = update);
        assert!(with(ClockUpdate::Unchanged));
        assert_eq!(with(ClockUpdate::Reset), used);
        for byte in 0..=255 {
            assert_eq!(with(ClockUpdate::Copy(byte)), used && byte < 2, "edge {edge}, x{clock}:=x{byte}");
        }
    }
}

/// Copies name clocks that are declared, and no slot beyond the declared clocks is used.
#[test]
fn copies_ask_for_their_clocks() {
    for clocks in 0..=4 {
        let with = |x0, x1| {
            after(|m| {
                m.clocks = clocks;
                m.edge[0].clock_updates[..2].copy_from_slice(&[x0, x1]);
            })
        };
        assert_eq!(with(ClockUpdate::Reset, ClockUpdate::Copy(0)), clocks >= 2);
        assert_eq!(with(ClockUpdate::Copy(2), ClockUpdate::Reset), clocks >= 3);
        assert_eq!(with(ClockUpdate::Copy(3), ClockUpdate::Copy(2)), clocks == 4);
    }
}

#[test]
fn every_call_refuses_a_malformed_record_first() {
    let mut record = model(MODEL_A);
    record.edge[0].target = 2;
    refused_by_every_call(record);
    let mut record = model(PAIR);
    record.edge[0].clock_updates[0] = ClockUpdate::Copy(2);
    refused_by_every_call(record);
    for (edge, label) in [(0, 16), (1, 5)] {
        let mut record = model_b();
        record.edges = 1;
        record.edge[1..].fill(Edge::BLANK);
        assert!(well_formed(&record));
        record.edge[edge].label = label;
        refused_by_every_call(record);
    }
}

fn refused_by_every_call(record: Model) {
    let refusal = Refusal::plain(20);
    let state = State { location: 200, counters: [9; 4], clocks: [9; 4] };
    assert_eq!(step_call(&record, state, 255), (20, state));
    assert_eq!(walk(&record, &[0; 65]), (20, 0));
    assert_eq!(totals(&record, 65), Err(refusal));
    assert_eq!(clauses(&record, 65), Err(refusal));
    assert_eq!(words(&record, 65), Err(refusal));
    assert_eq!(visit_clauses(&record, 65, &mut |_| Flow::Continue(())), Err(refusal));
    assert_eq!(emit(&record, 65, &mut []).refusal, 20);
    assert_eq!(decode(&record, 65, &[], &mut []), (20, 0));
    assert_eq!(encode(&record, &[0; 65], &mut []), (20, 0));
    assert_eq!(shortest(&record, 100), Err(refusal));
    assert_eq!(count_runs(&record, 65, 100), Err(refusal));
    assert_eq!(all_runs(&record, 65), Err(refusal));
    assert_eq!(write(&record), Err(refusal));
}
