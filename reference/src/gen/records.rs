//! Damaged records and random states.

use super::models::{any_model, order};
use super::rng::Rng;
use crate::model::{ceiling, Atom, Atoms, ClockUpdate, Edge, Model, Order, Relation, Update, MAX_CLOCKS, MAX_COUNTERS};
use crate::state::State;

/// A record: well formed once in four, else with one or two fields overwritten
/// (which may leave it well formed).
pub fn record(rng: &mut Rng) -> Model {
    let mut model = any_model(rng);
    if rng.one_in(4) {
        return model;
    }
    for _ in 0..=rng.below(2) {
        damage(rng, &mut model);
    }
    model
}

/// A well-formed model, and the record that is asked about: the same one, once
/// in eight another.
pub fn sound_and_asked(rng: &mut Rng) -> (Model, Model) {
    let sound = any_model(rng);
    let asked = if rng.one_in(8) { record(rng) } else { sound.clone() };
    (sound, asked)
}

/// A byte for a number field: near the limits more often than not.
fn number(rng: &mut Rng) -> u8 {
    if rng.one_in(4) {
        return rng.byte();
    }
    rng.pick(&[0, 0, 1, 2, 3, 4, 5, 15, 16, 17, 30, 31, 32, 33, 127, 128, 255])
}

/// Overwrites one field, used or not.
pub fn damage(rng: &mut Rng, model: &mut Model) {
    match rng.below(14) {
        0 => model.locations = number(rng),
        1 => model.init = number(rng),
        2 => model.target = number(rng),
        3 => model.clocks = number(rng),
        4 => model.counters = number(rng),
        5 => model.edges = number(rng),
        6 => model.counter[rng.below(MAX_COUNTERS)].greatest = number(rng),
        7 => model.counter[rng.below(MAX_COUNTERS)].initial = number(rng),
        8 => {
            let location = slot(rng, model.invariant.len(), model.locations);
            damage_atoms(rng, &mut model.invariant[location]);
        }
        _ => {
            let edge = slot(rng, model.edge.len(), model.edges);
            damage_edge(rng, model.clocks, &mut model.edge[edge]);
        }
    }
}

/// Once in sixteen overwrites a field.
pub fn sometimes_damage(rng: &mut Rng, model: &mut Model) {
    if rng.one_in(16) {
        damage(rng, model);
    }
}

/// One slot of many, most often a used one.
fn slot(rng: &mut Rng, slots: usize, used: u8) -> usize {
    let used = usize::from(used).min(slots);
    if used > 0 && !rng.one_in(4) {
        rng.below(used)
    } else {
        rng.below(slots)
    }
}

fn damage_edge(rng: &mut Rng, clocks: u8, edge: &mut Edge) {
    match rng.below(10) {
        0 => edge.source = number(rng),
        1 => edge.target = number(rng),
        2 | 3 => edge.label = number(rng),
        4 => damage_atoms(rng, &mut edge.guard),
        5 => {
            edge.updates[rng.below(MAX_COUNTERS)] = update(rng);
            if !rng.one_in(4) {
                edge.order = order(rng, &edge.updates);
            }
        }
        6 | 7 => damage_order(rng, &mut edge.order),
        _ => edge.clock_updates[slot(rng, MAX_CLOCKS, clocks)] = clock_update(rng),
    }
}

fn damage_atoms(rng: &mut Rng, atoms: &mut Atoms) {
    let place = rng.below(atoms.len());
    let relation = rng.pick(&Relation::ALL);
    atoms[place] = match rng.below(3) {
        0 => Atom::Blank,
        1 => Atom::clock(number(rng), relation, number(rng)),
        _ => Atom::counter(number(rng), relation, number(rng)),
    };
}

/// Swaps two slots, repeats one in another, makes them blank from one on, or gives
/// one a number.
fn damage_order(rng: &mut Rng, order: &mut Order) {
    let (one, other) = (rng.below(order.len()), rng.below(order.len()));
    match rng.below(4) {
        0 => order.swap(one, other),
        1 => order[one] = order[other],
        2 => order[one..].fill(0),
        _ => order[one] = if rng.one_in(4) { number(rng) } else { rng.below(MAX_COUNTERS) as u8 },
    }
}

fn update(rng: &mut Rng) -> Update {
    match rng.below(3) {
        0 => Update::Keep,
        1 => Update::Constant(number(rng)),
        _ => Update::Sum { source: number(rng), offset: rng.pick(&[-128, -33, -32, -31, -1, 0, 1, 31, 32, 33, 127]) },
    }
}

fn clock_update(rng: &mut Rng) -> ClockUpdate {
    match rng.below(4) {
        0 => ClockUpdate::Unchanged,
        1 => ClockUpdate::Reset,
        2 => ClockUpdate::Copy(rng.below(MAX_CLOCKS) as u8),
        _ => ClockUpdate::Copy(number(rng)),
    }
}

/// A state with every number in its group; it may break its invariant.
pub fn state_in_groups(rng: &mut Rng, model: &Model) -> State {
    let mut state = State::initial(model);
    state.location = rng.below(usize::from(model.locations)) as u8;
    for (value, counter) in state.counters.iter_mut().zip(model.used_counters()) {
        *value = rng.between(0, counter.greatest);
    }
    let ceiling = ceiling(model) as u8;
    for value in state.clocks.iter_mut().take(usize::from(model.clocks)) {
        *value = rng.between(0, ceiling);
    }
    state
}

/// A state of a record, once in three with one number overwritten.
pub fn state(rng: &mut Rng, model: &Model) -> State {
    let mut state = state_in_groups(rng, model);
    if rng.one_in(3) {
        match rng.below(3) {
            0 => state.location = number(rng),
            1 => state.counters[rng.below(MAX_COUNTERS)] = number(rng),
            _ => state.clocks[rng.below(MAX_CLOCKS)] = number(rng),
        }
    }
    state
}
