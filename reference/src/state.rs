//! States: a location, the counters' values and the clocks' values.

use crate::model::{ceiling, Atom, Atoms, Model, MAX_CLOCKS, MAX_COUNTERS};

/// A state. Slots of counters and clocks that the model lacks are 0. Like the
/// record it can hold any numbers; [`State::in_groups`] tells which are in order.
#[derive(Clone, Copy, PartialEq, Eq, Hash, Debug)]
pub struct State {
    pub location: u8,
    pub counters: [u8; MAX_COUNTERS],
    pub clocks: [u8; MAX_CLOCKS],
}

impl State {
    /// The initial location, each counter's initial value, all clocks 0.
    pub fn initial(model: &Model) -> State {
        let mut counters = [0; MAX_COUNTERS];
        for (value, counter) in counters.iter_mut().zip(model.used_counters()) {
            *value = counter.initial;
        }
        State { location: model.init, counters, clocks: [0; MAX_CLOCKS] }
    }

    /// The nine numbers: location, counters, clocks.
    pub fn numbers(&self) -> Vec<u8> {
        [&[self.location][..], &self.counters, &self.clocks].concat()
    }

    /// Whether refusal 10 stays away: every number lies in its group, and the
    /// unused slots are 0. The invariant is not looked at.
    pub fn in_groups(&self, model: &Model) -> bool {
        self.location < model.locations && self.counters_in_groups(model) && self.clocks_in_groups(model)
    }

    fn counters_in_groups(&self, model: &Model) -> bool {
        self.counters.iter().enumerate().all(|(index, value)| {
            let greatest = model.used_counters().get(index).map_or(0, |counter| counter.greatest);
            *value <= greatest
        })
    }

    fn clocks_in_groups(&self, model: &Model) -> bool {
        let ceiling = ceiling(model);
        self.clocks.iter().enumerate().all(|(index, value)| {
            let greatest = if index < usize::from(model.clocks) { ceiling } else { 0 };
            u32::from(*value) <= greatest
        })
    }

    /// Whether all atoms of an invariant or guard hold in this state.
    pub fn meets(&self, atoms: &Atoms) -> bool {
        atoms.iter().all(|atom| match atom {
            Atom::Blank => true,
            Atom::Clock(c) => c.holds(u32::from(self.clocks[usize::from(c.index)])),
            Atom::Counter(c) => c.holds(u32::from(self.counters[usize::from(c.index)])),
        })
    }

    /// Whether the state meets the invariant of its own location.
    pub fn meets_invariant(&self, model: &Model) -> bool {
        self.meets(&model.invariant[usize::from(self.location)])
    }
}

/// The greatest value of each counter and of each clock, in the order of their slots.
fn ranges(model: &Model) -> (Vec<u8>, Vec<u8>) {
    let counters = model.used_counters().iter().map(|counter| counter.greatest).collect();
    (counters, vec![ceiling(model) as u8; usize::from(model.clocks)])
}

/// How many states a well-formed model has, those that break their invariants too.
pub fn number_of_states(model: &Model) -> usize {
    let (counters, clocks) = ranges(model);
    let values = counters.iter().chain(&clocks).map(|greatest| usize::from(*greatest) + 1);
    usize::from(model.locations) * values.product::<usize>()
}

/// Every state of a well-formed model, those that break their invariants too.
pub fn all_states(model: &Model) -> Vec<State> {
    let (counters, clocks) = ranges(model);
    let at = |location| State { location, counters: [0; MAX_COUNTERS], clocks: [0; MAX_CLOCKS] };
    let mut states: Vec<State> = (0..model.locations).map(at).collect();
    for (slot, greatest) in counters.into_iter().enumerate() {
        states = spread(&states, greatest, |state, value| state.counters[slot] = value);
    }
    for (slot, greatest) in clocks.into_iter().enumerate() {
        states = spread(&states, greatest, |state, value| state.clocks[slot] = value);
    }
    states
}

/// Each state with each value of a slot.
fn spread(states: &[State], greatest: u8, set: impl Fn(&mut State, u8)) -> Vec<State> {
    let mut spread = Vec::new();
    for state in states {
        for value in 0..=greatest {
            let mut state = *state;
            set(&mut state, value);
            spread.push(state);
        }
    }
    spread
}
