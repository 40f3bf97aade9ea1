//! Random well-formed models of varied size, and a few fixed ones.

use super::rng::Rng;
use crate::model::{
    Atom, Atoms, ClockUpdate, Counter, Edge, Model, Order, Relation, Update, MAX_ATOMS, MAX_CLOCKS, MAX_CLOCK_CONSTANT,
    MAX_COUNTERS, MAX_COUNTER_VALUE, MAX_EDGES, MAX_LABEL, MAX_LOCATIONS, MAX_OFFSET, NO_ATOMS,
};

/// How large a random model may grow.
#[derive(Clone, Copy, PartialEq, Eq, Debug)]
pub enum Size {
    /// Lists small enough to enumerate all satisfying assignments.
    Tiny,
    Medium,
    /// Up to the limits of the document.
    Full,
}

struct Limits {
    locations: u8,
    clocks: u8,
    counters: u8,
    edges: u8,
    atoms: u8,
    clock_constant: u8,
    greatest: u8,
}

impl Size {
    fn limits(self) -> Limits {
        match self {
            Size::Tiny => Limits { locations: 3, clocks: 2, counters: 2, edges: 3, atoms: 2, clock_constant: 1, greatest: 2 },
            Size::Medium => Limits { locations: 6, clocks: 2, counters: 2, edges: 10, atoms: 3, clock_constant: 6, greatest: 7 },
            Size::Full => Limits {
                locations: MAX_LOCATIONS as u8,
                clocks: MAX_CLOCKS as u8,
                counters: MAX_COUNTERS as u8,
                edges: MAX_EDGES as u8,
                atoms: MAX_ATOMS as u8,
                clock_constant: MAX_CLOCK_CONSTANT,
                greatest: MAX_COUNTER_VALUE,
            },
        }
    }
}

/// A well-formed model within the limits of a size.
pub fn model(rng: &mut Rng, size: Size) -> Model {
    let limits = size.limits();
    let mut model = Model::blank();
    model.locations = rng.between(1, limits.locations);
    model.init = rng.below(usize::from(model.locations)) as u8;
    model.target = rng.below(usize::from(model.locations)) as u8;
    model.clocks = rng.between(0, limits.clocks);
    model.counters = rng.between(0, limits.counters);
    fill_states(rng, &mut model, &limits);
    model.edges = rng.between(0, limits.edges);
    fill_edges(rng, &mut model, &limits);
    model
}

/// A model that declares as much as another, with at most two atoms in an invariant
/// or guard.
pub fn declaring(rng: &mut Rng, declared: &Model) -> Model {
    let limits = Limits { atoms: 2, ..Size::Medium.limits() };
    let mut model = declared.clone();
    model.init = rng.below(usize::from(model.locations)) as u8;
    model.target = rng.below(usize::from(model.locations)) as u8;
    fill_states(rng, &mut model, &limits);
    fill_edges(rng, &mut model, &limits);
    model
}

/// The declared counters and the invariants of the declared locations.
fn fill_states(rng: &mut Rng, model: &mut Model, limits: &Limits) {
    for index in 0..usize::from(model.counters) {
        let greatest = rng.between(0, limits.greatest);
        model.counter[index] = Counter { greatest, initial: rng.between(0, greatest) };
    }
    for index in 0..usize::from(model.locations) {
        let initial = index == usize::from(model.init);
        model.invariant[index] = invariant(rng, model, limits, initial);
    }
}

/// The declared edges.
fn fill_edges(rng: &mut Rng, model: &mut Model, limits: &Limits) {
    for index in 0..usize::from(model.edges) {
        model.edge[index] = edge(rng, model, limits);
    }
}

/// A size, most often a small one.
pub fn any_size(rng: &mut Rng) -> Size {
    rng.pick(&[Size::Tiny, Size::Tiny, Size::Medium, Size::Medium, Size::Full])
}

/// A model of a random size.
pub fn any_model(rng: &mut Rng) -> Model {
    let size = any_size(rng);
    model(rng, size)
}

/// An invariant. Half are empty, and that of the initial location mostly holds
/// at the start, so that many models have runs.
fn invariant(rng: &mut Rng, model: &Model, limits: &Limits, initial: bool) -> Atoms {
    let mut atoms = NO_ATOMS;
    if model.clocks == 0 || rng.one_in(2) {
        return atoms;
    }
    let holds_at_zero = initial && !rng.one_in(8);
    let upper_bounds = holds_at_zero || !rng.one_in(3);
    let count = usize::from(rng.between(0, limits.atoms));
    for slot in &mut atoms[..count] {
        *slot = clock_atom(rng, model, limits, upper_bounds);
    }
    atoms
}

fn clock_atom(rng: &mut Rng, model: &Model, limits: &Limits, upper_bound: bool) -> Atom {
    let index = rng.below(usize::from(model.clocks)) as u8;
    let relation = if upper_bound {
        Relation::LessEqual
    } else {
        // All but the last, which is `!=`.
        rng.pick(&Relation::ALL[..5])
    };
    Atom::clock(index, relation, rng.between(0, limits.clock_constant))
}

/// A counter atom; the constant may lie above the counter's greatest value.
fn counter_atom(rng: &mut Rng, model: &Model, limits: &Limits) -> Atom {
    let index = rng.below(usize::from(model.counters)) as u8;
    let constant = if rng.one_in(8) { MAX_COUNTER_VALUE } else { limits.greatest };
    Atom::counter(index, rng.pick(&Relation::ALL), rng.between(0, constant))
}

fn guard(rng: &mut Rng, model: &Model, limits: &Limits) -> Atoms {
    let mut atoms = NO_ATOMS;
    if model.clocks + model.counters == 0 || rng.one_in(3) {
        return atoms;
    }
    let count = usize::from(rng.between(0, limits.atoms));
    for slot in &mut atoms[..count] {
        let on_clock = model.counters == 0 || (model.clocks > 0 && rng.one_in(2));
        *slot = if on_clock { clock_atom(rng, model, limits, false) } else { counter_atom(rng, model, limits) };
    }
    atoms
}

fn edge(rng: &mut Rng, model: &Model, limits: &Limits) -> Edge {
    let mut edge = Edge::BLANK;
    edge.source = rng.below(usize::from(model.locations)) as u8;
    edge.target = rng.below(usize::from(model.locations)) as u8;
    edge.label = label(rng);
    edge.guard = guard(rng, model, limits);
    for index in 0..usize::from(model.counters) {
        edge.updates[index] = update(rng, model, limits);
    }
    edge.order = order(rng, &edge.updates);
    read_earlier(rng, &mut edge);
    clock_updates(rng, &mut edge.clock_updates[..usize::from(model.clocks)]);
    edge
}

/// A label, every second one private.
fn label(rng: &mut Rng) -> u8 {
    if rng.one_in(2) {
        0
    } else {
        rng.between(1, MAX_LABEL)
    }
}

/// Updates of the declared clocks; once in six two clocks are exchanged.
fn clock_updates(rng: &mut Rng, updates: &mut [ClockUpdate]) {
    let clocks = updates.len();
    for update in updates.iter_mut() {
        *update = match rng.below(6) {
            0 | 1 => ClockUpdate::Reset,
            2 => ClockUpdate::Copy(rng.below(clocks) as u8),
            _ => ClockUpdate::Unchanged,
        };
    }
    if clocks > 1 && rng.one_in(6) {
        let one = rng.below(clocks);
        let other = (one + 1 + rng.below(clocks - 1)) % clocks;
        updates[one] = ClockUpdate::Copy(other as u8);
        updates[other] = ClockUpdate::Copy(one as u8);
    }
}

/// The counters that are not kept, in any order; the slots after them are blank.
pub fn order(rng: &mut Rng, updates: &[Update; MAX_COUNTERS]) -> Order {
    let mut order = Edge::BLANK.order;
    let mut listed = 0;
    for (counter, update) in updates.iter().enumerate() {
        if *update != Update::Keep {
            let place = rng.below(listed + 1);
            order[listed] = order[place];
            order[place] = counter as u8;
            listed += 1;
        }
    }
    order
}

/// Lets half of the sums that stand after another update read a counter that is set
/// earlier.
fn read_earlier(rng: &mut Rng, edge: &mut Edge) {
    for place in 1..edge.listed().len() {
        let update = &mut edge.updates[usize::from(edge.order[place])];
        if let Update::Sum { source, .. } = update {
            if rng.one_in(2) {
                *source = edge.order[rng.below(place)];
            }
        }
    }
}

/// An update; some lead out of every range.
fn update(rng: &mut Rng, model: &Model, limits: &Limits) -> Update {
    let source = rng.below(usize::from(model.counters)) as u8;
    let far = rng.one_in(12);
    match rng.below(4) {
        0 | 1 => Update::Keep,
        2 => Update::Constant(rng.between(0, if far { MAX_COUNTER_VALUE } else { limits.greatest })),
        _ => {
            let reach = if far { MAX_OFFSET as u8 } else { 2 };
            let offset = rng.between(0, 2 * reach) as i8 - reach as i8;
            Update::Sum { source, offset }
        }
    }
}

/// The model with a new label on each edge.
pub fn relabelled(rng: &mut Rng, model: &Model) -> Model {
    let mut other = model.clone();
    for edge in &mut other.edge[..usize::from(model.edges)] {
        edge.label = label(rng);
    }
    other
}

/// The model with the greatest totals: 16 locations, four counters of 32
/// values, four clocks, 32 edges. Every atom fails for every value (`x0<0`), so
/// that each gives the most clauses, except one guard atom: some clock atom
/// must bear the constant 30 to lift the ceiling to 31, and such an atom fails
/// for at most 31 of the 32 values. In a guard it costs one clause a step, in an
/// invariant it would cost one a state, which is one more. Counters and clocks
/// are kept: one three-literal clause for each value is the most an update of
/// either can give. Every label is the greatest.
pub fn largest() -> Model {
    let mut model = Model::blank();
    model.locations = MAX_LOCATIONS as u8;
    model.clocks = MAX_CLOCKS as u8;
    model.counters = MAX_COUNTERS as u8;
    model.counter = [Counter { greatest: MAX_COUNTER_VALUE, initial: 0 }; MAX_COUNTERS];
    let never = Atom::clock(0, Relation::Less, 0);
    model.invariant = [[never; MAX_ATOMS]; MAX_LOCATIONS];
    model.edges = MAX_EDGES as u8;
    model.edge = [Edge { label: MAX_LABEL, guard: [never; MAX_ATOMS], ..Edge::BLANK }; MAX_EDGES];
    model.edge[0].guard[0] = Atom::clock(0, Relation::Greater, MAX_CLOCK_CONSTANT);
    model
}

/// A model at every limit that has runs: four atoms in every invariant and
/// guard, every kind of update, a source read before the edge and after its own
/// update, a copy of the clock that is reset and a copy of one that is unchanged,
/// every label, all edges from the initial location to itself.
pub fn full() -> Model {
    let mut model = largest();
    let at_most = |clock, constant| Atom::clock(clock, Relation::LessEqual, constant);
    model.invariant = [[0, 1, 2, 3].map(|clock| at_most(clock, 30)); MAX_LOCATIONS];
    for (index, edge) in model.edge.iter_mut().enumerate() {
        let (number, clock) = (index as u8, index % MAX_CLOCKS);
        edge.label = number % (MAX_LABEL + 1);
        edge.guard = [
            at_most(clock as u8, 15),
            at_most(3 - clock as u8, 29),
            Atom::counter(0, Relation::LessEqual, 30),
            Atom::counter(1, Relation::NotEqual, number),
        ];
        edge.updates[0] = Update::Constant(number);
        edge.updates[1] = Update::Sum { source: 0, offset: number as i8 - 16 };
        edge.order = if index % 2 == 0 { [1, 0, 0, 0] } else { [0, 1, 0, 0] };
        let [next, second, third] = [1, 2, 3].map(|more| (clock + more) % MAX_CLOCKS);
        edge.clock_updates[clock] = ClockUpdate::Reset;
        edge.clock_updates[next] = ClockUpdate::Copy(clock as u8);
        edge.clock_updates[second] = ClockUpdate::Copy(third as u8);
    }
    model
}

/// The largest model with the last location throughout, and one atom, one update
/// of all counters, the last counter first, and the last clock copied to all.
pub fn at_the_last_location(atom: Atom, update: Update) -> Model {
    let mut model = largest();
    (model.init, model.target) = (15, 15);
    model.counter = [Counter { greatest: MAX_COUNTER_VALUE, initial: MAX_COUNTER_VALUE }; MAX_COUNTERS];
    model.invariant = [[atom; MAX_ATOMS]; MAX_LOCATIONS];
    let (label, guard, updates, order) = (MAX_LABEL, [atom; MAX_ATOMS], [update; 4], [3, 0, 1, 2]);
    let clock_updates = [ClockUpdate::Copy(3); MAX_CLOCKS];
    model.edge = [Edge { source: 15, target: 15, label, guard, updates, order, clock_updates }; MAX_EDGES];
    model
}

/// The model with the longest DIMACS file: the greatest totals, and the last clock,
/// counter and location named throughout, since their numbers have the most digits;
/// the last counter is set first, so that the others read it in the later state,
/// and every clock is copied from the last one.
pub fn longest_file() -> Model {
    let sum = Update::Sum { source: 3, offset: 0 };
    let mut model = at_the_last_location(Atom::clock(3, Relation::Less, 0), sum);
    model.edge[0].guard[0] = Atom::clock(3, Relation::Greater, MAX_CLOCK_CONSTANT);
    model
}

/// Model A of the document.
pub fn model_a() -> Model {
    let mut model = Model::blank();
    model.locations = 2;
    model.target = 1;
    model.edges = 1;
    model.edge[0] = Edge { target: 1, ..Edge::BLANK };
    model
}

/// Model A with two clocks, of which the edge resets the first, once it is 1 or
/// more, and saves its value in the second.
pub fn saving() -> Model {
    let mut model = model_a();
    model.clocks = 2;
    model.edge[0].guard[0] = Atom::clock(0, Relation::GreaterEqual, 1);
    model.edge[0].clock_updates[..2].copy_from_slice(&[ClockUpdate::Reset, ClockUpdate::Copy(0)]);
    model
}

/// Logger L of the worked product: it raises its counter, and then shares label 3.
pub fn model_l() -> Model {
    let mut model = model_a();
    (model.clocks, model.counters, model.edges) = (1, 1, 2);
    model.counter[0] = Counter { greatest: 2, initial: 0 };
    model.invariant[0][0] = Atom::clock(0, Relation::LessEqual, 1);
    model.edge[0].target = 0;
    model.edge[0].updates[0] = Update::Sum { source: 0, offset: 1 };
    model.edge[0].clock_updates[0] = ClockUpdate::Reset;
    model.edge[1] = Edge { target: 1, label: 3, ..Edge::BLANK };
    model.edge[1].guard[..2]
        .copy_from_slice(&[Atom::clock(0, Relation::GreaterEqual, 1), Atom::counter(0, Relation::GreaterEqual, 1)]);
    model
}

/// Watchdog W of the worked product: it shares label 3, and goes back alone.
pub fn model_w() -> Model {
    let mut model = model_a();
    (model.clocks, model.counters, model.edges) = (1, 1, 2);
    model.counter[0] = Counter { greatest: 1, initial: 1 };
    model.invariant[1][0] = Atom::clock(0, Relation::LessEqual, 4);
    model.edge[0].label = 3;
    model.edge[0].guard[0] = Atom::clock(0, Relation::GreaterEqual, 2);
    model.edge[0].updates[0] = Update::Sum { source: 0, offset: -1 };
    model.edge[0].clock_updates[0] = ClockUpdate::Reset;
    model.edge[1] = Edge { source: 1, label: 5, ..Edge::BLANK };
    model.edge[1].clock_updates[0] = ClockUpdate::Copy(0);
    model
}

/// Logger model B of the document.
pub fn model_b() -> Model {
    let mut model = Model::blank();
    model.locations = 4;
    model.target = 3;
    model.clocks = 1;
    model.counters = 1;
    model.counter[0] = Counter { greatest: 1, initial: 0 };
    model.invariant[1][0] = Atom::clock(0, Relation::LessEqual, 3);
    model.edges = 3;
    model.edge[0] = Edge { target: 1, ..Edge::BLANK };
    model.edge[0].clock_updates[0] = ClockUpdate::Reset;
    model.edge[1] = Edge { source: 1, target: 2, ..Edge::BLANK };
    model.edge[1].guard[0] = Atom::clock(0, Relation::LessEqual, 2);
    model.edge[1].updates[0] = Update::Sum { source: 0, offset: 1 };
    model.edge[2] = Edge { source: 1, target: 3, ..Edge::BLANK };
    model.edge[2].guard[0] = Atom::clock(0, Relation::GreaterEqual, 3);
    model
}
