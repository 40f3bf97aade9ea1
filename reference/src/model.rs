//! The model record at full limits, its well-formedness, its ceiling and the
//! lengths of its blocks ("The automaton", "Model text", "Numbering").
//!
//! The record can hold malformed content: any byte in any number, atoms after
//! blank slots, unused slots that are not blank, `!=` on clocks, counters in
//! invariants. [`well_formed`] tells the two apart.

use crate::refusal::{Refusal, ABOVE_BOUND, NOT_WELL_FORMED};

pub const MAX_LOCATIONS: usize = 16;
pub const MAX_CLOCKS: usize = 4;
pub const MAX_COUNTERS: usize = 4;
pub const MAX_EDGES: usize = 32;
/// Most atoms of one invariant or guard.
pub const MAX_ATOMS: usize = 4;
/// Greatest constant that a clock is compared with.
pub const MAX_CLOCK_CONSTANT: u8 = 30;
/// Greatest value of a counter, and greatest constant compared or assigned.
pub const MAX_COUNTER_VALUE: u8 = 31;
/// Offsets lie between minus this and this.
pub const MAX_OFFSET: i8 = 31;
/// Greatest label of an edge; 0 means private.
pub const MAX_LABEL: u8 = 15;
/// Greatest bound, and greatest length of a run.
pub const MAX_BOUND: usize = 64;

/// How an atom compares.
#[derive(Clone, Copy, PartialEq, Eq, Hash, Debug)]
pub enum Relation {
    Less,
    LessEqual,
    Equal,
    GreaterEqual,
    Greater,
    NotEqual,
}

impl Relation {
    pub const ALL: [Relation; 6] =
        [Relation::Less, Relation::LessEqual, Relation::Equal, Relation::GreaterEqual, Relation::Greater, Relation::NotEqual];

    pub fn holds(self, value: u32, constant: u32) -> bool {
        match self {
            Relation::Less => value < constant,
            Relation::LessEqual => value <= constant,
            Relation::Equal => value == constant,
            Relation::GreaterEqual => value >= constant,
            Relation::Greater => value > constant,
            Relation::NotEqual => value != constant,
        }
    }

    /// The sign that the model text writes.
    pub fn sign(self) -> &'static str {
        match self {
            Relation::Less => "<",
            Relation::LessEqual => "<=",
            Relation::Equal => "=",
            Relation::GreaterEqual => ">=",
            Relation::Greater => ">",
            Relation::NotEqual => "!=",
        }
    }
}

/// One clock or counter, by its index, against a constant.
#[derive(Clone, Copy, PartialEq, Eq, Hash, Debug)]
pub struct Comparison {
    pub index: u8,
    pub relation: Relation,
    pub constant: u8,
}

impl Comparison {
    pub fn holds(self, value: u32) -> bool {
        self.relation.holds(value, u32::from(self.constant))
    }
}

/// One slot of an invariant or guard.
#[derive(Clone, Copy, PartialEq, Eq, Hash, Debug)]
pub enum Atom {
    Blank,
    Clock(Comparison),
    Counter(Comparison),
}

impl Atom {
    pub const fn clock(index: u8, relation: Relation, constant: u8) -> Atom {
        Atom::Clock(Comparison { index, relation, constant })
    }

    pub const fn counter(index: u8, relation: Relation, constant: u8) -> Atom {
        Atom::Counter(Comparison { index, relation, constant })
    }
}

/// The atoms of an invariant or guard; all must hold.
pub type Atoms = [Atom; MAX_ATOMS];

/// No atom at all.
pub const NO_ATOMS: Atoms = [Atom::Blank; MAX_ATOMS];

/// What an edge does to one counter.
#[derive(Clone, Copy, PartialEq, Eq, Hash, Debug)]
pub enum Update {
    Keep,
    Constant(u8),
    /// The counter `source` plus `offset`; the counter may be its own source.
    Sum {
        source: u8,
        offset: i8,
    },
}

/// What an edge does to one clock.
#[derive(Clone, Copy, PartialEq, Eq, Hash, Debug)]
pub enum ClockUpdate {
    Unchanged,
    Reset,
    /// The value of this clock from before the edge; the clock may be its own
    /// source.
    Copy(u8),
}

#[derive(Clone, Copy, PartialEq, Eq, Hash, Debug)]
pub struct Edge {
    pub source: u8,
    pub target: u8,
    /// The event's name, or 0: private. No step and no clause reads it.
    pub label: u8,
    pub guard: Atoms,
    pub updates: [Update; MAX_COUNTERS],
    /// The counters that are not kept, in the order in which their updates
    /// happen; the slots after them are blank (0).
    pub order: Order,
    pub clock_updates: [ClockUpdate; MAX_CLOCKS],
}

/// Slots of counters, the first ones used.
pub type Order = [u8; MAX_COUNTERS];

impl Edge {
    /// The content of an unused edge slot.
    pub const BLANK: Edge = Edge {
        source: 0,
        target: 0,
        label: 0,
        guard: NO_ATOMS,
        updates: [Update::Keep; MAX_COUNTERS],
        order: [0; MAX_COUNTERS],
        clock_updates: [ClockUpdate::Unchanged; MAX_CLOCKS],
    };

    /// The used slots of the order, as many as there are counters not kept.
    pub fn listed(&self) -> &[u8] {
        &self.order[..set_counters(&self.updates).count()]
    }

    /// "A source counter set earlier in the list is read after its update": by
    /// the update of `counter`. Any other source, the counter itself among them,
    /// is read before the edge.
    pub fn reads_after(&self, counter: u8, source: u8) -> bool {
        let mut earlier = self.listed().iter().take_while(|listed| **listed != counter);
        earlier.any(|listed| *listed == source)
    }

    /// The copies of clocks: the clock set and the clock copied from.
    pub fn copies(&self) -> impl Iterator<Item = (u8, u8)> + '_ {
        (0..).zip(self.clock_updates).filter_map(|(clock, update)| match update {
            ClockUpdate::Copy(source) => Some((clock, source)),
            ClockUpdate::Unchanged | ClockUpdate::Reset => None,
        })
    }

    /// The counters of a well-formed edge whose update reads a counter set earlier.
    pub fn later_readers(&self) -> impl Iterator<Item = u8> + '_ {
        self.listed().iter().copied().filter(move |counter| match self.updates[usize::from(*counter)] {
            Update::Sum { source, .. } => self.reads_after(*counter, source),
            Update::Keep | Update::Constant(_) => false,
        })
    }
}

/// The counters that are not kept, rising.
fn set_counters(updates: &[Update]) -> impl Iterator<Item = u8> + '_ {
    (0..).zip(updates).filter(|(_, update)| **update != Update::Keep).map(|(counter, _)| counter)
}

/// The order that lists the counters that are not kept as they rise.
pub fn rising_order(updates: &[Update]) -> Order {
    let mut order = Edge::BLANK.order;
    for (slot, counter) in order.iter_mut().zip(set_counters(updates)) {
        *slot = counter;
    }
    order
}

/// A counter's range and initial value; the least value is 0.
#[derive(Clone, Copy, PartialEq, Eq, Hash, Debug)]
pub struct Counter {
    pub greatest: u8,
    pub initial: u8,
}

impl Counter {
    /// The content of an unused counter slot.
    pub const BLANK: Counter = Counter { greatest: 0, initial: 0 };
}

/// The model record. Slots from the declared number on are unused.
#[derive(Clone, PartialEq, Eq, Hash, Debug)]
pub struct Model {
    pub locations: u8,
    pub init: u8,
    pub target: u8,
    pub clocks: u8,
    pub counters: u8,
    pub counter: [Counter; MAX_COUNTERS],
    pub invariant: [Atoms; MAX_LOCATIONS],
    pub edges: u8,
    pub edge: [Edge; MAX_EDGES],
}

impl Model {
    /// The blank model: one location, initial and target 0.
    pub const fn blank() -> Model {
        Model {
            locations: 1,
            init: 0,
            target: 0,
            clocks: 0,
            counters: 0,
            counter: [Counter::BLANK; MAX_COUNTERS],
            invariant: [NO_ATOMS; MAX_LOCATIONS],
            edges: 0,
            edge: [Edge::BLANK; MAX_EDGES],
        }
    }

    pub fn used_counters(&self) -> &[Counter] {
        used(&self.counter, self.counters)
    }

    pub fn used_edges(&self) -> &[Edge] {
        used(&self.edge, self.edges)
    }
}

/// The first `count` slots, or all if there are fewer.
fn used<T>(slots: &[T], count: u8) -> &[T] {
    &slots[..slots.len().min(usize::from(count))]
}

/// The slots from `count` on.
fn unused<T>(slots: &[T], count: u8) -> &[T] {
    &slots[slots.len().min(usize::from(count))..]
}

/// "A model record is well formed if it meets all limits above, names only what
/// is declared, fills atom slots from the first, and its unused slots are blank
/// (number 0, no atom, keep, no reset)." 20 also "unless the order names each
/// counter not kept exactly once and is blank beyond", where "the clock copied
/// from isn't declared" and "when the label is above 15".
pub fn well_formed(model: &Model) -> bool {
    numbers_well_formed(model) && counters_well_formed(model) && invariants_well_formed(model) && edges_well_formed(model)
}

fn numbers_well_formed(model: &Model) -> bool {
    (1..=MAX_LOCATIONS).contains(&usize::from(model.locations))
        && model.init < model.locations
        && model.target < model.locations
        && usize::from(model.clocks) <= MAX_CLOCKS
        && usize::from(model.counters) <= MAX_COUNTERS
        && usize::from(model.edges) <= MAX_EDGES
}

fn counters_well_formed(model: &Model) -> bool {
    let in_limits = |c: &Counter| c.greatest <= MAX_COUNTER_VALUE && c.initial <= c.greatest;
    used(&model.counter, model.counters).iter().all(in_limits)
        && unused(&model.counter, model.counters).iter().all(|c| *c == Counter::BLANK)
}

fn invariants_well_formed(model: &Model) -> bool {
    let is_invariant =
        |atoms: &Atoms| filled_from_the_first(atoms) && atoms.iter().all(|a| invariant_atom_well_formed(model, *a));
    used(&model.invariant, model.locations).iter().all(is_invariant)
        && unused(&model.invariant, model.locations).iter().all(|atoms| *atoms == NO_ATOMS)
}

fn edges_well_formed(model: &Model) -> bool {
    used(&model.edge, model.edges).iter().all(|e| edge_well_formed(model, e))
        && unused(&model.edge, model.edges).iter().all(|e| *e == Edge::BLANK)
}

fn edge_well_formed(model: &Model, edge: &Edge) -> bool {
    edge.source < model.locations
        && edge.target < model.locations
        && edge.label <= MAX_LABEL
        && filled_from_the_first(&edge.guard)
        && edge.guard.iter().all(|a| guard_atom_well_formed(model, *a))
        && used(&edge.updates, model.counters).iter().all(|u| update_well_formed(model, *u))
        && unused(&edge.updates, model.counters).iter().all(|u| *u == Update::Keep)
        && order_well_formed(edge)
        && used(&edge.clock_updates, model.clocks).iter().all(|u| clock_update_well_formed(model, *u))
        && unused(&edge.clock_updates, model.clocks).iter().all(|u| *u == ClockUpdate::Unchanged)
}

/// The used slots are the counters not kept, in some order; the others are 0.
fn order_well_formed(edge: &Edge) -> bool {
    let listed = edge.listed();
    let beyond = &edge.order[listed.len()..];
    let mut sorted = listed.to_vec();
    sorted.sort_unstable();
    set_counters(&edge.updates).eq(sorted) && beyond.iter().all(|slot| *slot == 0)
}

/// No atom stands after a blank slot.
fn filled_from_the_first(atoms: &Atoms) -> bool {
    atoms.windows(2).all(|pair| pair[0] != Atom::Blank || pair[1] == Atom::Blank)
}

fn invariant_atom_well_formed(model: &Model, atom: Atom) -> bool {
    match atom {
        Atom::Blank => true,
        Atom::Clock(comparison) => clock_comparison_well_formed(model, comparison),
        Atom::Counter(_) => false,
    }
}

fn guard_atom_well_formed(model: &Model, atom: Atom) -> bool {
    match atom {
        Atom::Blank => true,
        Atom::Clock(comparison) => clock_comparison_well_formed(model, comparison),
        Atom::Counter(c) => c.index < model.counters && c.constant <= MAX_COUNTER_VALUE,
    }
}

fn clock_comparison_well_formed(model: &Model, comparison: Comparison) -> bool {
    comparison.index < model.clocks && comparison.constant <= MAX_CLOCK_CONSTANT && comparison.relation != Relation::NotEqual
}

fn update_well_formed(model: &Model, update: Update) -> bool {
    match update {
        Update::Keep => true,
        Update::Constant(constant) => constant <= MAX_COUNTER_VALUE,
        Update::Sum { source, offset } => source < model.counters && (-MAX_OFFSET..=MAX_OFFSET).contains(&offset),
    }
}

fn clock_update_well_formed(model: &Model, update: ClockUpdate) -> bool {
    match update {
        ClockUpdate::Unchanged | ClockUpdate::Reset => true,
        ClockUpdate::Copy(source) => source < model.clocks,
    }
}

/// The first test of every call with a record.
pub fn test_record(model: &Model) -> Result<(), Refusal> {
    if well_formed(model) {
        Ok(())
    } else {
        Err(Refusal::plain(NOT_WELL_FORMED))
    }
}

/// The second test of every call with a bound or a run: 20, then 21.
pub fn test_record_and_bound(model: &Model, bound: usize) -> Result<(), Refusal> {
    test_record(model)?;
    if bound > MAX_BOUND {
        return Err(Refusal::plain(ABOVE_BOUND));
    }
    Ok(())
}

/// "The ceiling M is 1 plus the greatest clock constant in the model, or 1 if
/// it has none." Invariants and guards count alike, reachable or not.
pub fn ceiling(model: &Model) -> u32 {
    let guards = model.edge.iter().map(|edge| &edge.guard);
    let atoms = model.invariant.iter().chain(guards).flatten();
    let constants = atoms.filter_map(|atom| match atom {
        Atom::Clock(comparison) => Some(u32::from(comparison.constant)),
        Atom::Blank | Atom::Counter(_) => None,
    });
    1 + constants.max().unwrap_or(0)
}

/// S: the locations, each counter (greatest+1), each clock (M+1).
pub fn state_length(model: &Model) -> u32 {
    let counters: u32 = model.used_counters().iter().map(|c| u32::from(c.greatest) + 1).sum();
    u32::from(model.locations) + counters + u32::from(model.clocks) * (ceiling(model) + 1)
}

/// H = M+1+E: delays 0 to M, then edges.
pub fn choice_length(model: &Model) -> u32 {
    ceiling(model) + 1 + u32::from(model.edges)
}

/// N = S + k times (S+H), for a bound k of at most 64.
pub fn variables(model: &Model, bound: usize) -> u32 {
    let state = state_length(model);
    state + bound as u32 * (state + choice_length(model))
}
