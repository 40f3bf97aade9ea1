//! Two models as one ("Logger and watchdog as one model"): the product of two
//! automata that share no clock and no counter, only the events that their labels
//! name.
//!
//! The product is first laid out in full, in lists that may be as long as they
//! must, and measured; only then, if it fits, it becomes a record.

use crate::model::{
    ceiling, test_record, Atom, Atoms, ClockUpdate, Comparison, Counter, Edge, Model, Update, MAX_ATOMS, MAX_CLOCKS,
    MAX_COUNTERS, MAX_EDGES, MAX_LOCATIONS,
};
use crate::refusal::{Refusal, NO_SUCH_STEP, TOO_LARGE_TOGETHER};
use crate::state::State;
use crate::step::{choice, Choice};
use crate::text::read_whole;

/// How an edge of the product comes about.
#[derive(Clone, Copy, PartialEq, Eq, Debug)]
pub enum Move {
    /// An edge of the first model alone, while the second stands in a location.
    First { edge: usize, beside: usize },
    /// An edge of the second model alone, while the first stands in a location.
    Second { edge: usize, beside: usize },
    /// An edge of each, with one shared label.
    Both { first: usize, second: usize },
}

/// "A label other than 0 borne by edges of both models is shared."
pub fn is_shared(first: &Model, second: &Model, label: u8) -> bool {
    let borne = |model: &Model| model.used_edges().iter().any(|edge| edge.label == label);
    label != 0 && borne(first) && borne(second)
}

/// The edges of the product: "the first model's lone edges, each over rising j; the
/// second's, each over rising i; then pairs in lexicographic order".
pub fn moves(first: &Model, second: &Model) -> Vec<Move> {
    let shared = |edge: &Edge| is_shared(first, second, edge.label);
    let mut moves = Vec::new();
    for (edge, _) in numbered(first).filter(|(_, edge)| !shared(edge)) {
        moves.extend((0..usize::from(second.locations)).map(|beside| Move::First { edge, beside }));
    }
    for (edge, _) in numbered(second).filter(|(_, edge)| !shared(edge)) {
        moves.extend((0..usize::from(first.locations)).map(|beside| Move::Second { edge, beside }));
    }
    for (one, edge) in numbered(first).filter(|(_, edge)| shared(edge)) {
        let partners = numbered(second).filter(|(_, other)| other.label == edge.label);
        moves.extend(partners.map(|(other, _)| Move::Both { first: one, second: other }));
    }
    moves
}

fn numbered(model: &Model) -> impl Iterator<Item = (usize, &Edge)> {
    model.used_edges().iter().enumerate()
}

/// A model as a part of the product: how far its clocks and counters move up.
struct Part<'a> {
    model: &'a Model,
    clocks: u8,
    counters: u8,
}

impl Part<'_> {
    fn comparison(comparison: Comparison, shift: u8) -> Comparison {
        Comparison { index: comparison.index + shift, ..comparison }
    }

    /// The atoms that stand in some slots.
    fn atoms(&self, atoms: &Atoms) -> Vec<Atom> {
        let shifted = atoms.iter().filter_map(|atom| match atom {
            Atom::Blank => None,
            Atom::Clock(c) => Some(Atom::Clock(Part::comparison(*c, self.clocks))),
            Atom::Counter(c) => Some(Atom::Counter(Part::comparison(*c, self.counters))),
        });
        shifted.collect()
    }

    /// The counters that an edge sets, in their listed order.
    fn updates(&self, edge: &Edge) -> Vec<(usize, Update)> {
        let shifted = |counter: &u8| {
            let update = match edge.updates[usize::from(*counter)] {
                Update::Sum { source, offset } => Update::Sum { source: source + self.counters, offset },
                other => other,
            };
            (usize::from(counter + self.counters), update)
        };
        edge.listed().iter().map(shifted).collect()
    }

    /// The clocks that an edge sets.
    fn clock_updates(&self, edge: &Edge) -> Vec<(usize, ClockUpdate)> {
        let shifted = edge.clock_updates.iter().enumerate().filter_map(|(clock, update)| {
            let update = match update {
                ClockUpdate::Unchanged => return None,
                ClockUpdate::Reset => ClockUpdate::Reset,
                ClockUpdate::Copy(source) => ClockUpdate::Copy(source + self.clocks),
            };
            Some((clock + usize::from(self.clocks), update))
        });
        shifted.collect()
    }

    fn lone(&self, edge: usize) -> Doing {
        let edge = &self.model.edge[edge];
        Doing {
            label: edge.label,
            guard: self.atoms(&edge.guard),
            updates: self.updates(edge),
            clock_updates: self.clock_updates(edge),
        }
    }
}

/// What an edge of the product asks and does, in lists.
struct Doing {
    label: u8,
    guard: Vec<Atom>,
    updates: Vec<(usize, Update)>,
    clock_updates: Vec<(usize, ClockUpdate)>,
}

impl Doing {
    /// Both together, "the first model's part first"; their labels are the same.
    fn with(self, other: Doing) -> Doing {
        Doing {
            label: self.label,
            guard: [self.guard, other.guard].concat(),
            updates: [self.updates, other.updates].concat(),
            clock_updates: [self.clock_updates, other.clock_updates].concat(),
        }
    }
}

/// What the product would declare; an invariant and a guard by the most atoms that
/// one of them has.
#[derive(Clone, Copy, PartialEq, Eq, Debug)]
pub struct Measure {
    pub locations: usize,
    pub clocks: usize,
    pub counters: usize,
    pub edges: usize,
    pub invariant: usize,
    pub guard: usize,
}

impl Measure {
    /// Whether a record may hold as much.
    pub fn fits(&self) -> bool {
        self.locations <= MAX_LOCATIONS
            && self.clocks <= MAX_CLOCKS
            && self.counters <= MAX_COUNTERS
            && self.edges <= MAX_EDGES
            && self.invariant <= MAX_ATOMS
            && self.guard <= MAX_ATOMS
    }
}

/// The product of two well-formed models, however large.
struct Product<'a> {
    first: Part<'a>,
    second: Part<'a>,
    counters: Vec<Counter>,
    /// The invariant of each location.
    invariants: Vec<Vec<Atom>>,
    moves: Vec<Move>,
    edges: Vec<Doing>,
}

impl<'a> Product<'a> {
    fn of(first: &'a Model, second: &'a Model) -> Product<'a> {
        let one = Part { model: first, clocks: 0, counters: 0 };
        let other = Part { model: second, clocks: first.clocks, counters: first.counters };
        let moves = moves(first, second);
        let doing = |joint: &Move| match *joint {
            Move::First { edge, .. } => one.lone(edge),
            Move::Second { edge, .. } => other.lone(edge),
            Move::Both { first, second } => one.lone(first).with(other.lone(second)),
        };
        Product {
            counters: [first.used_counters(), second.used_counters()].concat(),
            invariants: invariants(&one, &other),
            edges: moves.iter().map(doing).collect(),
            moves,
            first: one,
            second: other,
        }
    }

    fn measure(&self) -> Measure {
        Measure {
            locations: self.invariants.len(),
            clocks: usize::from(self.first.model.clocks) + usize::from(self.second.model.clocks),
            counters: self.counters.len(),
            edges: self.edges.len(),
            invariant: self.invariants.iter().map(Vec::len).max().unwrap_or(0),
            guard: self.edges.iter().map(|edge| edge.guard.len()).max().unwrap_or(0),
        }
    }

    /// "Location (i, j) is i times the second's location count plus j."
    fn location(&self, i: impl Into<usize>, j: impl Into<usize>) -> u8 {
        (i.into() * usize::from(self.second.model.locations) + j.into()) as u8
    }

    /// The record of a product that fits.
    fn record(&self) -> Model {
        let (first, second) = (self.first.model, self.second.model);
        let mut model = Model::blank();
        model.locations = self.invariants.len() as u8;
        model.init = self.location(first.init, second.init);
        model.target = self.location(first.target, second.target);
        model.clocks = first.clocks + second.clocks;
        model.counters = self.counters.len() as u8;
        model.counter[..self.counters.len()].copy_from_slice(&self.counters);
        for (slots, atoms) in model.invariant.iter_mut().zip(&self.invariants) {
            slots[..atoms.len()].copy_from_slice(atoms);
        }
        model.edges = self.edges.len() as u8;
        for (slot, (joint, doing)) in model.edge.iter_mut().zip(self.moves.iter().zip(&self.edges)) {
            *slot = self.edge(*joint, doing);
        }
        model
    }

    fn edge(&self, joint: Move, doing: &Doing) -> Edge {
        let (source, target) = self.ends(joint);
        let mut edge = Edge { source, target, label: doing.label, ..Edge::BLANK };
        edge.guard[..doing.guard.len()].copy_from_slice(&doing.guard);
        for (place, (counter, update)) in doing.updates.iter().enumerate() {
            edge.updates[*counter] = *update;
            edge.order[place] = *counter as u8;
        }
        for (clock, update) in &doing.clock_updates {
            edge.clock_updates[*clock] = *update;
        }
        edge
    }

    /// Source and target: a part that does not move stays where it is.
    fn ends(&self, joint: Move) -> (u8, u8) {
        let (first, second) = (&self.first.model.edge, &self.second.model.edge);
        match joint {
            Move::First { edge, beside } => {
                (self.location(first[edge].source, beside), self.location(first[edge].target, beside))
            }
            Move::Second { edge, beside } => {
                (self.location(beside, second[edge].source), self.location(beside, second[edge].target))
            }
            Move::Both { first: e, second: f } => {
                (self.location(first[e].source, second[f].source), self.location(first[e].target, second[f].target))
            }
        }
    }
}

/// The invariants of all pairs of locations, the first model's atoms first.
fn invariants(first: &Part, second: &Part) -> Vec<Vec<Atom>> {
    let of = |part: &Part| -> Vec<Vec<Atom>> {
        let used = &part.model.invariant[..usize::from(part.model.locations)];
        used.iter().map(|atoms| part.atoms(atoms)).collect()
    };
    let others = of(second);
    of(first).iter().flat_map(|one| others.iter().map(move |other| [&one[..], other].concat())).collect()
}

/// What the product of two well-formed models would declare.
pub fn measure(first: &Model, second: &Model) -> Measure {
    Product::of(first, second).measure()
}

/// Two models that compose, and what they give.
#[derive(Clone, PartialEq, Eq, Debug)]
pub struct Composed {
    pub first: Model,
    pub second: Model,
    pub model: Model,
    /// How each edge of `model` comes about.
    pub moves: Vec<Move>,
}

/// Composes two records: 20 for either one, then "38 exactly when the result has
/// more locations, clocks, counters, edges or atoms than a record may hold".
pub fn compose(first: &Model, second: &Model) -> Result<Composed, Refusal> {
    test_record(first)?;
    test_record(second)?;
    let product = Product::of(first, second);
    if !product.measure().fits() {
        return Err(Refusal::plain(TOO_LARGE_TOGETHER));
    }
    Ok(Composed { first: first.clone(), second: second.clone(), model: product.record(), moves: product.moves })
}

/// What the call with two records returns: the refusal's number or 0, and the
/// composed model, or the blank one after a refusal.
pub fn compose_call(first: &Model, second: &Model) -> (u32, Model) {
    match compose(first, second) {
        Ok(composed) => (0, composed.model),
        Err(refusal) => (refusal.number, Model::blank()),
    }
}

/// Why two texts give no model: the refusal, and the text that it is found in, 1 or
/// 2; 0 for 38, which is found in neither alone.
#[derive(Clone, Copy, PartialEq, Eq, Debug)]
pub struct PairRefusal {
    pub refusal: Refusal,
    pub text: u32,
}

/// The models of two texts, composed: the first text's refusal, then the second's,
/// then 38.
pub fn read_pair(first: &[u8], second: &[u8]) -> Result<Composed, PairRefusal> {
    let in_text = |text| move |refusal| PairRefusal { refusal, text };
    let first = read_whole(first).map_err(in_text(1))?;
    let second = read_whole(second).map_err(in_text(2))?;
    compose(&first, &second).map_err(in_text(0))
}

impl Composed {
    /// What a step byte of the composed model is for each part: its own step byte, or
    /// nothing where it stands still; 27 for a byte that is no step.
    pub fn part_steps(&self, byte: u8) -> Result<(Option<u8>, Option<u8>), u32> {
        let delay = |model, ticks: u32| Some(ticks.min(ceiling(model)) as u8);
        let edge = |model, number: usize| Some((ceiling(model) as usize + 1 + number) as u8);
        match choice(&self.model, byte).ok_or(NO_SUCH_STEP)? {
            Choice::Delay(ticks) => Ok((delay(&self.first, ticks), delay(&self.second, ticks))),
            Choice::Edge(number) => Ok(match self.moves[number] {
                Move::First { edge: moved, .. } => (edge(&self.first, moved), None),
                Move::Second { edge: moved, .. } => (None, edge(&self.second, moved)),
                Move::Both { first, second } => (edge(&self.first, first), edge(&self.second, second)),
            }),
        }
    }

    /// The parts of a joint state, each part's clocks cut to that part's own ceiling.
    pub fn parts(&self, state: &State) -> (State, State) {
        let places = self.second.locations;
        let (clocks, counters) = (usize::from(self.first.clocks), usize::from(self.first.counters));
        (
            part(&self.first, state, state.location / places, 0, 0),
            part(&self.second, state, state.location % places, clocks, counters),
        )
    }
}

/// A part of a joint state: its clocks and counters stand from some slots on.
fn part(model: &Model, joint: &State, location: u8, clocks: usize, counters: usize) -> State {
    let mut state = State { location, ..State::initial(&Model::blank()) };
    for index in 0..usize::from(model.counters) {
        state.counters[index] = joint.counters[counters + index];
    }
    for index in 0..usize::from(model.clocks) {
        state.clocks[index] = joint.clocks[clocks + index].min(ceiling(model) as u8);
    }
    state
}
