//! Random pairs of models to compose: small ones, most of which fit together, and
//! pairs at and beyond each limit of the result.

use super::models::{any_model, declaring, model, Size};
use super::rng::Rng;
use crate::compose::Measure;
use crate::model::{Atom, Model, Relation, MAX_EDGES, MAX_LABEL, MAX_LOCATIONS};

/// Two models, half of the time both tiny, with few labels, of which most are borne
/// by both.
pub fn pair(rng: &mut Rng) -> (Model, Model) {
    let mut pair = match rng.below(8) {
        0..=3 => (model(rng, Size::Tiny), model(rng, Size::Tiny)),
        4 => (model(rng, Size::Tiny), model(rng, Size::Medium)),
        5 => (model(rng, Size::Medium), model(rng, Size::Tiny)),
        6 => (model(rng, Size::Medium), model(rng, Size::Medium)),
        _ => (any_model(rng), any_model(rng)),
    };
    few_labels(rng, &mut pair.0, 14);
    few_labels(rng, &mut pair.1, 15);
    pair
}

/// Two models with so few states together that all of them can be tried. One clock
/// each has constants up to 6, so that the ceilings differ.
pub fn small_pair(rng: &mut Rng) -> (Model, Model) {
    let mut pair = if rng.one_in(2) {
        (model(rng, Size::Tiny), model(rng, Size::Tiny))
    } else {
        let mut one = || {
            let shape = Model { locations: rng.between(1, 3), clocks: 1, counters: rng.between(0, 1), ..Model::blank() };
            let edges = rng.between(1, 3);
            declaring(rng, &Model { edges, ..shape })
        };
        (one(), one())
    };
    few_labels(rng, &mut pair.0, 14);
    few_labels(rng, &mut pair.1, 15);
    pair
}

/// Gives each edge the label 0, one of two that the other model has too, or one of
/// the model's own.
fn few_labels(rng: &mut Rng, model: &mut Model, own: u8) {
    for edge in &mut model.edge[..usize::from(model.edges)] {
        edge.label = rng.pick(&[0, 3, 3, 3, 7, own]);
    }
}

/// What a composed model may have too much of.
#[derive(Clone, Copy, PartialEq, Eq, Debug)]
pub enum Limit {
    Locations,
    Clocks,
    Counters,
    Edges,
    Invariant,
    Guard,
}

impl Limit {
    pub const ALL: [Limit; 6] = [Limit::Locations, Limit::Clocks, Limit::Counters, Limit::Edges, Limit::Invariant, Limit::Guard];

    /// The number that the limit is about, and the greatest that fits.
    pub fn of(self, measure: &Measure) -> (usize, usize) {
        match self {
            Limit::Locations => (measure.locations, 16),
            Limit::Clocks => (measure.clocks, 4),
            Limit::Counters => (measure.counters, 4),
            Limit::Edges => (measure.edges, 32),
            Limit::Invariant => (measure.invariant, 4),
            Limit::Guard => (measure.guard, 4),
        }
    }
}

/// A pair that reaches one limit, or passes it, and passes no other.
pub fn near(rng: &mut Rng, limit: Limit, beyond: bool) -> (Model, Model) {
    match limit {
        Limit::Locations => near_locations(rng, beyond),
        Limit::Clocks => {
            let (first, second) = sum(rng, beyond);
            few_edges(rng, [(first, 1), (second, 1)])
        }
        Limit::Counters => {
            let (first, second) = sum(rng, beyond);
            few_edges(rng, [(1, first), (1, second)])
        }
        Limit::Edges => near_edges(rng, beyond),
        Limit::Invariant => near_invariant(rng, beyond),
        Limit::Guard => near_guard(rng, beyond),
    }
}

/// Two numbers up to 4 whose sum is 4, or more.
fn sum(rng: &mut Rng, beyond: bool) -> (u8, u8) {
    loop {
        let (first, second) = (rng.between(0, 4), rng.between(0, 4));
        if (first + second == 4 && !beyond) || (first + second > 4 && beyond) {
            return (first, second);
        }
    }
}

/// Two locations and two edges each; the clocks and counters of each are given.
fn few_edges(rng: &mut Rng, [first, second]: [(u8, u8); 2]) -> (Model, Model) {
    let mut one = |(clocks, counters), own| {
        let mut model = declaring(rng, &Model { locations: 2, clocks, counters, edges: 2, ..Model::blank() });
        few_labels(rng, &mut model, own);
        model
    };
    (one(first, 14), one(second, 15))
}

/// No more than one lone edge each, which is repeated for each location of the other.
fn near_locations(rng: &mut Rng, beyond: bool) -> (Model, Model) {
    let (first, second) = loop {
        let (first, second) = (rng.between(1, MAX_LOCATIONS as u8), rng.between(1, MAX_LOCATIONS as u8));
        let product = usize::from(first) * usize::from(second);
        if (product == MAX_LOCATIONS && !beyond) || (product > MAX_LOCATIONS && beyond) {
            break (first, second);
        }
    };
    let mut one = |locations, edges| declaring(rng, &Model { locations, clocks: 1, edges, ..Model::blank() });
    (one(first, 1), one(second, 0))
}

/// Lone edges of both and pairs, 32 edges in all, or up to 40.
fn near_edges(rng: &mut Rng, beyond: bool) -> (Model, Model) {
    let sizes = if beyond { MAX_EDGES + 1..=MAX_EDGES + 8 } else { MAX_EDGES..=MAX_EDGES };
    loop {
        let [n, m] = [rng.between(1, 4), rng.between(1, 4)];
        let lone = [rng.between(0, 20), rng.between(0, 20)];
        let shared = [rng.between(0, 8), rng.between(0, 8)];
        let pairs = usize::from(shared[0]) * usize::from(shared[1]);
        let edges = usize::from(lone[0]) * usize::from(m) + usize::from(lone[1]) * usize::from(n) + pairs;
        // a label that one model alone bears is not shared
        if sizes.contains(&edges) && (shared[0] == 0) == (shared[1] == 0) {
            return (labelled(rng, n, lone[0], shared[0], 14), labelled(rng, m, lone[1], shared[1], 15));
        }
    }
}

/// A model with some lone edges, private ones and ones with a label of its own, and
/// some with label 3, in any order.
fn labelled(rng: &mut Rng, locations: u8, lone: u8, shared: u8, own: u8) -> Model {
    let mut model = declaring(rng, &Model { locations, clocks: 1, counters: 1, edges: lone + shared, ..Model::blank() });
    for index in 0..usize::from(model.edges) {
        model.edge[index].label = if index < usize::from(shared) { 3 } else { rng.pick(&[0, own]) };
        let place = rng.below(index + 1);
        model.edge.swap(index, place);
    }
    model
}

/// A clock and so many atoms that hold at the start.
fn atoms(count: u8) -> [Atom; 4] {
    [0, 1, 2, 3].map(|slot| if slot < count { Atom::clock(0, Relation::LessEqual, slot) } else { Atom::Blank })
}

/// One location of each has many atoms.
fn near_invariant(rng: &mut Rng, beyond: bool) -> (Model, Model) {
    let (first, second) = sum(rng, beyond);
    let mut pair = few_edges(rng, [(1, 1), (1, 1)]);
    for (model, count) in [(&mut pair.0, first), (&mut pair.1, second)] {
        model.invariant = [[Atom::Blank; 4]; 16];
        model.invariant[rng.below(2)] = atoms(count);
    }
    pair
}

/// One edge of each has many atoms and the shared label; another has four and a label
/// that the other model does not have.
fn near_guard(rng: &mut Rng, beyond: bool) -> (Model, Model) {
    let (first, second) = sum(rng, beyond);
    let mut pair = few_edges(rng, [(1, 1), (1, 1)]);
    for (model, count, own) in [(&mut pair.0, first, 14), (&mut pair.1, second, MAX_LABEL)] {
        let place = rng.below(2);
        (model.edge[place].label, model.edge[place].guard) = (3, atoms(count));
        (model.edge[1 - place].label, model.edge[1 - place].guard) = (rng.pick(&[0, own]), atoms(4));
    }
    pair
}
