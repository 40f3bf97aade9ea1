//! What is tested beside the shipped models: models from seeds, and a few made by hand.

use reference::gen::models::{self, Size};
use reference::gen::rng::Rng;
use reference::gen::runs::walk;
use reference::model::{Atom, Counter, Edge, Model, Relation, Update};
use reference::subject::Subject;

use crate::judge::first_reached;

/// Most states kept while a target is chosen.
const STATES: usize = 1_000;

/// A generated model and a bound. The target is a location that walks reach
/// late, or not at all; the bound is at or near the step that first reaches it.
pub fn generated(seed: u64) -> Result<(Subject, usize), String> {
    let mut rng = Rng::new(seed);
    let (size, name, greatest_bound) = match seed % 4 {
        0 => (Size::Tiny, "tiny", 64),
        1 | 2 => (Size::Medium, "medium", 20),
        _ => (Size::Full, "full", 8),
    };
    let mut model = models::model(&mut rng, size);
    if rng.one_in(2) {
        join_locations(&mut rng, &mut model);
    }
    if model.clocks > 0 && rng.one_in(10) {
        forbid_the_start(&mut model);
    }
    let first = first_reached(&model, STATES);
    model.target = target(&mut rng, &model, &first);
    let bound = match first[usize::from(model.target)] {
        Some(steps) if !rng.one_in(4) => (steps + rng.below(3)).saturating_sub(1),
        _ => rng.below(greatest_bound + 1),
    };
    let subject = Subject::new(format!("seed {seed} ({name})"), model)?;
    Ok((subject, bound.min(greatest_bound)))
}

/// Turns the first edges so that they lead from the initial location to as many
/// others as there are such edges.
pub fn join_locations(rng: &mut Rng, model: &mut Model) {
    let locations = usize::from(model.locations);
    let place = |model: &Model, number: usize| (usize::from(model.init) + number) % locations;
    for index in 0..usize::from(model.edges).min(locations - 1) {
        model.edge[index].source = place(model, rng.below(index + 1)) as u8;
        model.edge[index].target = place(model, index + 1) as u8;
    }
}

/// An invariant that the initial state breaks.
fn forbid_the_start(model: &mut Model) {
    model.invariant[usize::from(model.init)][0] = Atom::clock(0, Relation::GreaterEqual, 1);
}

/// One of: any location but the initial one, the one reached latest, one that
/// is not reached.
fn target(rng: &mut Rng, model: &Model, first: &[Option<usize>]) -> u8 {
    let locations = 0..model.locations;
    let steps = |location: &u8| first[usize::from(*location)];
    let latest = locations.clone().max_by_key(|location| steps(location));
    let unreached: Vec<u8> = locations.filter(|l| steps(l).is_none()).collect();
    if unreached.len() == usize::from(model.locations) && rng.one_in(2) {
        return model.init;
    }
    match rng.below(3) {
        0 => (model.init + rng.between(1, model.locations)) % model.locations,
        1 if !unreached.is_empty() => rng.pick(&unreached),
        _ => latest.unwrap_or(model.init),
    }
}

/// A tiny generated model.
pub fn tiny(seed: u64) -> Result<Subject, String> {
    let mut rng = Rng::new(seed);
    let mut model = models::model(&mut rng, Size::Tiny);
    let steps = 1 + rng.below(4);
    model.target = walk(&mut rng, &model, steps).1.location;
    Subject::new(format!("seed {seed} (tiny, walked)"), model)
}

/// Two models at every limit: the one with the greatest list, which has no run,
/// and one with runs through a chain of locations.
pub fn at_the_limits() -> Result<[Subject; 2], String> {
    let mut model = models::full();
    model.target = 1;
    for (number, edge) in model.edge.iter_mut().enumerate() {
        edge.target = number as u8 % 16;
        edge.source = edge.target.saturating_sub(1);
    }
    Ok([Subject::new("the greatest list", models::largest())?, Subject::new("every limit, with runs", model)?])
}

/// A counter is raised to `top` and lowered to 0 again: the shortest run has
/// 2 * `top` + 2 steps, and `more` further ones through a chain of locations.
pub fn there_and_back(top: u8, more: u8) -> Result<Subject, String> {
    let mut model = Model::blank();
    model.locations = 3 + more;
    model.target = 2 + more;
    model.counters = 1;
    model.counter[0] = Counter { greatest: top, initial: 0 };
    let steps = [(0, 0, Some(1), None), (0, 1, None, Some(top)), (1, 1, Some(-1), None), (1, 2, None, Some(0))];
    for (source, target, offset, asked) in steps {
        let edge = &mut model.edge[usize::from(model.edges)];
        *edge = Edge { source, target, ..Edge::BLANK };
        if let Some(offset) = offset {
            edge.updates[0] = Update::Sum { source: 0, offset };
        }
        if let Some(value) = asked {
            edge.guard[0] = Atom::counter(0, Relation::Equal, value);
        }
        model.edges += 1;
    }
    for source in 2..2 + more {
        model.edge[usize::from(model.edges)] = Edge { source, target: source + 1, ..Edge::BLANK };
        model.edges += 1;
    }
    Subject::new(format!("a counter up to {top} and back, {more} more locations"), model)
}
