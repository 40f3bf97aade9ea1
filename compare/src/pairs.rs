//! Two texts composed: every call on generated pairs, most of which compose, on pairs at and beyond each limit, and on texts that are refused
//! in either place.

use reference::assign::assignment_of;
use reference::gen::pairs::{near, pair, Limit};
use reference::gen::records;
use reference::gen::rng::Rng;
use reference::gen::runs::{self, truth_values};
use reference::gen::texts::text;
use reference::model::{choice_length, variables, Atom, Model, Relation, MAX_BOUND};
use wirdoku::library::{self, State, STAYS};

use crate::expected::library_state;
use crate::pair_calls::{self, Pair};
use crate::part::Seeds;
use crate::show;
use crate::tally::{Due, Tally};
use crate::texts::written;

pub const DUE: Due = &[
    ("pair_read", &[0, 38]),
    ("pair_read, first text", &[1, 2, 3, 4, 5, 6, 7, 8]),
    ("pair_read, second text", &[1, 2, 3, 4, 5, 6, 7, 8]),
    ("pair_read, locations", &[0, 38]),
    ("pair_read, clocks", &[0, 38]),
    ("pair_read, counters", &[0, 38]),
    ("pair_read, edges", &[0, 38]),
    ("pair_read, invariant", &[0, 38]),
    ("pair_read, guard", &[0, 38]),
    ("pair_shape", &[0, 1, 2, 3, 4, 5, 6, 7, 8, 38]),
    ("pair_initial", &[0, 1, 2, 3, 4, 5, 6, 7, 8, 38]),
    ("pair_counts", &[0, 1, 2, 3, 4, 5, 6, 7, 8, 21, 38]),
    ("pair_emit", &[0, 1, 2, 3, 4, 5, 6, 7, 8, 21, 22, 38]),
    ("pair_dimacs", &[0, 1, 2, 3, 4, 5, 6, 7, 8, 21, 32, 38]),
    ("pair_step", &[0, 1, 2, 3, 4, 5, 6, 7, 8, 10, 27, 28, 38]),
    ("pair_walk", &[0, 1, 2, 3, 4, 5, 6, 7, 8, 21, 27, 28, 29, 30, 38]),
    ("pair_assignment_to_run", &[0, 1, 2, 3, 4, 5, 6, 7, 8, 21, 23, 24, 25, 26, 38]),
    ("pair_run_to_assignment", &[0, 1, 2, 3, 4, 5, 6, 7, 8, 21, 27, 28, 29, 30, 31, 38]),
    ("pair_parts", &[0, 1, 2, 3, 4, 5, 6, 7, 8, 27, 38]),
    ("run of the first part", &[0]),
    ("run of the second part", &[0]),
];

pub fn pairs(tally: &mut Tally, seeds: Seeds) {
    for seed in seeds.each() {
        let mut rng = Rng::new(seed);
        match seed % 8 {
            0..=3 => of_models(tally, &mut rng, seed),
            4 | 5 => near_a_limit(tally, &mut rng, seed),
            _ => of_texts(tally, &mut rng, seed),
        }
        if tally.stopped() {
            return;
        }
    }
}

/// Two models whose targets are where a walk of the composed model ends, three times in four; every call.
fn of_models(tally: &mut Tally, rng: &mut Rng, seed: u64) {
    let (mut first, mut second) = pair(rng);
    if rng.one_in(6) {
        fail_at_the_start(rng, &mut first);
    }
    let steps = runs::steps(rng);
    let composed = reference::compose::compose(&first, &second);
    let run = match &composed {
        Err(_) => bytes(rng, steps, 70),
        Ok(composed) => {
            let (run, end) = runs::walk(rng, &composed.model, steps);
            if !rng.one_in(4) {
                let (one, other) = composed.parts(&end);
                (first.target, second.target) = (one.location, other.location);
            }
            run.into_boxed_slice()
        }
    };
    let pair = Pair::of_models(&first, &second);
    every_call(tally, rng, seed, &pair, &run);
}

/// Gives the initial location an invariant that fails at the start.
fn fail_at_the_start(rng: &mut Rng, model: &mut Model) {
    if model.clocks > 0 {
        let clock = rng.below(usize::from(model.clocks)) as u8;
        model.invariant[usize::from(model.init)][0] = Atom::clock(clock, Relation::GreaterEqual, 1);
    }
}

/// A pair at a limit or beyond it, and no other limit passed.
fn near_a_limit(tally: &mut Tally, rng: &mut Rng, seed: u64) {
    let limit = Limit::ALL[(seed / 8) as usize % 6];
    let beyond = seed % 2 == 1;
    let (first, second) = near(rng, limit, beyond);
    let pair = Pair::of_models(&first, &second);
    let call = match limit {
        Limit::Locations => "pair_read, locations",
        Limit::Clocks => "pair_read, clocks",
        Limit::Counters => "pair_read, counters",
        Limit::Edges => "pair_read, edges",
        Limit::Invariant => "pair_read, invariant",
        Limit::Guard => "pair_read, guard",
    };
    tally.same("38", beyond, pair.told.number == 38);
    tally.answer(call, pair.told, library::pair_read(&pair.first, &pair.second));
    let run = match pair.model() {
        None => bytes(rng, 5, 70),
        Some(model) => runs::walk(rng, model, 5).0.into_boxed_slice(),
    };
    every_call(tally, rng, seed, &pair, &run);
}

/// A text that is damaged, before or after one that is whole, or once in four damaged too.
fn of_texts(tally: &mut Tally, rng: &mut Rng, seed: u64) {
    let (whole, _) = pair(rng);
    let other = if rng.one_in(4) { text(rng) } else { written(&whole) };
    let damaged = text(rng);
    let pair = if seed % 2 == 0 { Pair::of(&damaged, &other) } else { Pair::of(&other, &damaged) };
    let run = bytes(rng, 3, 70);
    every_call(tally, rng, seed, &pair, &run);
}

fn bytes(rng: &mut Rng, length: usize, limit: usize) -> Box<[u8]> {
    (0..length).map(|_| rng.below(limit) as u8).collect()
}

/// Each call, with arguments that fit the composed model, if there is one, more often than not.
fn every_call(tally: &mut Tally, rng: &mut Rng, seed: u64, pair: &Pair, run: &[u8]) {
    pair_calls::reading(tally, seed + 1, pair);
    let bound = if rng.one_in(8) { 65 } else { rng.below(4) };
    let needed = pair.list(bound).counts.words;
    let rooms = [needed, needed + 1 + rng.below(60), needed.saturating_sub(1), 0];
    pair_calls::list(tally, seed, pair, bound, &rooms);
    for _ in 0..4 {
        let (state, byte) = state_and_byte(rng, pair.model());
        pair_calls::step(tally, pair, state, byte);
        pair_calls::parts(tally, pair, byte);
    }
    all_parts(tally, seed, pair);
    let run = if rng.one_in(3) { damaged(rng, pair.model(), run) } else { run.into() };
    pair_calls::walk(tally, pair, &run);
    assignments(tally, rng, seed, pair, &run);
    parts_of_a_run(tally, pair, &run);
    tally.case(|| format!("seed {seed} {} bound {bound} rooms {rooms:?} run {}", pair.shown(), show::run(&run)));
}

fn state_and_byte(rng: &mut Rng, model: Option<&Model>) -> (State, u8) {
    match model {
        Some(model) => (library_state(records::state(rng, model)), runs::step_byte(rng, model)),
        None => {
            let mut numbers = || [rng.byte(), rng.byte(), rng.byte(), rng.byte()];
            let (counters, clocks) = (numbers(), numbers());
            (State { location: rng.byte(), counters, clocks }, rng.byte())
        }
    }
}

/// What every step byte is for each part, of every eighth pair that composes.
fn all_parts(tally: &mut Tally, seed: u64, pair: &Pair) {
    if seed % 8 == 0 && pair.model().is_some() {
        for byte in 0..=255 {
            pair_calls::parts(tally, pair, byte);
        }
    }
}

/// A run with another byte, a byte less or more, or so many that it is above 64.
fn damaged(rng: &mut Rng, model: Option<&Model>, run: &[u8]) -> Box<[u8]> {
    let choices = model.map_or(70, |model| choice_length(model) as usize);
    let mut run = run.to_vec();
    let place = rng.below(run.len());
    match rng.below(5) {
        0 if !run.is_empty() => run[place] = rng.below(choices) as u8,
        1 if !run.is_empty() => run[place] = choices as u8,
        2 => run.truncate(place),
        3 => run.resize(MAX_BOUND + 1 + rng.below(3), 0),
        _ => run.insert(place, rng.below(choices) as u8),
    }
    run.into_boxed_slice()
}

/// The assignment of the run, if it is one, and damaged copies; both conversions with buffers on both sides of what they need.
fn assignments(tally: &mut Tally, rng: &mut Rng, seed: u64, pair: &Pair, run: &[u8]) {
    let bound = run.len();
    let length = pair.model().map_or(20, |model| variables(model, bound.min(MAX_BOUND)) as usize);
    for room in [length, length + 1 + rng.below(40), length - 1] {
        pair_calls::encode(tally, seed + room as u64, pair, run, room);
    }
    let right = pair.model().and_then(|model| assignment_of(model, run).ok());
    let mut assignment = right.unwrap_or_else(|| truth_values(rng, length));
    let place = rng.below(length);
    match rng.below(6) {
        0 | 1 => {}
        2 => assignment[place] ^= 1,
        3 => assignment[place] = rng.between(2, 255),
        4 => assignment.truncate(length - 1),
        _ => assignment.swap(place, length - 1),
    }
    let assignment = assignment.into_boxed_slice();
    for room in [bound, bound.saturating_sub(1), bound + 5] {
        pair_calls::decode(tally, seed + room as u64, pair, (bound, &assignment), room);
    }
}

/// A run of the composed model, cut to one part, is a walk of that part into its target, the other's lone edges left out.
fn parts_of_a_run(tally: &mut Tally, pair: &Pair, run: &[u8]) {
    if library::pair_walk(&pair.first, &pair.second, run).number != 0 {
        return;
    }
    let steps: Vec<_> = run.iter().map(|byte| library::pair_parts(&pair.first, &pair.second, *byte)).collect();
    let parts = [
        ("run of the first part", &pair.first, steps.iter().map(|steps| steps.first).collect::<Vec<u8>>()),
        ("run of the second part", &pair.second, steps.iter().map(|steps| steps.second).collect()),
    ];
    for (name, text, bytes) in parts {
        let own: Vec<u8> = bytes.into_iter().filter(|byte| *byte != STAYS).collect();
        tally.answer(name, library::Answer::default(), library::walk(text, &own));
    }
}
