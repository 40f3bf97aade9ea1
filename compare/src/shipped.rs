//! The models in the repository, and the pairs of them that are composed: the list and its file at every bound, and every shortest run
//! both ways.

use std::collections::HashSet;
use std::path::Path;

use reference::assign::assignment_of;
use reference::model::{Model, MAX_BOUND};
use reference::search::{next_level, shortest, successors, Shortest};
use reference::state::State;
use reference::subject;
use wirdoku::library;

use crate::expected::List;
use crate::pair_calls::{self, Pair};
use crate::part::Seeds;
use crate::tally::Tally;
use crate::{calls, show};

/// Most states that the search for a shortest run keeps.
const MOST_STATES: usize = 1_000_000;

pub fn shipped(tally: &mut Tally, _: Seeds) {
    let folder = concat!(env!("CARGO_MANIFEST_DIR"), "/../models");
    let shipped = subject::shipped(Path::new(folder));
    tally.same("models", None, shipped.as_ref().err());
    let shipped = shipped.unwrap_or_default();
    tally.same("models, eleven at least", true, shipped.len() >= 11);
    tally.case(|| "folder models".to_string());
    for subject::Subject { name, model, text } in shipped {
        for bound in 0..=MAX_BOUND + 1 {
            let needed = List::of_text(&text, bound).counts.words;
            calls::list(tally, bound as u64, &text, bound, &[needed, needed + 7, needed.saturating_sub(1)]);
        }
        calls::reading(tally, 1, &text);
        tally.case(|| format!("lists of {name}"));
        shortest_runs(tally, &text, &model);
        tally.case(|| format!("shortest runs of {name}"));
    }
    pairs(tally, Path::new(folder));
}

fn pairs(tally: &mut Tally, folder: &Path) {
    let shipped = subject::shipped_pairs(folder);
    tally.same("pairs", None, shipped.as_ref().err());
    let shipped = shipped.unwrap_or_default();
    tally.same("pairs, two at least", true, shipped.len() >= 2);
    tally.case(|| "pairs of models".to_string());
    for (first, second) in shipped {
        let pair = Pair::of(&first.text, &second.text);
        tally.same("they compose", 0, pair.told.number);
        for bound in 0..=MAX_BOUND + 1 {
            let needed = pair.list(bound).counts.words;
            pair_calls::list(tally, bound as u64, &pair, bound, &[needed, needed.saturating_sub(1)]);
        }
        pair_calls::reading(tally, 1, &pair);
        shortest_runs_of(tally, &pair);
        tally.case(|| format!("{} with {}", first.name, second.name));
    }
}

/// Walks every shortest run of a pair, and takes it to its assignment and back.
fn shortest_runs_of(tally: &mut Tally, pair: &Pair) {
    let model = match pair.model() {
        Some(model) => model,
        None => return,
    };
    if let Ok(Shortest::Steps(steps)) = shortest(model, MOST_STATES) {
        for run in runs(model, steps) {
            let assignment = assignment_of(model, &run).unwrap_or_default();
            pair_calls::walk(tally, pair, &run);
            tally.same(&show::run(&run), 0, library::pair_walk(&pair.first, &pair.second, &run).number);
            pair_calls::encode(tally, 1, pair, &run, assignment.len());
            pair_calls::decode(tally, 2, pair, (steps, &assignment), steps);
        }
    }
}

/// Walks every shortest run, and takes it to its assignment and back.
fn shortest_runs(tally: &mut Tally, text: &[u8], model: &Model) {
    let steps = match shortest(model, MOST_STATES) {
        Ok(Shortest::Steps(steps)) => steps,
        _ => return,
    };
    let runs = runs(model, steps);
    tally.same("some run", false, runs.is_empty());
    for (turn, run) in runs.iter().enumerate() {
        let assignment = assignment_of(model, run).unwrap_or_default();
        calls::walk(tally, text, run);
        tally.same(&show::run(run), 0, library::walk(text, run).number);
        calls::encode(tally, turn as u64, text, run, assignment.len());
        calls::decode(tally, turn as u64, text, (steps, &assignment), steps);
    }
}

/// Every run of so many steps: walks of one more step each, to states from which the target is reached in time.
fn runs(model: &Model, steps: usize) -> Vec<Vec<u8>> {
    let in_time = in_time(model, steps);
    let mut walks = vec![(Vec::new(), State::initial(model))];
    for states in &in_time[1..] {
        let longer = |(run, state): &(Vec<u8>, State)| {
            let kept = successors(model, *state).filter(|(_, after)| states.contains(after));
            kept.map(|(byte, after)| ([&run[..], &[byte]].concat(), after)).collect::<Vec<_>>()
        };
        walks = walks.iter().flat_map(longer).collect();
    }
    walks.into_iter().map(|(run, _)| run).collect()
}

/// The states reached after each number of steps from which the target is reached after `steps`.
fn in_time(model: &Model, steps: usize) -> Vec<HashSet<State>> {
    let mut levels: Vec<HashSet<State>> = vec![HashSet::from([State::initial(model)])];
    for step in 0..steps {
        levels.push(next_level(model, &levels[step]));
    }
    levels[steps].retain(|state| state.location == model.target);
    for step in (0..steps).rev() {
        let later = levels[step + 1].clone();
        levels[step].retain(|state| successors(model, *state).any(|(_, after)| later.contains(&after)));
    }
    levels
}
