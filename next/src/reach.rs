//! `reach`: a breadth-first search over the proved step call. It decides models with few states at every bound.

use std::collections::HashMap;
use std::io::Write;
use std::time::{Duration, Instant};

use crate::args::Reach;
use crate::command::{accepted, steps};
use crate::library::{Shape, State};
use crate::model::Model;
use crate::report::{status, Report, Stop};
use crate::subject::Subject;
use crate::{trace, trace_json, walk};

/// The longest run that the proved walker takes.
const LONGEST_WALK: usize = 64;
/// How often progress is told.
const PAUSE: Duration = Duration::from_secs(1);

/// How a search ends.
#[derive(Clone, Debug, PartialEq, Eq)]
pub enum Outcome {
    /// The initial state breaks its invariant.
    NoStart,
    /// A shortest run.
    Run(Vec<u8>),
    /// Every state that can be reached was met, and none is in the target.
    Never,
    /// The states or the time given were used up; no run has at most so many steps.
    Undecided(usize),
}

/// What was met so far: each state with the step that led to it and the place of the state before.
struct Search<'a> {
    model: &'a Model,
    shape: Shape,
    met: Vec<(State, u8, usize)>,
    places: HashMap<State, usize>,
    most: usize,
}

impl Search<'_> {
    /// Notes a state, unless it was met before. Tells whether there was room for it.
    fn note(&mut self, state: State, byte: u8, before: usize) -> bool {
        if self.places.contains_key(&state) {
            return true;
        }
        if self.met.len() == self.most {
            return false;
        }
        self.places.insert(state, self.met.len());
        self.met.push((state, byte, before));
        true
    }

    fn in_target(&self, place: usize) -> bool {
        self.met[place].0.location == self.shape.target
    }

    /// Notes all states one step after a state. Tells whether there was room for them.
    fn step_from(&mut self, place: usize) -> bool {
        let state = self.met[place].0;
        (0..self.shape.choices as u8).all(|byte| {
            let answer = self.model.step(state, byte);
            answer.number != 0 || self.note(answer.state, byte, place)
        })
    }

    /// The steps that led to a state.
    fn run_to(&self, mut place: usize) -> Vec<u8> {
        let mut run = Vec::new();
        while place != 0 {
            run.push(self.met[place].1);
            place = self.met[place].2;
        }
        run.reverse();
        run
    }
}

/// Searches from the initial state, all states of one number of steps before those of the next, and tells how many were met.
pub fn search(model: &Model, how: &Reach, log: &mut dyn Write) -> (Outcome, usize) {
    if model.walk(&[]).number == 29 {
        return (Outcome::NoStart, 0);
    }
    let start = Instant::now();
    let mut told = start;
    let mut search = Search { model, shape: model.shape(), met: Vec::new(), places: HashMap::new(), most: how.states };
    search.note(model.initial().state, 0, 0);
    if search.in_target(0) {
        return (Outcome::Run(Vec::new()), 1);
    }
    let (mut first, mut length) = (0, 0);
    loop {
        let end = search.met.len();
        let whole = (first..end).all(|place| {
            if told.elapsed() >= PAUSE {
                told = Instant::now();
                // Progress is a courtesy: an answer does not fail with it.
                let _ = writeln!(log, "{} states, {}, {} s", search.met.len(), steps(length), start.elapsed().as_secs());
            }
            !is_over(start, how.timeout) && search.step_from(place)
        });
        // The states that were met now are one step further; none before them is in the target.
        if let Some(place) = (end..search.met.len()).find(|place| search.in_target(*place)) {
            return (Outcome::Run(search.run_to(place)), search.met.len());
        }
        if !whole {
            return (Outcome::Undecided(length), search.met.len());
        }
        if search.met.len() == end {
            return (Outcome::Never, end);
        }
        first = end;
        length += 1;
    }
}

fn is_over(start: Instant, timeout: Option<u64>) -> bool {
    timeout.map_or(false, |limit| start.elapsed() >= Duration::from_secs(limit))
}

pub fn reach(subject: &Subject, how: &Reach, log: &mut dyn Write) -> Result<Report, Stop> {
    let (outcome, states) = search(&subject.model, how, log);
    let (status, verdict) = match outcome {
        Outcome::Run(_) => (status::RUN, "run"),
        Outcome::NoStart | Outcome::Never => (status::NO_RUN, "never"),
        Outcome::Undecided(_) => (status::UNDECIDED, "undecided"),
    };
    let run = match &outcome {
        Outcome::Run(run) => Some(run.as_slice()),
        _ => None,
    };
    if let Some(run) = run.filter(|run| run.len() <= LONGEST_WALK) {
        accepted(&subject.model, subject.model.walk(run).number, 0)?;
    }
    let none_up_to = match &outcome {
        Outcome::Undecided(length) => Some(*length),
        Outcome::Run(run) => run.len().checked_sub(1),
        Outcome::NoStart | Outcome::Never => None,
    };
    let mut fields = vec![
        ("verdict", verdict.into()),
        ("steps", run.map(<[u8]>::len).into()),
        ("none_up_to", none_up_to.into()),
        ("states", states.into()),
    ];
    fields.extend(trace_json::found(subject, run));
    Ok(Report { status, text: text(subject, how, &outcome, states), fields })
}

fn text(subject: &Subject, how: &Reach, outcome: &Outcome, states: usize) -> String {
    match outcome {
        Outcome::NoStart => walk::no_start(subject),
        Outcome::Run(run) => {
            let walked = if run.len() <= LONGEST_WALK { "walked by proved code" } else { "each step taken by proved code" };
            let found = format!("a run of {} reaches the target\n{}", steps(run.len()), trace::text(subject, run));
            format!("{}({}; no run is shorter: all states of fewer steps were searched, {} were met)\n", found, walked, states)
        }
        Outcome::Never => {
            let never = format!("the target can never be reached: {} states can, and none of them is in it", states);
            format!("{}\n(each step taken by proved code; that none was left out is not proved)\n", never)
        }
        Outcome::Undecided(length) => {
            let limit = how.timeout.map_or(String::new(), |seconds| format!(", --timeout {}", seconds));
            let met = format!("{} states were met (--states {}{}), and none is in the target", states, how.states, limit);
            format!("not decided: {}; no run has at most {}\n", met, steps(*length))
        }
    }
}
