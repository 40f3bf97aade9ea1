//! Two texts composed: the list that the library writes for both is satisfiable
//! exactly if the reference program finds a run of exactly that many steps; an
//! assignment gives a run, which cut to each part is a run of that part.

use std::ops::RangeInclusive;

use reference::compose::{compose, Composed};
use reference::gen::pairs::{pair, small_pair};
use reference::gen::rng::Rng;
use reference::step;
use reference::subject::Subject;
use wirdoku::library::{self, PartSteps, STAYS};
use wirdoku::solver::{Solver, Verdict};

use crate::desk::Desk;
use crate::judge::{ends, first_reached};
use crate::list::emitted_together;
use crate::made::join_locations;
use crate::tally::Tally;

const SEEDS: RangeInclusive<u64> = 3_001..=3_400;
/// Bounds of the shipped pairs.
const BOUNDS: [usize; 10] = [0, 1, 2, 3, 4, 5, 6, 7, 12, 20];
/// Most states that the reference's search may keep.
const STATES: usize = 20_000;
/// Most steps asked of a generated pair.
const LONGEST: usize = 12;

/// Two models, a bound, and whether the reference finds a run of exactly so many steps.
struct Question {
    first: Subject,
    second: Subject,
    composed: Composed,
    bound: usize,
    has_run: bool,
}

/// What solvers' runs did.
#[derive(Default)]
struct Met {
    satisfiable: usize,
    unsatisfiable: usize,
    alone: usize,
    together: usize,
    beyond: usize,
}

pub fn test(desk: &mut Desk, tally: &mut Tally, shipped: &[(Subject, Subject)]) -> Result<(), String> {
    println!("composed: seeds {SEEDS:?}, shipped pairs at bounds {BOUNDS:?}");
    let mut questions = Vec::new();
    for (first, second) in shipped {
        let asked = BOUNDS.iter().filter_map(|bound| question(first.clone(), second.clone(), *bound));
        questions.extend(asked);
    }
    tally.share("questions about shipped pairs", questions.len(), 2 * BOUNDS.len());
    for seed in SEEDS {
        questions.extend(generated(seed)?);
    }
    let mut met = Met::default();
    for (index, question) in questions.iter().enumerate() {
        let solver = Solver::ALL[index % Solver::ALL.len()];
        let test = format!("composed with {} at bound {}, {}", question.second.name, question.bound, solver.name());
        let outcome = judged(desk, solver, question, &mut met);
        let outcome = outcome.map_err(|cause| format!("{cause}\n{}", String::from_utf8_lossy(&question.second.text)));
        tally.about(&question.first, &test, outcome);
    }
    tally.share("composed, satisfiable", met.satisfiable, 60);
    tally.share("composed, unsatisfiable", met.unsatisfiable, 60);
    tally.share("runs with an edge of one model alone", met.alone, 30);
    tally.share("runs with a pair of edges", met.together, 20);
    tally.share("runs with a delay beyond a part's ceiling", met.beyond, 10);
    Ok(())
}

/// None if the two do not compose, or the reference has too many states.
fn question(first: Subject, second: Subject, bound: usize) -> Option<Question> {
    let composed = compose(&first.model, &second.model).ok()?;
    let has_run = ends(&composed.model, bound, STATES)?.contains(&composed.model.target);
    Some(Question { first, second, composed, bound, has_run })
}

/// A generated pair, whose targets are where walks of both together come late, or
/// not at all; the bound is at or near the step that first comes there.
fn generated(seed: u64) -> Result<Option<Question>, String> {
    let mut rng = Rng::new(seed);
    let (mut first, mut second) = if seed % 2 == 0 { pair(&mut rng) } else { small_pair(&mut rng) };
    for model in [&mut first, &mut second] {
        join_locations(&mut rng, model);
    }
    let composed = match compose(&first, &second) {
        Ok(composed) => composed,
        Err(_) => return Ok(None),
    };
    let reached = first_reached(&composed.model, STATES);
    let latest = (0..reached.len()).max_by_key(|location| reached[*location]).unwrap_or(0);
    let location = if rng.one_in(3) { rng.below(reached.len()) } else { latest };
    let target = reference::state::State { location: location as u8, ..reference::state::State::initial(&composed.model) };
    let (one, other) = composed.parts(&target);
    (first.target, second.target) = (one.location, other.location);
    let bound = match reached[location] {
        Some(steps) => (steps + rng.below(3)).saturating_sub(1),
        None => rng.below(LONGEST),
    };
    let name = |part| format!("seed {seed}, {part} model");
    let (first, second) = (Subject::new(name("first"), first)?, Subject::new(name("second"), second)?);
    Ok(question(first, second, bound.min(LONGEST)))
}

/// The solver's verdict is the reference's, and its assignment is that of a run.
fn judged(desk: &mut Desk, solver: Solver, question: &Question, met: &mut Met) -> Result<(), String> {
    let (first, second) = (&question.first.text, &question.second.text);
    let list = emitted_together(first, second, question.bound)?;
    match (desk.solve(solver, &list, &[])?, question.has_run) {
        (Verdict::Unsatisfiable, false) => {
            met.unsatisfiable += 1;
            Ok(())
        }
        (Verdict::Satisfiable(assignment), true) => {
            met.satisfiable += 1;
            let run = decoded(question, &assignment)?;
            parts(question, &run, met)
        }
        (verdict, has_run) => Err(format!("{verdict:?}, but the reference finds a run: {has_run}")),
    }
}

/// The run of an assignment: both walkers take it, and it gives the assignment back.
fn decoded(question: &Question, assignment: &[u8]) -> Result<Vec<u8>, String> {
    let (first, second) = (&question.first.text, &question.second.text);
    let mut run = vec![0; question.bound];
    let answer = library::pair_assignment_to_run(first, second, question.bound, assignment, &mut run);
    let walked = library::pair_walk(first, second, &run);
    let mut back = vec![9; assignment.len()];
    let encoded = library::pair_run_to_assignment(first, second, &run, &mut back);
    if (answer.number, walked.number, encoded.number) != (0, 0, 0) || back != assignment {
        return Err(format!("assignment {answer:?}, run {run:?} {walked:?}, and back {encoded:?}"));
    }
    match step::walk(&question.composed.model, &run) {
        (0, 0) => Ok(run),
        refused => Err(format!("run {run:?}, but the reference {refused:?}")),
    }
}

/// What each part does in a run, the steps left out in which it stands still, is a
/// run of that part.
fn parts(question: &Question, run: &[u8], met: &mut Met) -> Result<(), String> {
    let (first, second) = (&question.first.text, &question.second.text);
    let steps: Vec<PartSteps> = run.iter().map(|byte| library::pair_parts(first, second, *byte)).collect();
    let ceilings = [library::shape(first).ceiling, library::shape(second).ceiling];
    let own: [Vec<u8>; 2] = [steps.iter().map(|s| s.first).collect(), steps.iter().map(|s| s.second).collect()];
    for (text, own) in [first, second].into_iter().zip(&own) {
        let moving: Vec<u8> = own.iter().copied().filter(|byte| *byte != STAYS).collect();
        let answer = library::walk(text, &moving);
        if answer.number != 0 {
            return Err(format!("run {run:?} is {own:?} for a part: {answer:?}"));
        }
    }
    let is_delay = |s: &PartSteps| usize::from(s.first) <= ceilings[0] && usize::from(s.second) <= ceilings[1];
    met.alone += usize::from(steps.iter().any(|s| s.first == STAYS || s.second == STAYS));
    met.together += usize::from(steps.iter().any(|s| s.first != STAYS && s.second != STAYS && !is_delay(s)));
    met.beyond += usize::from(steps.iter().any(|s| is_delay(s) && s.first != s.second));
    Ok(())
}
