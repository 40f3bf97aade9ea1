//! Models with bounds: the list is satisfiable exactly if the reference program
//! finds a run of exactly that many steps.

use std::ops::RangeInclusive;

use reference::gen::rng::Rng;
use reference::gen::runs::walk as random_walk;
use reference::model::{Atom, ClockUpdate, Edge, Model, Update, NO_ATOMS};
use reference::step::walk;
use reference::subject::Subject;
use wirdoku::solver::{Solver, Verdict};

use crate::desk::Desk;
use crate::judge::{decoded, ends};
use crate::list::emitted;
use crate::made::{at_the_limits, generated};
use crate::tally::Tally;

const SEEDS: RangeInclusive<u64> = 1..=480;
const SHIPPED_BOUNDS: RangeInclusive<usize> = 0..=8;
/// Most states that the reference's search may keep.
const STATES: usize = 2_000;
/// How many random walks are tried where the search has too many.
const WALKS: usize = 200;
/// The bound of the models at every limit.
const LIMITS_BOUND: usize = 6;
/// Every so many pairs all solvers are asked, else one of them in turn.
const ALL_SOLVERS_EVERY: usize = 3;

pub struct Pair {
    pub subject: Subject,
    pub bound: usize,
    /// Whether the reference finds a run of exactly `bound` steps.
    pub has_run: bool,
}

/// All pairs; those with too many states for the reference's search are left out.
pub fn pairs(shipped: &[Subject]) -> Result<Vec<Pair>, String> {
    let mut cases = Vec::new();
    for subject in shipped {
        cases.extend(SHIPPED_BOUNDS.map(|bound| (subject.clone(), bound)));
    }
    cases.extend(at_the_limits()?.map(|subject| (subject, LIMITS_BOUND)));
    for seed in SEEDS {
        cases.push(generated(seed)?);
    }
    let asked = cases.len();
    let judged = cases.into_iter().filter_map(|(subject, bound)| {
        let has_run = match ends(&subject.model, bound, STATES) {
            Some(ends) => ends.contains(&subject.model.target),
            None => found_by_walking(&subject.model, bound)?,
        };
        Some(Pair { subject, bound, has_run })
    });
    let pairs: Vec<Pair> = judged.collect();
    println!(
        "pairs: seeds {SEEDS:?}, shipped models at bounds {SHIPPED_BOUNDS:?}, models at every limit; {} left out, more than {STATES} states",
        asked - pairs.len()
    );
    Ok(pairs)
}

/// True if one of some random walks is a run; else nothing is known.
fn found_by_walking(model: &Model, bound: usize) -> Option<bool> {
    let mut rng = Rng::new(1);
    let mut runs = (0..WALKS).map(|_| random_walk(&mut rng, model, bound).0);
    runs.find(|run| run.len() == bound && walk(model, run) == (0, 0)).map(|_| true)
}

/// Gives each pair to the solvers.
pub fn test(desk: &mut Desk, tally: &mut Tally, pairs: &[Pair]) {
    let mut by_all = 0;
    for (index, pair) in pairs.iter().enumerate() {
        let all = index % ALL_SOLVERS_EVERY == 0;
        let solvers = if all { Solver::ALL.to_vec() } else { vec![Solver::ALL[index / ALL_SOLVERS_EVERY % Solver::ALL.len()]] };
        by_all += usize::from(all);
        let test = format!("bound {}", pair.bound);
        tally.about(&pair.subject, &test, judged(desk, pair, &solvers));
    }
    shares(tally, pairs, by_all);
}

/// The verdict of each solver is the reference's, and its assignment is a run's.
fn judged(desk: &mut Desk, pair: &Pair, solvers: &[Solver]) -> Result<(), String> {
    let list = emitted(&pair.subject, pair.bound)?;
    for solver in solvers {
        match (desk.solve(*solver, &list, &[])?, pair.has_run) {
            (Verdict::Unsatisfiable, false) => {}
            (Verdict::Satisfiable(assignment), true) => {
                decoded(&pair.subject, pair.bound, &assignment).map_err(|cause| format!("{}: {cause}", solver.name()))?;
            }
            (verdict, has_run) => {
                return Err(format!("{}: {verdict:?}, but the reference finds a run: {has_run}", solver.name()))
            }
        }
    }
    Ok(())
}

/// Too weak a choice of pairs fails.
fn shares(tally: &mut Tally, pairs: &[Pair], by_all: usize) {
    let mut share = |name: &str, least: usize, property: &dyn Fn(&Pair) -> bool| {
        tally.share(name, pairs.iter().filter(|pair| property(pair)).count(), least);
    };
    let moves = |p: &Pair| p.subject.model.init != p.subject.model.target;
    share("pairs", 300, &|_| true);
    share("satisfiable", 120, &|p| p.has_run);
    share("satisfiable, by an edge", 90, &|p| p.has_run && moves(p));
    share("unsatisfiable", 120, &|p| !p.has_run);
    share("unsatisfiable, though edges lead to the target in time", 50, &|p| !p.has_run && linked(&p.subject.model, p.bound));
    share("unsatisfiable, the target being the initial location", 10, &|p| !p.has_run && !moves(p));
    share("bound 8 or more", 80, &|p| p.bound >= 8);
    share("bound 32 or more", 15, &|p| p.bound >= 32);
    for (name, least, property) in MODEL_SHARES {
        share(name, least, &|p| property(&p.subject.model));
    }
    tally.share("given to all three solvers", by_all, 100);
}

type ModelShare = (&'static str, usize, fn(&Model) -> bool);

/// What models must have, and how many at least.
const MODEL_SHARES: [ModelShare; 15] = [
    ("with clocks", 150, |m| m.clocks > 0),
    ("with counters", 150, |m| m.counters > 0),
    ("with an invariant", 100, |m| m.invariant.iter().any(|atoms| *atoms != NO_ATOMS)),
    ("with a guard on a clock", 100, |m| guarded(m, |atom| matches!(atom, Atom::Clock(_)))),
    ("with a guard on a counter", 100, |m| guarded(m, |atom| matches!(atom, Atom::Counter(_)))),
    ("with a constant update", 100, |m| updates(m, |update| matches!(update, Update::Constant(_)))),
    ("with a sum update", 100, |m| updates(m, |update| matches!(update, Update::Sum { .. }))),
    ("with an update that reads a counter set earlier", 60, |m| {
        m.used_edges().iter().any(|e| e.later_readers().next().is_some())
    }),
    ("with a reset", 100, |m| m.used_edges().iter().any(|e| e.clock_updates.contains(&ClockUpdate::Reset))),
    ("with a copy of another clock", 100, |m| copies(m, |_, clock, source| source != clock)),
    ("with a copy of a clock to itself", 60, |m| copies(m, |_, clock, source| source == clock)),
    ("with two clocks that are exchanged", 60, |m| {
        copies(m, |e, clock, source| source != clock && e.clock_updates[usize::from(source)] == ClockUpdate::Copy(clock))
    }),
    ("with a copy of a clock that is reset", 40, |m| {
        copies(m, |e, _, source| e.clock_updates[usize::from(source)] == ClockUpdate::Reset)
    }),
    ("with a label other than 0", 150, labelled),
    ("with a private edge beside one that is not", 100, |m| labelled(m) && m.used_edges().iter().any(|e| e.label == 0)),
];

fn guarded(model: &Model, sort: fn(&Atom) -> bool) -> bool {
    model.used_edges().iter().any(|edge| edge.guard.iter().any(sort))
}

fn updates(model: &Model, sort: fn(&Update) -> bool) -> bool {
    model.used_edges().iter().any(|edge| edge.updates.iter().any(sort))
}

fn labelled(model: &Model) -> bool {
    model.used_edges().iter().any(|edge| edge.label != 0)
}

/// Whether some edge has such a copy; it is given the edge, the clock set and the clock copied from.
fn copies(model: &Model, sort: fn(&Edge, u8, u8) -> bool) -> bool {
    model.used_edges().iter().any(|edge| edge.copies().any(|(clock, source)| sort(edge, clock, source)))
}

/// Whether at most `bound` edges lead from the initial location to the target,
/// guards, ranges and invariants left aside.
fn linked(model: &Model, bound: usize) -> bool {
    let mut reached = vec![model.init];
    for _ in 0..bound {
        let before = reached.clone();
        let edges = model.used_edges().iter();
        reached.extend(edges.filter(|e| before.contains(&e.source)).map(|e| e.target));
        reached.sort_unstable();
        reached.dedup();
    }
    reached.contains(&model.target)
}
