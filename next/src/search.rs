//! The search for a shortest run with a solver. A run of fewer steps can be drawn out by delays of 0, so that a bound without a run has
//! none below it: all bounds are decided by one process of cadical, or by doubling a bound and then bisecting.

use std::time::Instant;

use crate::answer::Verdict;
use crate::check::decoded;
use crate::command::{file, sizes, steps};
use crate::cubes::{self, Comments};
use crate::library::{Shape, Sizes};
use crate::model::Model;
use crate::progress::Progress;
use crate::report::{status, Stop};
use crate::solver::Solver;
use crate::solving::{ask, Failure, Task};

/// What was found out, the time being over or not.
#[derive(Clone, Debug, Default, PartialEq, Eq)]
pub struct Found {
    /// The shortest run that is known; the proved walker has walked it.
    pub run: Option<Vec<u8>>,
    /// No run has at most so many steps: 0 by the proved walker, more by the solver's word.
    pub none_up_to: Option<usize>,
    /// The bound that was being solved when the time was over.
    pub unfinished: Option<usize>,
}

/// A search on its way.
pub struct Search<'a> {
    pub model: &'a Model,
    pub shape: Shape,
    pub solver: &'a Solver,
    pub deadline: Option<Instant>,
    pub progress: Progress<'a>,
}

/// The advice where cadical's answer to cubes is none.
const ONE_BY_ONE: &str =
    "\n    all bounds were given to it in one file (p inccnf); --solver 'cadical -q' gives it a list at a time";

impl Search<'_> {
    /// Looks at one bound.
    pub fn exactly(&mut self, bound: usize) -> Result<Found, Stop> {
        Ok(match self.list(bound)? {
            None => Found { unfinished: Some(bound), ..Found::default() },
            Some(Verdict::Unsatisfiable) => Found { none_up_to: Some(bound), ..Found::default() },
            Some(Verdict::Satisfiable(assignment)) => Found { run: Some(self.run(bound, &assignment)?), ..Found::default() },
        })
    }

    /// Looks for a shortest run of 1 to `last` steps, the empty run being none.
    pub fn up_to(&mut self, last: usize) -> Result<Found, Stop> {
        match self.solver {
            Solver::Cadical => self.by_cubes(last),
            _ => self.by_halves(last),
        }
    }

    /// One process decides all bounds, in their order.
    fn by_cubes(&mut self, last: usize) -> Result<Found, Stop> {
        let sizes = sizes(self.model, last)?;
        let input = cubes::file(&self.shape, last, &file(self.model, last)?);
        let clauses = sizes.clauses - 1;
        self.progress.line(&format!("bounds 1 to {} in one file: {} variables, {} clauses", last, sizes.variables, clauses));
        let (refuted, answer) = self.cubes(last, Task { input, cubes: true, variables: sizes.variables });
        match answer {
            Ok(Verdict::Unsatisfiable) => Ok(Found { none_up_to: Some(last), ..Found::default() }),
            Ok(Verdict::Satisfiable(assignment)) => {
                let bound = cubes::first_reached(&self.shape, last, &assignment);
                let variables = self.model.counts(bound).variables;
                let run = self.run(bound, &assignment[..variables])?;
                self.progress.decided(bound, "satisfiable");
                Ok(Found { run: Some(run), none_up_to: Some(bound - 1), unfinished: None })
            }
            Err(Failure::Time(_)) => Ok(Found { none_up_to: Some(refuted), unfinished: Some(last.min(refuted + 1)), run: None }),
            Err(failure) => Err(no_answer(&failure, if matches!(failure, Failure::Answer(..)) { ONE_BY_ONE } else { "" })),
        }
    }

    /// What cadical says of cubes, and up to which bound its comments deny a run.
    fn cubes(&mut self, last: usize, task: Task) -> (usize, Result<Verdict, Failure>) {
        let (mut comments, mut refuted) = (Comments::default(), 0);
        let progress = &mut self.progress;
        let mut watch = |printed: &[u8]| {
            comments.read(printed);
            for bound in refuted + 1..=last.min(comments.refuted) {
                progress.decided(bound, "unsatisfiable");
                refuted = bound;
            }
            progress.solving(last.min(refuted + 1));
        };
        watch(&[]);
        let answer = ask(self.solver, task, self.deadline, &mut watch);
        (refuted, answer)
    }

    /// Doubles the bound until there is a run, and then bisects between the greatest bound without one and the shortest run.
    fn by_halves(&mut self, last: usize) -> Result<Found, Stop> {
        let mut found = Found { none_up_to: Some(0), ..Found::default() };
        let mut none = 0;
        while none < last {
            let bound = match &found.run {
                None => last.min((2 * none).max(1)),
                Some(run) if run.len() == none + 1 => break,
                Some(run) => (none + run.len()) / 2,
            };
            match self.list(bound)? {
                None => {
                    found.unfinished = Some(bound);
                    break;
                }
                Some(Verdict::Unsatisfiable) => {
                    none = bound;
                    found.none_up_to = Some(none);
                }
                Some(Verdict::Satisfiable(assignment)) => found.run = Some(self.shortened(bound, none, &assignment)?),
            }
        }
        Ok(found)
    }

    /// What the solver says of the list for a bound; none if the time is over.
    fn list(&mut self, bound: usize) -> Result<Option<Verdict>, Stop> {
        let Sizes { variables, clauses, .. } = sizes(self.model, bound)?;
        let task = Task { input: file(self.model, bound)?, cubes: false, variables };
        let progress = &mut self.progress;
        progress.solving(bound);
        let verdict = match ask(self.solver, task, self.deadline, &mut |_| progress.solving(bound)) {
            Err(Failure::Time(_)) => return Ok(None),
            answer => answer.map_err(|failure| no_answer(&failure, ""))?,
        };
        let said = match verdict {
            Verdict::Satisfiable(_) => "satisfiable",
            Verdict::Unsatisfiable => "unsatisfiable",
        };
        self.progress.decided(bound, &format!("{} variables, {} clauses, {}", variables, clauses, said));
        Ok(Some(verdict))
    }

    /// The run of the solver's assignment for a bound, which is believed only if the proved calls take it.
    fn run(&self, bound: usize, assignment: &[u8]) -> Result<Vec<u8>, Stop> {
        decoded(self.model, bound, &format!("the assignment of {}", self.solver.name()), assignment)
    }

    /// The run of an assignment up to where it first is in the target: the rest is not needed. `none` is a bound that the solver said has
    /// no run.
    fn shortened(&self, bound: usize, none: usize, assignment: &[u8]) -> Result<Vec<u8>, Stop> {
        let mut run = self.run(bound, assignment)?;
        let reached = (0..bound).find(|steps| self.model.walk(&run[..*steps]).number == 0).unwrap_or(bound);
        if reached <= none {
            let denied = format!("the solver {} contradicts itself: it found no run of {}", self.solver.name(), steps(none));
            let message = format!("{}, and now one that is in the target after {}", denied, steps(reached));
            return Err(Stop::new(status::WRONG_ANSWER, message));
        }
        run.truncate(reached);
        Ok(run)
    }
}

/// The ending without an answer, and an advice if there is one.
fn no_answer(failure: &Failure, advice: &str) -> Stop {
    let refusal = match failure {
        Failure::Answer(_, _, refused) => refused.refusal,
        _ => None,
    };
    Stop { status: status::NO_SOLVER, message: format!("{}{}", failure, advice), refusal }
}
