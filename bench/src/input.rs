//! The inputs beside the shipped models, and runs with their assignments.

use reference::assign::assignment_of;
use reference::gen::models;
use reference::gen::rng::Rng;
use reference::gen::runs::walk;
use reference::model::MAX_BOUND;
use reference::subject::Subject;

/// The bounds of the growth table.
pub const GROWTH: [usize; 4] = [8, 16, 32, MAX_BOUND];

/// The model with the greatest list, which has no run, and one at every limit
/// that has runs.
pub fn at_the_limits() -> Result<[Subject; 2], String> {
    Ok([Subject::new("largest", models::largest())?, Subject::new("full", models::full())?])
}

/// A run of `bound` steps and its assignment, from a fixed seed; none if
/// a few random walks find no run.
pub fn run(input: &Subject, bound: usize) -> Option<(Vec<u8>, Vec<u8>)> {
    let mut rng = Rng::new(1);
    (0..10_000).find_map(|_| {
        let (run, _) = walk(&mut rng, &input.model, bound);
        let assignment = assignment_of(&input.model, &run).ok()?;
        (run.len() == bound).then_some((run, assignment))
    })
}
