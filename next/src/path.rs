//! Where a run goes in the drawing, by the numbers of its steps. The states come from the proved step call.

use crate::drawing::Drawing;
use crate::subject::Subject;
use crate::trace;

pub struct Path {
    /// Whether a location was visited.
    pub visited: Vec<bool>,
    /// For each location the delays there, each with the steps that took it.
    pub delays: Vec<Vec<(u8, Vec<usize>)>>,
    /// For each edge the steps that took it.
    pub taken: Vec<Vec<usize>>,
}

impl Path {
    pub fn none(drawing: &Drawing) -> Path {
        let (locations, edges) = (drawing.locations(), drawing.edges.len());
        Path { visited: vec![false; locations], delays: vec![Vec::new(); locations], taken: vec![Vec::new(); edges] }
    }

    /// The path of a run as far as it is allowed.
    pub fn of(subject: &Subject, run: &[u8]) -> Path {
        let mut path = Path::none(&subject.whole.drawing);
        for (step, row) in trace::rows(subject, run).iter().enumerate() {
            let location = usize::from(row.state.location);
            path.visited[location] = true;
            match row.choice.map(|byte| (byte, trace::edge(subject.shape().ceiling, byte))) {
                None => {}
                Some((ticks, None)) => path.delay(location, ticks, step),
                Some((_, Some(edge))) => path.taken[edge].push(step),
            }
        }
        path
    }

    fn delay(&mut self, location: usize, ticks: u8, step: usize) {
        let delays = &mut self.delays[location];
        match delays.iter_mut().find(|(known, _)| *known == ticks) {
            Some((_, steps)) => steps.push(step),
            None => delays.push((ticks, vec![step])),
        }
    }
}
