//! The trace of two models that are composed: for each step what each of them does and where it stands, in its own numbers. What a step is
//! for each part is told by the proved call; that location (i, j) is i times the second's locations plus j, and that the second's counters
//! and clocks stand after the first's, is used here to take a state apart.

use crate::library::{self, PartSteps, Shape, STAYS};
use crate::trace::{aligned, choice, clock, edge, Row};

/// What the composed model and its parts declare.
pub struct Shapes {
    pub joint: Shape,
    pub first: Shape,
    pub second: Shape,
}

impl Shapes {
    pub fn of(first: &[u8], second: &[u8]) -> Shapes {
        Shapes { joint: library::pair_shape(first, second), first: library::shape(first), second: library::shape(second) }
    }
}

/// The rows of a run of two texts, under a line of headings. A clock at the joint ceiling has a `+`.
pub fn table(first: &[u8], second: &[u8], rows: &[Row]) -> String {
    let steps = |byte| library::pair_parts(first, second, byte);
    lines(&Shapes::of(first, second), rows, steps)
}

fn lines(shapes: &Shapes, rows: &[Row], steps: impl Fn(u8) -> PartSteps) -> String {
    let mut lines = vec![headings(shapes)];
    lines.extend(rows.iter().enumerate().map(|(step, row)| cells(shapes, step, row, row.choice.map(&steps))));
    let second = 5 + usize::from(shapes.first.counters) + usize::from(shapes.first.clocks);
    aligned(&lines, &[1, 3, second])
}

fn headings(shapes: &Shapes) -> Vec<String> {
    let mut line: Vec<String> = ["step", "choice", "location"].map(str::to_string).to_vec();
    for (name, shape) in [("first", &shapes.first), ("second", &shapes.second)] {
        line.extend([name.to_string(), "at".to_string()]);
        line.extend((0..shape.counters).map(|index| format!("v{}", index)));
        line.extend((0..shape.clocks).map(|index| format!("x{}", index)));
    }
    line.push("elapsed".to_string());
    line
}

fn cells(shapes: &Shapes, step: usize, row: &Row, steps: Option<PartSteps>) -> Vec<String> {
    let Shapes { joint, first, second } = shapes;
    let taken = row.choice.map_or("-".to_string(), |byte| choice(joint.ceiling, byte, row.label));
    let location = row.state.location;
    let mut line = vec![step.to_string(), taken, location.to_string()];
    let own = |byte: Option<u8>, shape| byte.map_or("-".to_string(), |byte| part_choice(shape, byte));
    line.extend([own(steps.map(|steps| steps.first), first), (location / second.locations).to_string()]);
    line.extend(values(shapes, row, first, (0, 0)));
    line.extend([own(steps.map(|steps| steps.second), second), (location % second.locations).to_string()]);
    line.extend(values(shapes, row, second, (first.counters, first.clocks)));
    line.push(row.elapsed.to_string());
    line
}

/// What a part does, in its own numbers.
fn part_choice(shape: &Shape, byte: u8) -> String {
    match (byte, edge(shape.ceiling, byte)) {
        (STAYS, _) => "stays".to_string(),
        (_, None) => format!("delay {}", byte),
        (_, Some(edge)) => format!("edge {}", edge),
    }
}

/// The counters and clocks of a part, which stand in the joint state after some others.
fn values(shapes: &Shapes, row: &Row, part: &Shape, (counters, clocks): (u8, u8)) -> Vec<String> {
    let slots = |values: [u8; 4], before: u8, count: u8| values.into_iter().skip(usize::from(before)).take(usize::from(count));
    let mut cells: Vec<String> = slots(row.state.counters, counters, part.counters).map(|value| value.to_string()).collect();
    cells.extend(slots(row.state.clocks, clocks, part.clocks).map(|value| clock(shapes.joint.ceiling, value)));
    cells
}

#[cfg(test)]
mod tests {
    use super::{lines, Shapes};
    use crate::library::{PartSteps, Shape, State, STAYS};
    use crate::trace::Row;

    fn shape(locations: u8, counters: u8, clocks: u8, ceiling: usize) -> Shape {
        Shape { locations, counters, clocks, ceiling, ..Shape::default() }
    }

    fn row(choice: Option<u8>, label: u8, location: u8, counters: [u8; 4], clocks: [u8; 4], elapsed: usize) -> Row {
        Row { choice, label, state: State { location, counters, clocks }, elapsed }
    }

    fn steps(first: u8, second: u8) -> PartSteps {
        PartSteps { number: 0, line: 0, first, second }
    }

    #[test]
    fn each_part_has_its_own_numbers() {
        let shapes = Shapes { joint: shape(6, 3, 2, 9), first: shape(2, 1, 2, 4), second: shape(3, 2, 0, 9) };
        let rows = [
            row(None, 0, 0, [1, 2, 3, 0], [0; 4], 0),
            row(Some(9), 0, 0, [1, 2, 3, 0], [9, 9, 0, 0], 9),
            row(Some(11), 7, 5, [0, 2, 31, 0], [9, 0, 0, 0], 9),
            row(Some(10), 0, 2, [0, 2, 31, 0], [0; 4], 9),
            row(Some(13), 15, 1, [0, 2, 31, 0], [0; 4], 9),
        ];
        let told = |byte| match byte {
            9 => steps(4, 9),
            10 => steps(5, STAYS),
            11 => steps(6, 10),
            _ => steps(STAYS, 12),
        };
        let expected = "\
step  choice            location  first    at  v0  x0  x1  second   at  v0  v1  elapsed
   0  -                        0  -         0   1   0   0  -         0   2   3        0
   1  delay 9                  0  delay 4   0   1  9+  9+  delay 9   0   2   3        9
   2  edge 1, label 7          5  edge 1    1   0  9+   0  edge 0    2   2  31        9
   3  edge 0                   2  edge 0    0   0   0   0  stays     2   2  31        9
   4  edge 3, label 15         1  stays     0   0   0   0  edge 2    1   2  31        9
";
        assert_eq!(lines(&shapes, &rows, told), expected);
    }
}
