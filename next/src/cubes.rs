//! All bounds up to the last in one file for cadical, in its form `p inccnf`: the clauses of the last bound's list but for its target,
//! and a cube for each bound, which is its target alone. The list for a longer bound begins with that for a shorter one, but for the
//! shorter one's last clause, so a cube can be satisfied exactly if the bound's own list can.

use crate::library::Shape;

/// The variable that says that the state after so many steps is in the target: the one literal of the last clause of a bound's list.
pub fn target(shape: &Shape, bound: usize) -> usize {
    bound * (shape.state + shape.choices) + usize::from(shape.target) + 1
}

/// The file of cubes for the bounds 1 to `last`, from the list for the last.
pub fn file(shape: &Shape, last: usize, list: &[u8]) -> Vec<u8> {
    let mut lines: Vec<&[u8]> = list.split_inclusive(|byte| *byte == b'\n').collect();
    lines.pop();
    let mut file = b"p inccnf\n".to_vec();
    lines.iter().skip(1).for_each(|line| file.extend_from_slice(line));
    for bound in 1..=last {
        file.extend(format!("a {} 0\n", target(shape, bound)).bytes());
    }
    file
}

/// The first bound whose target is true under an assignment; the last bound if there is none, whose target is then found to be false.
pub fn first_reached(shape: &Shape, last: usize, assignment: &[u8]) -> usize {
    (1..last).find(|bound| assignment.get(target(shape, *bound) - 1) == Some(&1)).unwrap_or(last)
}

/// How far cadical is, from the comments that it prints while it runs: `c CUBE 17 UNSATISFIABLE in ..`.
#[derive(Default)]
pub struct Comments {
    /// Where the line begins that is not ended yet, and how much of all has been looked at.
    line: usize,
    seen: usize,
    /// The bounds that have no run, all from 1 to this one.
    pub refuted: usize,
}

impl Comments {
    /// Reads further in all that was printed so far, up to the last whole line.
    pub fn read(&mut self, printed: &[u8]) {
        for end in (self.seen..printed.len()).filter(|place| printed[*place] == b'\n') {
            if refuted(&printed[self.line..end]) == Some(self.refuted + 1) {
                self.refuted += 1;
            }
            self.line = end + 1;
        }
        self.seen = printed.len();
    }
}

/// The number of the cube that a line says is unsatisfiable.
fn refuted(line: &[u8]) -> Option<usize> {
    let mut words = std::str::from_utf8(line).ok()?.strip_prefix("c CUBE ")?.split(' ');
    let number = words.next()?.parse().ok()?;
    (words.next() == Some("UNSATISFIABLE")).then_some(number)
}

#[cfg(test)]
mod tests {
    use super::{file, first_reached, target, Comments};
    use crate::library::Shape;

    /// Model A: two locations, of which 1 is the target, delays 0 and 1, and an edge.
    const SHAPE: Shape = Shape {
        number: 0,
        line: 0,
        locations: 2,
        initial: 0,
        target: 1,
        clocks: 0,
        counters: 0,
        edges: 1,
        ceiling: 1,
        state: 2,
        choices: 3,
    };

    #[test]
    fn targets_stand_in_each_state() {
        assert_eq!([0, 1, 2, 64].map(|bound| target(&SHAPE, bound)), [2, 7, 12, 322]);
    }

    #[test]
    fn the_last_clause_is_dropped_and_cubes_are_added() {
        let list = b"p cnf 12 4\n1 2 0\n-1 0\n11 12 0\n12 0\n";
        let expected = "p inccnf\n1 2 0\n-1 0\n11 12 0\na 7 0\na 12 0\n";
        assert_eq!(String::from_utf8(file(&SHAPE, 2, list)).unwrap(), expected);
    }

    #[test]
    fn the_first_target_that_is_true_counts() {
        let mut assignment = [0; 17];
        assert_eq!(first_reached(&SHAPE, 3, &assignment), 3);
        assignment[16] = 1;
        assert_eq!(first_reached(&SHAPE, 3, &assignment), 3);
        assignment[11] = 1;
        assert_eq!(first_reached(&SHAPE, 3, &assignment), 2);
        assignment[6] = 1;
        // the empty run was walked before
        assignment[1] = 1;
        assert_eq!(first_reached(&SHAPE, 3, &assignment), 1);
    }

    #[test]
    fn comments_are_read_line_by_line() {
        let mut comments = Comments::default();
        let printed = b"c \nc CUBE 1 UNSATISFIABLE in 0.0 sec\nc CUBE 2 UNSATISFIABLE in 0.0 sec\nc CUBE 3 SATISFIABLE   in\n";
        let steps: Vec<usize> = [3, 20, 36, 37, 50, 73, printed.len()]
            .iter()
            .map(|length| {
                comments.read(&printed[..*length]);
                comments.refuted
            })
            .collect();
        assert_eq!(steps, [0, 0, 0, 1, 1, 2, 2]);
        for line in ["c CUBE 4 UNSATISFIABLE", "c CUBE", "CUBE 3 UNSATISFIABLE", "c CUBE x UNSATISFIABLE", "c CUBE 3 UNKNOWN"] {
            comments = Comments { refuted: 2, ..Comments::default() };
            comments.read(format!("{}\n", line).as_bytes());
            assert_eq!(comments.refuted, 2, "{}", line);
        }
    }
}
