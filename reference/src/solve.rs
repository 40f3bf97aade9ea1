//! A small solver that knows nothing of automata: all satisfying assignments of
//! a clause list, by backtracking in the order of the variables.

use crate::assign::is_true;

/// All satisfying assignments, in falling order of their bytes. None if there
/// are more than `limit`.
pub fn all_solutions(clauses: &[Vec<i32>], variables: usize, limit: usize) -> Option<Vec<Vec<u8>>> {
    let mut search =
        Search { due: clauses_by_last_variable(clauses, variables), assignment: Vec::new(), found: Vec::new(), limit };
    if search.due[0].is_empty() {
        search.extend(variables);
    }
    (search.found.len() <= limit).then_some(search.found)
}

/// Entry v holds the clauses whose greatest variable is v: they can be judged
/// as soon as v has its value. Entry 0 holds empty clauses.
fn clauses_by_last_variable(clauses: &[Vec<i32>], variables: usize) -> Vec<Vec<&[i32]>> {
    let mut due = vec![Vec::new(); variables + 1];
    for clause in clauses {
        let last = clause.iter().map(|literal| literal.unsigned_abs() as usize).max();
        due[last.unwrap_or(0)].push(clause.as_slice());
    }
    due
}

struct Search<'a> {
    due: Vec<Vec<&'a [i32]>>,
    assignment: Vec<u8>,
    found: Vec<Vec<u8>>,
    limit: usize,
}

impl Search<'_> {
    fn extend(&mut self, variables: usize) {
        if self.found.len() > self.limit {
            return;
        }
        if self.assignment.len() == variables {
            self.found.push(self.assignment.clone());
            return;
        }
        for value in [1, 0] {
            self.assignment.push(value);
            if self.due_clauses_hold() {
                self.extend(variables);
            }
            self.assignment.pop();
        }
    }

    fn due_clauses_hold(&self) -> bool {
        let assignment = &self.assignment;
        self.due[assignment.len()].iter().all(|clause| clause.iter().any(|literal| is_true(*literal, assignment)))
    }
}
