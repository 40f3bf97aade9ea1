//! Propagation beside a plain one that looks at every clause again and again.

use std::collections::BTreeSet;

use super::{Part, Propagation, Value, NONE};
use crate::refutation::clauses::{opposite, variable, Clauses, Literal};

const VARIABLES: usize = 9;

struct Random(u64);

impl Random {
    fn below(&mut self, limit: usize) -> usize {
        self.0 = self.0.wrapping_mul(6_364_136_223_846_793_005).wrapping_add(1_442_695_040_888_963_407);
        (self.0 >> 33) as usize % limit
    }

    /// Literals of different variables.
    fn literals(&mut self, count: usize) -> Vec<Literal> {
        let mut variables: Vec<usize> = (1..=VARIABLES).collect();
        (0..count).map(|_| (2 * variables.swap_remove(self.below(variables.len())) + self.below(2)) as Literal).collect()
    }
}

/// All true literals; none if a clause is false.
fn plain(clauses: &[Vec<Literal>], assumed: &[Literal]) -> Option<BTreeSet<Literal>> {
    let mut truths: BTreeSet<Literal> = assumed.iter().copied().collect();
    loop {
        let before = truths.len();
        for clause in clauses {
            let left: Vec<Literal> = clause.iter().copied().filter(|literal| !truths.contains(&opposite(*literal))).collect();
            match left[..] {
                [] => return None,
                [only] => drop(truths.insert(only)),
                _ => (),
            }
        }
        if truths.len() == before {
            return Some(truths);
        }
    }
}

/// What is true, forced in order by clauses that are there.
fn assert_state(state: &Propagation, clauses: &Clauses, truths: &BTreeSet<Literal>, used: &[u32]) {
    assert_eq!(&state.trail.iter().copied().collect::<BTreeSet<_>>(), truths);
    for (place, literal) in state.trail.iter().enumerate() {
        assert_eq!((state.value(*literal), state.value(opposite(*literal))), (Value::True, Value::False));
        assert_eq!(state.place(variable(*literal)) as usize, place);
        let reason = state.reason_at(place as u32);
        if reason != NONE {
            assert!(used.contains(&reason) && state.is_reason(clauses, reason));
            let others = clauses.of(reason).iter().filter(|other| *other != literal);
            others.for_each(|other| assert!(state.trail[..place].contains(&opposite(*other))));
        }
    }
}

/// Clauses of which some are watched.
struct Case {
    rows: Vec<Vec<Literal>>,
    parts: Vec<Option<Part>>,
    clauses: Clauses,
    state: Propagation,
}

impl Case {
    fn new(random: &mut Random) -> Case {
        let rows: Vec<Vec<Literal>> = (0..24).map(|at| random.literals(2 + at % 3)).collect();
        let mut clauses = Clauses::new();
        for row in &rows {
            clauses.push(row);
        }
        Case { parts: vec![None; rows.len()], rows, clauses, state: Propagation::new(VARIABLES) }
    }

    /// Watches some clauses, moves or leaves out others.
    fn change(&mut self, random: &mut Random) {
        for _ in 0..8 {
            let clause = random.below(self.rows.len());
            for part in [Part::Core, Part::Rest] {
                assert_eq!(self.state.detach(part, &self.clauses, clause as u32), self.parts[clause] == Some(part));
            }
            self.parts[clause] = [None, Some(Part::Core), Some(Part::Rest)][random.below(3)];
            if let Some(part) = self.parts[clause] {
                self.state.attach(part, &self.clauses, clause as u32);
            }
        }
    }

    /// Propagates what is assumed, from nothing and back; how many literals were forced, none if a clause became false.
    fn propagated(&mut self, assumed: &[Literal]) -> Option<usize> {
        let used: Vec<u32> = (0..self.rows.len() as u32).filter(|clause| self.parts[*clause as usize].is_some()).collect();
        let there: Vec<Vec<Literal>> = used.iter().map(|clause| self.rows[*clause as usize].clone()).collect();
        assumed.iter().for_each(|literal| self.state.assign(*literal, NONE));
        let conflict = self.state.propagate(&mut self.clauses);
        let truths = plain(&there, assumed);
        match (&truths, conflict) {
            (Some(truths), None) => assert_state(&self.state, &self.clauses, truths, &used),
            (None, Some(conflict)) => {
                assert!(used.contains(&conflict));
                assert!(self.clauses.of(conflict).iter().all(|literal| self.state.value(*literal) == Value::False));
            }
            (truths, conflict) => panic!("{:?} {:?}", truths, conflict),
        }
        self.state.back_to(0);
        truths.map(|truths| truths.len() - assumed.len())
    }
}

#[test]
fn what_is_forced_becomes_true() {
    let mut random = Random(1);
    let (mut conflicts, mut forced) = (0, 0);
    for _ in 0..300 {
        let mut case = Case::new(&mut random);
        for _ in 0..12 {
            case.change(&mut random);
            let count = 1 + random.below(3);
            match case.propagated(&random.literals(count)) {
                Some(count) => forced += count,
                None => conflicts += 1,
            }
        }
    }
    assert!(conflicts > 300 && forced > 3000, "{} conflicts and {} forced literals are no test", conflicts, forced);
}
