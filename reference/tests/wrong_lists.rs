//! "Ways to get a wrong list": for each, an assignment that only a list with
//! that fault would let pass is refused, and the walker agrees. For a copy of a
//! clock, whole wrong lists: the comparison of all their assignments with all runs
//! finds each.

mod common;

use std::collections::BTreeSet;

use common::{model, with_line, MODEL_A, MODEL_B};
use reference::assign::{assignment_of, run_of};
use reference::list::{clauses, Clause};
use reference::model::{variables, Model};
use reference::numbering::{Group, Numbering};
use reference::search::all_runs;
use reference::solve::all_solutions;
use reference::step::walk;

/// Makes `value` the one true member of a group.
fn set(group: Group, value: u32, assignment: &mut [u8]) {
    for member in group.members() {
        assignment[member as usize - 1] = u8::from(member == group.member(value));
    }
}

fn refusal(model: &Model, bound: usize, assignment: &[u8]) -> u32 {
    run_of(model, bound, assignment).map_or_else(|refusal| refusal.number, |_| 0)
}

/// Model A with one clock and these lines for the invariants and the edge.
fn clocked(inv_0: &str, inv_1: &str, when: &str, reset: &str) -> Model {
    let mut text = with_line(MODEL_A, 4, "clocks=1");
    for (line, value) in [(6, inv_0), (7, inv_1), (12, when), (14, reset)] {
        text = with_line(&text, line, value);
    }
    model(&text)
}

#[test]
fn counters_that_an_edge_does_not_set_stay() {
    let b = model(MODEL_B);
    let numbering = Numbering::of(&b);
    let good = assignment_of(&b, &[5, 3, 7]).unwrap();
    assert_eq!(refusal(&b, 3, &good), 0);
    for from in 1..=3 {
        let mut jumped = good.clone();
        for t in from..=3 {
            set(numbering.counter(t, 0), 1, &mut jumped);
        }
        assert_eq!(refusal(&b, 3, &jumped), 26, "from state {from} on");
    }
}

#[test]
fn two_edges_never_fire_at_once() {
    let twice = "from=0\nto=1\nlabel=0\nwhen=-\nset=-\nreset=-\n";
    let text = with_line(MODEL_A, 8, "edges=2") + twice;
    let both = model(&text);
    let numbering = Numbering::of(&both);
    let mut assignment = assignment_of(&both, &[2]).unwrap();
    assert_eq!(refusal(&both, 1, &assignment), 0);
    assignment[numbering.edge(1, 1) as usize - 1] = 1;
    assert_eq!(refusal(&both, 1, &assignment), 26);
}

#[test]
fn guards_are_tested_on_the_state_before() {
    // The edge resets the clock, so that its guard holds before or after only.
    let holds_before = clocked("inv=-", "inv=-", "when=x0>=1", "reset=x0");
    assert_eq!(walk(&holds_before, &[1, 3]), (0, 0));
    assert_eq!(walk(&holds_before, &[3]), (28, 1));
    let holds_after = clocked("inv=-", "inv=-", "when=x0<=0", "reset=x0");
    assert_eq!(walk(&holds_after, &[1, 2]), (28, 2));
    let numbering = Numbering::of(&holds_after);
    let mut assignment = assignment_of(&holds_after, &[0, 2]).unwrap();
    assert_eq!(refusal(&holds_after, 2, &assignment), 0);
    set(numbering.choices(1), 1, &mut assignment);
    set(numbering.clock(1, 0), 1, &mut assignment);
    assert_eq!(refusal(&holds_after, 2, &assignment), 26);
}

#[test]
fn invariants_are_tested_at_state_0_and_after_edges() {
    let at_start = clocked("inv=x0>=1", "inv=-", "when=-", "reset=-");
    assert_eq!(walk(&at_start, &[3]), (29, 0));
    let without = clocked("inv=-", "inv=-", "when=x0<=1", "reset=-");
    let same_blocks = assignment_of(&without, &[3]).unwrap();
    assert_eq!(refusal(&at_start, 1, &same_blocks), 26);
    let after_edge = clocked("inv=-", "inv=x0>=1", "when=-", "reset=-");
    assert_eq!(walk(&after_edge, &[3]), (28, 1));
    assert_eq!(refusal(&after_edge, 1, &same_blocks), 26);
}

#[test]
fn a_clock_at_the_ceiling_stays_there() {
    // The ceiling is 2: delays 0 to 2 from value 2 all lead to value 2.
    let stays = clocked("inv=-", "inv=-", "when=x0>1", "reset=-");
    let numbering = Numbering::of(&stays);
    let list = clauses(&stays, 1).unwrap();
    let (before, after) = (numbering.clock(0, 0), numbering.clock(1, 0));
    for ticks in 0..=2 {
        let delay = numbering.delay(1, ticks);
        assert!(list.contains(&vec![-delay, -before.member(2), after.member(2)]));
    }
    assert_eq!(walk(&stays, &[2, 2, 1, 0, 3]), (0, 0));
    assert_eq!(walk(&stays, &[1, 3]), (28, 2));
}

/// Two edges: the first resets x0, so that the clocks differ; the second saves x0 in
/// x1 and resets it.
const SAVES_LATER: &str = "\
locations=3
init=0
target=2
clocks=2
vars=0
inv=-
inv=-
inv=-
edges=2
from=0
to=1
label=0
when=x1>=1
set=-
reset=x0
from=1
to=2
label=0
when=-
set=-
reset=x0,x1:=x0
";
/// Enough steps for a delay before each edge.
const STEPS: u32 = 4;

/// The variable of the edge with the copy in one step, and the values of the clock
/// copied from and of the clock set, before and after.
struct Copied {
    edge: i32,
    source: [Group; 2],
    set: [Group; 2],
}

impl Copied {
    fn in_step(numbering: &Numbering, t: u32) -> Copied {
        let clock = |index| [numbering.clock(t - 1, index), numbering.clock(t, index)];
        Copied { edge: numbering.edge(t, 1), source: clock(0), set: clock(1) }
    }

    /// For each value: not edge, not the one, the other.
    fn carried(&self, from: Group, to: Group) -> Vec<Clause> {
        from.values().map(|value| vec![-self.edge, -from.member(value), to.member(value)]).collect()
    }

    fn right(&self) -> Vec<Clause> {
        self.carried(self.source[0], self.set[1])
    }
}

/// Clauses in place of those of a copy.
type Fault = fn(&Copied) -> Vec<Clause>;

const FAULTS: [(&str, Fault); 4] = [
    ("reads the new value", |copied| copied.carried(copied.source[1], copied.set[1])),
    ("acts as a reset", |copied| vec![vec![-copied.edge, copied.set[1].member(0)]]),
    ("acts as unchanged", |copied| copied.carried(copied.set[0], copied.set[1])),
    ("has its ends swapped", |copied| copied.carried(copied.set[0], copied.source[1])),
];

/// The list with other clauses for the copy in each step.
fn list_with(model: &Model, fault: Fault) -> Vec<Clause> {
    let numbering = Numbering::of(model);
    let mut list = clauses(model, STEPS as usize).unwrap();
    for copied in (1..=STEPS).map(|t| Copied::in_step(&numbering, t)) {
        let right = copied.right();
        let place = list.windows(right.len()).position(|found| found == right).unwrap();
        list.splice(place..place + right.len(), fault(&copied));
    }
    list
}

#[test]
fn copies_read_the_source_before_the_edge() {
    let saves = model(SAVES_LATER);
    let runs = all_runs(&saves, STEPS as usize).unwrap();
    assert!(runs.contains(&vec![1, 3, 1, 4]));
    let of_runs: BTreeSet<Vec<u8>> = runs.iter().map(|run| assignment_of(&saves, run).unwrap()).collect();
    let of_list = |list: &[Clause]| -> BTreeSet<Vec<u8>> {
        let variables = variables(&saves, STEPS as usize) as usize;
        all_solutions(list, variables, 1_000).unwrap().into_iter().collect()
    };
    assert_eq!(of_list(&list_with(&saves, Copied::right)), of_runs);
    for (name, fault) in FAULTS {
        let found = of_list(&list_with(&saves, fault));
        assert_ne!(found, of_runs, "a copy that {name}");
        for wrong in found.difference(&of_runs) {
            assert_eq!(refusal(&saves, STEPS as usize, wrong), 26, "a copy that {name}");
        }
    }
}
