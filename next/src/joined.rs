//! The drawing of two models composed (docs/MEANING.md, "Two models as one"), for pictures and reasons. It is not proved; that its edges
//! are those of the library's composed model is tested.

use crate::drawing::{Atom, Drawing, Edge, Reset, Term, Value};

/// How far the second model's numbers are shifted up.
struct Shift {
    clocks: usize,
    counters: usize,
}

/// The composed drawing: what the proved call composes from the same two texts.
pub fn joined(first: &Drawing, second: &Drawing) -> Drawing {
    let shift = Shift { clocks: first.clocks, counters: first.counters.len() };
    let shifted = shift.drawing(second);
    let count = second.locations();
    let pair = |i: usize, j: usize| i * count + j;
    let both = |one: &[Atom], other: &[Atom]| [one, other].concat();
    let mut drawing = Drawing {
        initial: pair(first.initial, second.initial),
        target: pair(first.target, second.target),
        clocks: first.clocks + second.clocks,
        counters: [&first.counters[..], &second.counters].concat(),
        invariants: Vec::new(),
        edges: Vec::new(),
    };
    for one in &first.invariants {
        drawing.invariants.extend(shifted.invariants.iter().map(|other| both(one, other)));
    }
    for edge in first.edges.iter().filter(|edge| edge.is_alone_beside(second)) {
        let placed = (0..count).map(|j| Edge { source: pair(edge.source, j), target: pair(edge.target, j), ..edge.clone() });
        drawing.edges.extend(placed);
    }
    for edge in shifted.edges.iter().filter(|edge| edge.is_alone_beside(first)) {
        let placed =
            (0..first.locations()).map(|i| Edge { source: pair(i, edge.source), target: pair(i, edge.target), ..edge.clone() });
        drawing.edges.extend(placed);
    }
    for one in first.edges.iter().filter(|edge| edge.label != 0) {
        let partners = shifted.edges.iter().filter(|other| other.label == one.label);
        drawing.edges.extend(partners.map(|other| Edge {
            source: pair(one.source, other.source),
            target: pair(one.target, other.target),
            label: one.label,
            guard: both(&one.guard, &other.guard),
            updates: [&one.updates[..], &other.updates].concat(),
            resets: [&one.resets[..], &other.resets].concat(),
        }));
    }
    drawing
}

impl Shift {
    fn drawing(&self, drawing: &Drawing) -> Drawing {
        let mut shifted = drawing.clone();
        shifted.invariants.iter_mut().for_each(|atoms| self.atoms(atoms));
        shifted.edges.iter_mut().for_each(|edge| self.edge(edge));
        shifted
    }

    fn atoms(&self, atoms: &mut [Atom]) {
        for atom in atoms {
            atom.term = match atom.term {
                Term::Clock(index) => Term::Clock(index + self.clocks),
                Term::Counter(index) => Term::Counter(index + self.counters),
            };
        }
    }

    fn edge(&self, edge: &mut Edge) {
        self.atoms(&mut edge.guard);
        for (counter, value) in &mut edge.updates {
            *counter += self.counters;
            if let Value::Sum(source, _) = value {
                *source += self.counters;
            }
        }
        for (clock, reset) in &mut edge.resets {
            *clock += self.clocks;
            if let Reset::Copy(source) = reset {
                *source += self.clocks;
            }
        }
    }
}

#[cfg(test)]
mod tests {
    use super::joined;
    use crate::drawing::{Drawing, Reset, Term, Value};

    fn drawing(edges: &str) -> Drawing {
        let head = "locations=2\ninit=0\ntarget=1\nclocks=1\nvars=1\nvar=3,1\ninv=x0<=3\ninv=-\nedges=2\n";
        Drawing::of(format!("{}{}", head, edges).as_bytes()).unwrap()
    }

    #[test]
    fn lone_edges_come_first_and_pairs_last() {
        let first =
            drawing("from=0\nto=1\nlabel=2\nwhen=x0>1\nset=v0:=v0+1\nreset=x0\nfrom=1\nto=0\nlabel=1\nwhen=-\nset=-\nreset=-\n");
        let second = drawing(
            "from=1\nto=0\nlabel=2\nwhen=v0=1\nset=v0:=v0-1\nreset=x0:=x0\nfrom=0\nto=1\nlabel=0\nwhen=-\nset=-\nreset=-\n",
        );
        let both = joined(&first, &second);
        assert_eq!((both.initial, both.target, both.clocks, both.counters.len(), both.locations()), (0, 3, 2, 2, 4));
        let ends: Vec<_> = both.edges.iter().map(|edge| (edge.source, edge.target, edge.label)).collect();
        // label 1 is the first's alone, and goes alone over both locations of the second; label 2 is shared
        assert_eq!(ends, [(2, 0, 1), (3, 1, 1), (0, 1, 0), (2, 3, 0), (1, 2, 2)]);
        let pair = &both.edges[4];
        assert_eq!(pair.guard.iter().map(|atom| atom.term).collect::<Vec<_>>(), [Term::Clock(0), Term::Counter(1)]);
        assert_eq!(pair.updates, [(0, Value::Sum(0, 1)), (1, Value::Sum(1, -1))]);
        assert_eq!(pair.resets, [(0, Reset::Zero), (1, Reset::Copy(1))]);
        assert_eq!(both.invariants.iter().map(Vec::len).collect::<Vec<_>>(), [2, 1, 1, 0]);
    }
}
