//! A model text taken apart, for traces, pictures and reasons. The proved reader has accepted the text before; what is read off it
//! here is not proved, and no verdict depends on it.

use std::fmt;

use crate::items;

/// What an atom compares: a clock or a counter, by its number.
#[derive(Clone, Copy, Debug, PartialEq, Eq)]
pub enum Term {
    Clock(usize),
    Counter(usize),
}

#[derive(Clone, Copy, Debug, PartialEq, Eq)]
pub enum Relation {
    Less,
    AtMost,
    Equal,
    AtLeast,
    More,
    Differs,
}

#[derive(Clone, Copy, Debug, PartialEq, Eq)]
pub struct Atom {
    pub term: Term,
    pub relation: Relation,
    pub constant: usize,
}

/// What a counter is set to.
#[derive(Clone, Copy, Debug, PartialEq, Eq)]
pub enum Value {
    Constant(usize),
    /// Another counter, or the same, plus an offset.
    Sum(usize, isize),
}

/// What a clock is set to by the reset line: 0 or another clock.
#[derive(Clone, Copy, Debug, PartialEq, Eq)]
pub enum Reset {
    Zero,
    Copy(usize),
}

#[derive(Clone, Debug, PartialEq, Eq)]
pub struct Edge {
    pub source: usize,
    pub target: usize,
    pub label: usize,
    pub guard: Vec<Atom>,
    /// The counters that are set, in their written order.
    pub updates: Vec<(usize, Value)>,
    pub resets: Vec<(usize, Reset)>,
}

#[derive(Clone, Copy, Debug, PartialEq, Eq)]
pub struct Counter {
    pub greatest: usize,
    pub initial: usize,
}

#[derive(Clone, Debug, Default, PartialEq, Eq)]
pub struct Drawing {
    pub initial: usize,
    pub target: usize,
    pub clocks: usize,
    pub counters: Vec<Counter>,
    /// An invariant for each location.
    pub invariants: Vec<Vec<Atom>>,
    pub edges: Vec<Edge>,
}

impl Relation {
    /// Those of two characters before those of one that they begin with.
    pub const ALL: [Relation; 6] =
        [Relation::AtMost, Relation::AtLeast, Relation::Differs, Relation::Less, Relation::Equal, Relation::More];

    pub fn sign(self) -> &'static str {
        match self {
            Relation::Less => "<",
            Relation::AtMost => "<=",
            Relation::Equal => "=",
            Relation::AtLeast => ">=",
            Relation::More => ">",
            Relation::Differs => "!=",
        }
    }

    pub fn holds(self, value: usize, constant: usize) -> bool {
        match self {
            Relation::Less => value < constant,
            Relation::AtMost => value <= constant,
            Relation::Equal => value == constant,
            Relation::AtLeast => value >= constant,
            Relation::More => value > constant,
            Relation::Differs => value != constant,
        }
    }
}

impl fmt::Display for Term {
    fn fmt(&self, out: &mut fmt::Formatter) -> fmt::Result {
        match self {
            Term::Clock(index) => write!(out, "x{}", index),
            Term::Counter(index) => write!(out, "v{}", index),
        }
    }
}

impl Drawing {
    /// The drawing of an accepted text; none if the text is not of the form that was accepted.
    pub fn of(text: &[u8]) -> Option<Drawing> {
        let mut drawing = Drawing::default();
        let mut edge = None;
        for line in std::str::from_utf8(text).ok()?.lines() {
            let (key, value) = line.split_once('=')?;
            match key {
                "init" => drawing.initial = items::number(value)?,
                "target" => drawing.target = items::number(value)?,
                "clocks" => drawing.clocks = items::number(value)?,
                "var" => drawing.counters.push(items::counter(value)?),
                "inv" => drawing.invariants.push(items::list(value, items::clock_atom)?),
                "locations" | "vars" | "edges" => {}
                "from" => edge = Some(Edge::from(items::number(value)?)),
                _ => edge.as_mut()?.take(key, value)?,
            }
            if key == "reset" {
                drawing.edges.push(edge.take()?);
            }
        }
        Some(drawing)
    }

    pub fn locations(&self) -> usize {
        self.invariants.len()
    }

    /// Whether an edge bears a label.
    pub fn bears(&self, label: usize) -> bool {
        self.edges.iter().any(|edge| edge.label == label)
    }
}

impl Edge {
    /// Whether the edge is taken alone where its model is composed with another.
    pub fn is_alone_beside(&self, other: &Drawing) -> bool {
        self.label == 0 || !other.bears(self.label)
    }

    fn from(source: usize) -> Edge {
        Edge { source, target: 0, label: 0, guard: Vec::new(), updates: Vec::new(), resets: Vec::new() }
    }

    fn take(&mut self, key: &str, value: &str) -> Option<()> {
        match key {
            "to" => self.target = items::number(value)?,
            "label" => self.label = items::number(value)?,
            "when" => self.guard = items::list(value, items::atom)?,
            "set" => self.updates = items::list(value, items::update)?,
            "reset" => self.resets = items::list(value, items::reset)?,
            _ => return None,
        }
        Some(())
    }
}

#[cfg(test)]
mod tests {
    use super::{Atom, Counter, Drawing, Edge, Relation, Reset, Term, Value};

    const TEXT: &str = "locations=2\ninit=0\ntarget=1\nclocks=2\nvars=2\nvar=31,7\nvar=1,0\ninv=x0<=3,x1>30\ninv=-\nedges=2\n\
                        from=1\nto=0\nlabel=15\nwhen=x1=0,v0!=31,v1>=1,x0<2\nset=v1:=v0-31,v0:=5\nreset=x0:=x1,x1\n\
                        from=0\nto=1\nlabel=0\nwhen=-\nset=v0:=v1+0\nreset=-\n";

    fn of(term: Term, relation: Relation, constant: usize) -> Atom {
        Atom { term, relation, constant }
    }

    #[test]
    fn every_line_is_taken_apart() {
        let drawing = Drawing::of(TEXT.as_bytes()).unwrap();
        assert_eq!((drawing.initial, drawing.target, drawing.clocks, drawing.locations()), (0, 1, 2, 2));
        assert_eq!(drawing.counters, [Counter { greatest: 31, initial: 7 }, Counter { greatest: 1, initial: 0 }]);
        let bounds = vec![of(Term::Clock(0), Relation::AtMost, 3), of(Term::Clock(1), Relation::More, 30)];
        assert_eq!(drawing.invariants, [bounds, vec![]]);
        let first = Edge {
            source: 1,
            target: 0,
            label: 15,
            guard: vec![
                of(Term::Clock(1), Relation::Equal, 0),
                of(Term::Counter(0), Relation::Differs, 31),
                of(Term::Counter(1), Relation::AtLeast, 1),
                of(Term::Clock(0), Relation::Less, 2),
            ],
            updates: vec![(1, Value::Sum(0, -31)), (0, Value::Constant(5))],
            resets: vec![(0, Reset::Copy(1)), (1, Reset::Zero)],
        };
        let second = Edge { target: 1, updates: vec![(0, Value::Sum(1, 0))], ..Edge::from(0) };
        assert_eq!(drawing.edges, [first, second]);
        assert!(drawing.bears(15) && drawing.bears(0) && !drawing.bears(1));
    }

    #[test]
    fn a_text_of_another_form_has_none() {
        for text in ["locations", "from=x\n", "to=1\n", "inv=y0<1\n", "inv=x0\n", "var=1\n", "kind=0\n", "from=0\nset=v0:=x1+1\n"]
        {
            assert_eq!(Drawing::of(text.as_bytes()), None, "{}", text);
        }
        assert_eq!(Drawing::of(b"\xff"), None);
    }

    #[test]
    fn relations_hold_at_both_sides_of_a_constant() {
        let held = |relation: Relation| [1, 2, 3].map(|value| relation.holds(value, 2));
        assert_eq!(held(Relation::Less), [true, false, false]);
        assert_eq!(held(Relation::AtMost), [true, true, false]);
        assert_eq!(held(Relation::Equal), [false, true, false]);
        assert_eq!(held(Relation::AtLeast), [false, true, true]);
        assert_eq!(held(Relation::More), [false, false, true]);
        assert_eq!(held(Relation::Differs), [true, false, true]);
    }
}
