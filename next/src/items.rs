//! The items of a model text's lines, read by the grammar of docs/FORMAT.md. Whether a number is within its range and what it names is
//! declared is not looked at here.

use crate::drawing::{Atom, Counter, Relation, Reset, Term, Value};

/// A number of 1 to 3 digits without a leading zero.
pub fn number(text: &str) -> Option<usize> {
    let digits = (1..=3).contains(&text.len()) && text.bytes().all(|byte| byte.is_ascii_digit());
    (digits && (text == "0" || !text.starts_with('0'))).then(|| text.parse().ok()).flatten()
}

/// The items of a value, parted by commas; a hyphen alone means none.
pub fn list<T>(value: &str, item: impl Fn(&str) -> Option<T>) -> Option<Vec<T>> {
    match value {
        "-" => Some(Vec::new()),
        _ => value.split(',').map(item).collect(),
    }
}

/// A counter's greatest and initial value.
pub fn counter(value: &str) -> Option<Counter> {
    let (greatest, initial) = value.split_once(',')?;
    Some(Counter { greatest: number(greatest)?, initial: number(initial)? })
}

fn clock_number(text: &str) -> Option<usize> {
    number(text.strip_prefix('x')?)
}

fn counter_number(text: &str) -> Option<usize> {
    number(text.strip_prefix('v')?)
}

/// An atom of a guard: `!=` is for counters only.
pub fn atom(text: &str) -> Option<Atom> {
    let relation = Relation::ALL.iter().copied().find(|relation| text.contains(relation.sign()))?;
    let (left, right) = text.split_once(relation.sign())?;
    let clock = clock_number(left).filter(|_| relation != Relation::Differs).map(Term::Clock);
    let term = clock.or_else(|| counter_number(left).map(Term::Counter))?;
    Some(Atom { term, relation, constant: number(right)? })
}

/// An atom of an invariant, which names a clock.
pub fn clock_atom(text: &str) -> Option<Atom> {
    atom(text).filter(|atom| matches!(atom.term, Term::Clock(_)))
}

/// A counter, and what it is set to. An offset of 0 is `+0`.
pub fn update(text: &str) -> Option<(usize, Value)> {
    let (left, right) = text.split_once(":=")?;
    let value = match right.find(['+', '-']) {
        None => Value::Constant(number(right)?),
        Some(place) => Value::Sum(counter_number(&right[..place])?, offset(&right[place..])?),
    };
    Some((counter_number(left)?, value))
}

fn offset(text: &str) -> Option<isize> {
    let size = number(text.get(1..)?)? as isize;
    match (text.starts_with('-'), size) {
        (true, 0) => None,
        (true, _) => Some(-size),
        (false, _) => Some(size),
    }
}

/// A clock, and what it is set to.
pub fn reset(text: &str) -> Option<(usize, Reset)> {
    match text.split_once(":=") {
        None => Some((clock_number(text)?, Reset::Zero)),
        Some((left, right)) => Some((clock_number(left)?, Reset::Copy(clock_number(right)?))),
    }
}

#[cfg(test)]
mod tests {
    use super::{atom, clock_atom, counter, list, number, reset, update};
    use crate::drawing::{Atom, Counter, Relation, Reset, Term, Value};

    #[test]
    fn numbers_have_one_to_three_digits() {
        assert_eq!(["0", "9", "10", "999"].map(number), [Some(0), Some(9), Some(10), Some(999)]);
        for text in ["", "00", "01", "1000", "+1", "-1", " 1", "1 ", "a", "\u{661}"] {
            assert_eq!(number(text), None, "{}", text);
        }
    }

    #[test]
    fn atoms_of_every_relation() {
        let of = |term, relation, constant| Some(Atom { term, relation, constant });
        assert_eq!(atom("x0<3"), of(Term::Clock(0), Relation::Less, 3));
        assert_eq!(atom("x3<=30"), of(Term::Clock(3), Relation::AtMost, 30));
        assert_eq!(atom("v0=0"), of(Term::Counter(0), Relation::Equal, 0));
        assert_eq!(atom("v2>=31"), of(Term::Counter(2), Relation::AtLeast, 31));
        assert_eq!(atom("x999>999"), of(Term::Clock(999), Relation::More, 999));
        assert_eq!(atom("v1!=1"), of(Term::Counter(1), Relation::Differs, 1));
        for text in
            ["", "x0", "x0!=1", "y0<1", "x<1", "x00<1", "x0<", "x0<01", "x0==1", "x0=<1", "x0=>1", "x0<=1=", "0<1", "x0 <1"]
        {
            assert_eq!(atom(text), None, "{}", text);
        }
        assert_eq!((clock_atom("x1>2"), clock_atom("v1>2")), (of(Term::Clock(1), Relation::More, 2), None));
    }

    #[test]
    fn updates_of_counters() {
        assert_eq!(update("v0:=31"), Some((0, Value::Constant(31))));
        assert_eq!(update("v1:=v0+0"), Some((1, Value::Sum(0, 0))));
        assert_eq!(update("v1:=v2-31"), Some((1, Value::Sum(2, -31))));
        for text in
            ["v0", "v0=1", "v0:=", "v0:=v1", "v0:=v1-0", "v0:=-1", "v0:=v1+v0", "v0:=v1+-1", "v0:=v1+", "x0:=1", "v0:=x1+1"]
        {
            assert_eq!(update(text), None, "{}", text);
        }
    }

    #[test]
    fn resets_and_copies_of_clocks() {
        assert_eq!(reset("x0"), Some((0, Reset::Zero)));
        assert_eq!(reset("x3:=x1"), Some((3, Reset::Copy(1))));
        for text in ["", "-", "x", "v0", "x0:=0", "x0:=v0", "x0:=x1+0", "x0=x1", "x0:=x1000"] {
            assert_eq!(reset(text), None, "{}", text);
        }
    }

    #[test]
    fn lists_and_counters() {
        assert_eq!(list("-", number), Some(Vec::new()));
        assert_eq!(list("1,22", number), Some(vec![1, 22]));
        for text in ["", "1,", ",1", "-,1", "1;2"] {
            assert_eq!(list(text, number), None, "{}", text);
        }
        assert_eq!(counter("31,7"), Some(Counter { greatest: 31, initial: 7 }));
        for text in ["3", "3,", "3,-", "3,1,1", "03,1"] {
            assert_eq!(counter(text), None, "{}", text);
        }
    }
}
