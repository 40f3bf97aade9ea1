//! The model text ("Model text"): reader with refusals 1 to 8, writer, and the
//! bound line (9).
//!
//! Each due line is tried whole in the order 2, 3, 7, 4, 5, 6: each number over
//! all items of the line before the next number. So a line is first taken apart
//! by its form into plain numbers, and these are then tested stage by stage.

use std::ops::RangeInclusive;

use crate::model::{
    test_record, Atom, Atoms, ClockUpdate, Counter, Edge, Model, Order, Relation, Update, MAX_ATOMS, MAX_CLOCKS,
    MAX_CLOCK_CONSTANT, MAX_COUNTERS, MAX_COUNTER_VALUE, MAX_EDGES, MAX_LABEL, MAX_LOCATIONS, MAX_OFFSET, NO_ATOMS,
};
use crate::refusal::{
    Refusal, BYTES_LEFT, NOT_DECLARED, OUT_OF_RANGE, SET_TWICE_OR_NOT_RISING, TEXT_TOO_LONG, TOO_MANY_ITEMS, WRONG_BOUND_LINE,
    WRONG_FORM, WRONG_LINE,
};

/// Most bytes of a model text.
pub const MAX_TEXT: usize = 8192;

/// What a read returns: number 0 and line 0 with the model, or the refusal's
/// number and line with the blank model.
#[derive(Clone, PartialEq, Eq, Debug)]
pub struct Reading {
    pub refusal: u32,
    pub line: u32,
    pub model: Model,
}

/// Reads a whole model text.
pub fn read(text: &[u8]) -> Reading {
    match read_whole(text) {
        Ok(model) => Reading { refusal: 0, line: 0, model },
        Err(refusal) => Reading { refusal: refusal.number, line: refusal.place, model: Model::blank() },
    }
}

/// The model of a whole text, or the refusal with its line: 1, then the due
/// lines, then 8 with the line after the last.
pub fn read_whole(text: &[u8]) -> Result<Model, Refusal> {
    if text.len() > MAX_TEXT {
        return Err(Refusal::plain(TEXT_TOO_LONG));
    }
    let mut reader = Reader { text, position: 0, line: 0 };
    let model = reader.model()?;
    if reader.position < text.len() {
        return Err(Refusal::at(BYTES_LEFT, reader.line + 1));
    }
    Ok(model)
}

/// Parts a program's input into its bound and the rest, or refuses with 9. The
/// bound is any number of the text's form, 0 to 999.
pub fn read_bound_line(input: &[u8]) -> Result<(u32, &[u8]), Refusal> {
    let refusal = Refusal::plain(WRONG_BOUND_LINE);
    let end = input.iter().position(|byte| *byte == b'\n').ok_or(refusal)?;
    let value = input[..end].strip_prefix(b"bound=").ok_or(refusal)?;
    let bound = whole_number(value).ok_or(refusal)?;
    Ok((bound, &input[end + 1..]))
}

/// The text, the place in it, and the number of the line last begun.
struct Reader<'a> {
    text: &'a [u8],
    position: usize,
    line: u32,
}

impl<'a> Reader<'a> {
    /// All due lines in order.
    fn model(&mut self) -> Result<Model, Refusal> {
        let mut model = Model::blank();
        model.locations = self.number_line("locations", 1..=MAX_LOCATIONS as u32)?;
        model.init = self.location_line("init", &model)?;
        model.target = self.location_line("target", &model)?;
        model.clocks = self.number_line("clocks", 0..=MAX_CLOCKS as u32)?;
        model.counters = self.number_line("vars", 0..=MAX_COUNTERS as u32)?;
        for index in 0..usize::from(model.counters) {
            model.counter[index] = self.counter_line()?;
        }
        for index in 0..usize::from(model.locations) {
            model.invariant[index] = self.atoms_line("inv", &model)?;
        }
        model.edges = self.number_line("edges", 0..=MAX_EDGES as u32)?;
        for index in 0..usize::from(model.edges) {
            model.edge[index] = self.edge_lines(&model)?;
        }
        Ok(model)
    }

    fn edge_lines(&mut self, model: &Model) -> Result<Edge, Refusal> {
        let source = self.location_line("from", model)?;
        let target = self.location_line("to", model)?;
        let label = self.number_line("label", 0..=u32::from(MAX_LABEL))?;
        let guard = self.atoms_line("when", model)?;
        let (updates, order) = self.set_line(model)?;
        let clock_updates = self.reset_line(model)?;
        Ok(Edge { source, target, label, guard, updates, order, clock_updates })
    }

    /// The value of the due line, or 2: no LF, or not the due key and `=`.
    fn due_line(&mut self, key: &str) -> Result<&'a [u8], Refusal> {
        self.line += 1;
        let rest = &self.text[self.position..];
        let end = self.need(rest.iter().position(|byte| *byte == b'\n'), WRONG_LINE)?;
        let after_key = self.need(rest[..end].strip_prefix(key.as_bytes()), WRONG_LINE)?;
        let value = self.need(after_key.strip_prefix(b"="), WRONG_LINE)?;
        self.position += end + 1;
        Ok(value)
    }

    /// What is there, or a refusal in the present line.
    fn need<T>(&self, found: Option<T>, number: u32) -> Result<T, Refusal> {
        found.ok_or_else(|| Refusal::at(number, self.line))
    }

    /// A refusal in the present line unless the condition holds.
    fn test(&self, condition: bool, number: u32) -> Result<(), Refusal> {
        self.need(condition.then_some(()), number)
    }

    /// A line with one number of a range: 2, 3, 4.
    fn number_line(&mut self, key: &str, range: RangeInclusive<u32>) -> Result<u8, Refusal> {
        let value = self.due_line(key)?;
        let number = self.need(whole_number(value), WRONG_FORM)?;
        self.test(range.contains(&number), OUT_OF_RANGE)?;
        Ok(number as u8)
    }

    /// A line that names a location: 2, 3, 5.
    fn location_line(&mut self, key: &str, model: &Model) -> Result<u8, Refusal> {
        let value = self.due_line(key)?;
        let number = self.need(whole_number(value), WRONG_FORM)?;
        self.test(number < u32::from(model.locations), NOT_DECLARED)?;
        Ok(number as u8)
    }

    /// A counter's greatest and initial value: 2, 3, 4.
    fn counter_line(&mut self) -> Result<Counter, Refusal> {
        let value = self.due_line("var")?;
        let (greatest, initial) = self.need(counter_form(value), WRONG_FORM)?;
        self.test(greatest <= u32::from(MAX_COUNTER_VALUE), OUT_OF_RANGE)?;
        self.test(initial <= greatest, OUT_OF_RANGE)?;
        Ok(Counter { greatest: greatest as u8, initial: initial as u8 })
    }

    /// An invariant (`inv`, clock atoms alone) or a guard (`when`): 2, 3, 7, 4, 5.
    fn atoms_line(&mut self, key: &str, model: &Model) -> Result<Atoms, Refusal> {
        let value = self.due_line(key)?;
        let counters_too = key == "when";
        let found = items(value, |item| atom_form(item, counters_too));
        let found = self.need(found, WRONG_FORM)?;
        self.test(found.len() <= MAX_ATOMS, TOO_MANY_ITEMS)?;
        self.test(found.iter().all(AtomItem::in_range), OUT_OF_RANGE)?;
        self.test(found.iter().all(|item| item.declared(model)), NOT_DECLARED)?;
        let mut atoms = NO_ATOMS;
        for (slot, item) in atoms.iter_mut().zip(&found) {
            *slot = item.atom();
        }
        Ok(atoms)
    }

    /// An edge's updates and the order in which they are written: 2, 3, 4, 5, 6.
    fn set_line(&mut self, model: &Model) -> Result<([Update; MAX_COUNTERS], Order), Refusal> {
        let value = self.due_line("set")?;
        let found = self.need(items(value, set_form), WRONG_FORM)?;
        self.test(found.iter().all(SetItem::in_range), OUT_OF_RANGE)?;
        self.test(found.iter().all(|item| item.declared(model)), NOT_DECLARED)?;
        let set_before = |place: usize| found[..place].iter().any(|item| item.counter == found[place].counter);
        self.test(!(0..found.len()).any(set_before), SET_TWICE_OR_NOT_RISING)?;
        let (mut updates, mut order) = (Edge::BLANK.updates, Edge::BLANK.order);
        for (slot, item) in order.iter_mut().zip(&found) {
            *slot = item.counter as u8;
            updates[item.counter as usize] = item.update();
        }
        Ok((updates, order))
    }

    /// An edge's resets and copies of clocks: 2, 3, 5, 6.
    fn reset_line(&mut self, model: &Model) -> Result<[ClockUpdate; MAX_CLOCKS], Refusal> {
        let value = self.due_line("reset")?;
        let found = self.need(items(value, reset_form), WRONG_FORM)?;
        self.test(found.iter().all(|item| item.declared(model)), NOT_DECLARED)?;
        self.test(found.windows(2).all(|pair| pair[0].clock < pair[1].clock), SET_TWICE_OR_NOT_RISING)?;
        let mut updates = Edge::BLANK.clock_updates;
        for item in &found {
            updates[item.clock as usize] = item.update();
        }
        Ok(updates)
    }
}

/// An atom as the text names it, before ranges and declarations are tested.
struct AtomItem {
    on_clock: bool,
    index: u32,
    relation: Relation,
    constant: u32,
}

impl AtomItem {
    fn in_range(&self) -> bool {
        let greatest = if self.on_clock { MAX_CLOCK_CONSTANT } else { MAX_COUNTER_VALUE };
        self.constant <= u32::from(greatest)
    }

    fn declared(&self, model: &Model) -> bool {
        let declared = if self.on_clock { model.clocks } else { model.counters };
        self.index < u32::from(declared)
    }

    fn atom(&self) -> Atom {
        let (index, constant) = (self.index as u8, self.constant as u8);
        if self.on_clock {
            Atom::clock(index, self.relation, constant)
        } else {
            Atom::counter(index, self.relation, constant)
        }
    }
}

/// A `set` item as the text names it.
struct SetItem {
    counter: u32,
    value: SetValue,
}

enum SetValue {
    Constant(u32),
    Sum { source: u32, negative: bool, offset: u32 },
}

impl SetItem {
    fn in_range(&self) -> bool {
        match self.value {
            SetValue::Constant(constant) => constant <= u32::from(MAX_COUNTER_VALUE),
            SetValue::Sum { offset, .. } => offset <= MAX_OFFSET as u32,
        }
    }

    fn declared(&self, model: &Model) -> bool {
        let counters = u32::from(model.counters);
        let source_declared = match self.value {
            SetValue::Constant(_) => true,
            SetValue::Sum { source, .. } => source < counters,
        };
        self.counter < counters && source_declared
    }

    fn update(&self) -> Update {
        match self.value {
            SetValue::Constant(constant) => Update::Constant(constant as u8),
            SetValue::Sum { source, negative, offset } => {
                let offset = if negative { -(offset as i8) } else { offset as i8 };
                Update::Sum { source: source as u8, offset }
            }
        }
    }
}

/// A `reset` item as the text names it: the clock set, and the clock copied from.
struct ResetItem {
    clock: u32,
    source: Option<u32>,
}

impl ResetItem {
    fn declared(&self, model: &Model) -> bool {
        let named = [Some(self.clock), self.source];
        named.into_iter().flatten().all(|clock| clock < u32::from(model.clocks))
    }

    fn update(&self) -> ClockUpdate {
        match self.source {
            None => ClockUpdate::Reset,
            Some(source) => ClockUpdate::Copy(source as u8),
        }
    }
}

/// The items of a value parted by commas, none for a hyphen alone; no result
/// if one item is not of its form.
fn items<T>(value: &[u8], form: impl Fn(&[u8]) -> Option<T>) -> Option<Vec<T>> {
    if value == b"-" {
        return Some(Vec::new());
    }
    value.split(|byte| *byte == b',').map(form).collect()
}

/// `greatest,initial`.
fn counter_form(value: &[u8]) -> Option<(u32, u32)> {
    let mut scan = Scan { rest: value };
    let greatest = scan.number()?;
    scan.sign(",")?;
    let initial = scan.number()?;
    scan.end()?;
    Some((greatest, initial))
}

/// `x0<=3`, and where counters stand too, `v0!=3`. `!=` on a clock is no atom.
fn atom_form(item: &[u8], counters_too: bool) -> Option<AtomItem> {
    let mut scan = Scan { rest: item };
    let on_clock = scan.sign("x").is_some();
    if !on_clock {
        scan.sign("v")?;
    }
    let index = scan.number()?;
    let relation = scan.relation()?;
    let constant = scan.number()?;
    scan.end()?;
    let allowed = if on_clock { relation != Relation::NotEqual } else { counters_too };
    allowed.then_some(AtomItem { on_clock, index, relation, constant })
}

/// `v0:=5`, `v0:=v1+3` or `v0:=v1-3`; `-0` is not of the form.
fn set_form(item: &[u8]) -> Option<SetItem> {
    let mut scan = Scan { rest: item };
    scan.sign("v")?;
    let counter = scan.number()?;
    scan.sign(":=")?;
    let value = if scan.sign("v").is_some() { scan.sum()? } else { SetValue::Constant(scan.number()?) };
    scan.end()?;
    Some(SetItem { counter, value })
}

/// `x0` or `x0:=x1`.
fn reset_form(item: &[u8]) -> Option<ResetItem> {
    let mut scan = Scan { rest: item };
    let clock = scan.clock()?;
    let source = if scan.sign(":=").is_some() { Some(scan.clock()?) } else { None };
    scan.end()?;
    Some(ResetItem { clock, source })
}

/// A number and nothing else.
fn whole_number(value: &[u8]) -> Option<u32> {
    let mut scan = Scan { rest: value };
    let number = scan.number()?;
    scan.end()?;
    Some(number)
}

/// What is left of an item while its form is tried.
struct Scan<'a> {
    rest: &'a [u8],
}

impl Scan<'_> {
    /// Takes a fixed sign.
    fn sign(&mut self, sign: &str) -> Option<()> {
        self.rest = self.rest.strip_prefix(sign.as_bytes())?;
        Some(())
    }

    /// Takes a number: 1 to 3 digits, no leading zero except 0 itself.
    fn number(&mut self) -> Option<u32> {
        let length = self.rest.iter().take_while(|byte| byte.is_ascii_digit()).count();
        let (digits, rest) = self.rest.split_at(length);
        let leading_zero = length > 1 && digits[0] == b'0';
        if length == 0 || length > 3 || leading_zero {
            return None;
        }
        self.rest = rest;
        Some(digits.iter().fold(0, |number, digit| number * 10 + u32::from(digit - b'0')))
    }

    /// Takes a clock: its index.
    fn clock(&mut self) -> Option<u32> {
        self.sign("x")?;
        self.number()
    }

    /// Takes a relation; the two-byte signs are tried first.
    fn relation(&mut self) -> Option<Relation> {
        let by_length =
            [Relation::LessEqual, Relation::GreaterEqual, Relation::NotEqual, Relation::Less, Relation::Equal, Relation::Greater];
        by_length.into_iter().find(|relation| self.sign(relation.sign()).is_some())
    }

    /// Takes the rest of a sum after its `v`: index, sign and offset.
    fn sum(&mut self) -> Option<SetValue> {
        let source = self.number()?;
        let negative = self.sign("-").is_some();
        if !negative {
            self.sign("+")?;
        }
        let offset = self.number()?;
        let minus_zero = negative && offset == 0;
        (!minus_zero).then_some(SetValue::Sum { source, negative, offset })
    }

    /// Nothing may be left.
    fn end(&self) -> Option<()> {
        self.rest.is_empty().then_some(())
    }
}

/// Writes the text of a well-formed record; reading it gives the record back.
pub fn write(model: &Model) -> Result<String, Refusal> {
    test_record(model)?;
    let mut lines = vec![
        format!("locations={}", model.locations),
        format!("init={}", model.init),
        format!("target={}", model.target),
        format!("clocks={}", model.clocks),
        format!("vars={}", model.counters),
    ];
    for counter in model.used_counters() {
        lines.push(format!("var={},{}", counter.greatest, counter.initial));
    }
    for atoms in &model.invariant[..usize::from(model.locations)] {
        lines.push(format!("inv={}", written_atoms(atoms)));
    }
    lines.push(format!("edges={}", model.edges));
    for edge in model.used_edges() {
        lines.push(format!("from={}", edge.source));
        lines.push(format!("to={}", edge.target));
        lines.push(format!("label={}", edge.label));
        lines.push(format!("when={}", written_atoms(&edge.guard)));
        lines.push(format!("set={}", written_updates(edge)));
        lines.push(format!("reset={}", written_clock_updates(&edge.clock_updates)));
    }
    Ok(lines.join("\n") + "\n")
}

fn written_atoms(atoms: &Atoms) -> String {
    written_items(atoms.iter().filter_map(|atom| match atom {
        Atom::Blank => None,
        Atom::Clock(c) => Some(format!("x{}{}{}", c.index, c.relation.sign(), c.constant)),
        Atom::Counter(c) => Some(format!("v{}{}{}", c.index, c.relation.sign(), c.constant)),
    }))
}

/// The updates in their listed order.
fn written_updates(edge: &Edge) -> String {
    written_items(edge.listed().iter().filter_map(|counter| match edge.updates[usize::from(*counter)] {
        Update::Keep => None,
        Update::Constant(constant) => Some(format!("v{counter}:={constant}")),
        Update::Sum { source, offset } => Some(format!("v{counter}:=v{source}{offset:+}")),
    }))
}

fn written_clock_updates(updates: &[ClockUpdate]) -> String {
    written_items(updates.iter().enumerate().filter_map(|(clock, update)| match update {
        ClockUpdate::Unchanged => None,
        ClockUpdate::Reset => Some(format!("x{clock}")),
        ClockUpdate::Copy(source) => Some(format!("x{clock}:=x{source}")),
    }))
}

/// The items parted by commas, or a hyphen for none.
fn written_items(items: impl Iterator<Item = String>) -> String {
    let items: Vec<String> = items.collect();
    if items.is_empty() {
        "-".to_string()
    } else {
        items.join(",")
    }
}
