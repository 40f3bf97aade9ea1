//! Records as plain bytes, so that malformed ones can be carried between
//! programs. This form is the reference's own; the document has none.
//!
//! In order: locations, init, target, clocks, counters; four times greatest,
//! initial; sixteen times four atoms; edges; 32 times source, target, label, four
//! atoms, four updates, the order's four slots, four clock updates. An atom is
//! four bytes: sort (0 blank, 1 clock, 2 counter), index, relation (0 to 5 for
//! < <= = >= > !=), constant. An update is three bytes: sort (0 keep, 1 constant,
//! 2 sum), constant or source, offset as a byte (two's complement). A clock update
//! is two bytes: sort (0 unchanged, 1 reset, 2 copy), source. Parts that a sort
//! does not use are 0.

use crate::model::{Atom, Atoms, ClockUpdate, Comparison, Edge, Model, Relation, Update};

/// The bytes of a record.
pub fn bytes(model: &Model) -> Vec<u8> {
    let mut bytes = vec![model.locations, model.init, model.target, model.clocks, model.counters];
    for counter in &model.counter {
        bytes.extend([counter.greatest, counter.initial]);
    }
    for atoms in &model.invariant {
        bytes.extend(atom_bytes(atoms));
    }
    bytes.push(model.edges);
    for edge in &model.edge {
        bytes.extend(edge_bytes(edge));
    }
    bytes
}

fn edge_bytes(edge: &Edge) -> Vec<u8> {
    let mut bytes = vec![edge.source, edge.target, edge.label];
    bytes.extend(atom_bytes(&edge.guard));
    for update in edge.updates {
        bytes.extend(match update {
            Update::Keep => [0, 0, 0],
            Update::Constant(constant) => [1, constant, 0],
            Update::Sum { source, offset } => [2, source, offset as u8],
        });
    }
    bytes.extend(edge.order);
    bytes.extend(edge.clock_updates.iter().flat_map(|update| clock_update_bytes(*update)));
    bytes
}

/// The sort of a clock update and its source, 0 where it has none.
pub fn clock_update_bytes(update: ClockUpdate) -> [u8; 2] {
    match update {
        ClockUpdate::Unchanged => [0, 0],
        ClockUpdate::Reset => [1, 0],
        ClockUpdate::Copy(source) => [2, source],
    }
}

fn atom_bytes(atoms: &Atoms) -> Vec<u8> {
    atoms.iter().flat_map(|atom| one_atom(*atom)).collect()
}

fn one_atom(atom: Atom) -> [u8; 4] {
    match atom {
        Atom::Blank => [0, 0, 0, 0],
        Atom::Clock(c) => [1, c.index, c.relation as u8, c.constant],
        Atom::Counter(c) => [2, c.index, c.relation as u8, c.constant],
    }
}

/// The record of some bytes; none if a sort or relation byte stands for nothing or
/// the length is wrong.
pub fn record(bytes: &[u8]) -> Option<Model> {
    let mut source = Source { bytes };
    let model = source.model()?;
    source.bytes.is_empty().then_some(model)
}

/// The bytes not yet taken.
struct Source<'a> {
    bytes: &'a [u8],
}

impl Source<'_> {
    fn byte(&mut self) -> Option<u8> {
        let (first, rest) = self.bytes.split_first()?;
        self.bytes = rest;
        Some(*first)
    }

    fn model(&mut self) -> Option<Model> {
        let mut model = Model::blank();
        model.locations = self.byte()?;
        model.init = self.byte()?;
        model.target = self.byte()?;
        model.clocks = self.byte()?;
        model.counters = self.byte()?;
        for counter in &mut model.counter {
            counter.greatest = self.byte()?;
            counter.initial = self.byte()?;
        }
        for atoms in &mut model.invariant {
            self.atoms(atoms)?;
        }
        model.edges = self.byte()?;
        for edge in &mut model.edge {
            self.edge(edge)?;
        }
        Some(model)
    }

    fn edge(&mut self, edge: &mut Edge) -> Option<()> {
        edge.source = self.byte()?;
        edge.target = self.byte()?;
        edge.label = self.byte()?;
        self.atoms(&mut edge.guard)?;
        for update in &mut edge.updates {
            *update = self.update()?;
        }
        for slot in &mut edge.order {
            *slot = self.byte()?;
        }
        for update in &mut edge.clock_updates {
            *update = self.clock_update()?;
        }
        Some(())
    }

    fn atoms(&mut self, atoms: &mut Atoms) -> Option<()> {
        for atom in atoms {
            *atom = self.atom()?;
        }
        Some(())
    }

    fn atom(&mut self) -> Option<Atom> {
        let sort = self.byte()?;
        let index = self.byte()?;
        let relation = *Relation::ALL.get(usize::from(self.byte()?))?;
        let constant = self.byte()?;
        let comparison = Comparison { index, relation, constant };
        match sort {
            0 => Some(Atom::Blank),
            1 => Some(Atom::Clock(comparison)),
            2 => Some(Atom::Counter(comparison)),
            _ => None,
        }
    }

    fn update(&mut self) -> Option<Update> {
        let (sort, first, second) = (self.byte()?, self.byte()?, self.byte()?);
        match sort {
            0 => Some(Update::Keep),
            1 => Some(Update::Constant(first)),
            2 => Some(Update::Sum { source: first, offset: second as i8 }),
            _ => None,
        }
    }

    fn clock_update(&mut self) -> Option<ClockUpdate> {
        let (sort, source) = (self.byte()?, self.byte()?);
        match sort {
            0 => Some(ClockUpdate::Unchanged),
            1 => Some(ClockUpdate::Reset),
            2 => Some(ClockUpdate::Copy(source)),
            _ => None,
        }
    }
}

/// Bytes as two hexadecimal digits each.
pub fn hex(bytes: &[u8]) -> String {
    bytes.iter().map(|byte| format!("{byte:02x}")).collect()
}
