//! The clause list in plain Rust without any vector of clauses: the clauses are
//! told one after the other to a visitor, which is known when this is compiled.

use reference::model::{Atom, Atoms, ClockUpdate, Edge, Model, Update};

use crate::layout::{Group, Layout};

/// Takes the clauses in order; variables are counted from 0. An error ends it.
pub trait Visitor {
    type End;
    /// Any of the members.
    fn members(&mut self, group: Group) -> Result<(), Self::End>;
    /// The variable.
    fn unit(&mut self, a: usize) -> Result<(), Self::End>;
    /// Not the variable.
    fn never(&mut self, a: usize) -> Result<(), Self::End>;
    /// Not `a`, or `b`.
    fn implies(&mut self, a: usize, b: usize) -> Result<(), Self::End>;
    /// Not `a`, or not `b`.
    fn excludes(&mut self, a: usize, b: usize) -> Result<(), Self::End>;
    /// Not `a`, or not `b`, or `c`.
    fn both_imply(&mut self, a: usize, b: usize, c: usize) -> Result<(), Self::End>;
}

/// Tells the whole list for a bound.
pub fn visit<V: Visitor>(model: &Model, layout: &Layout, bound: usize, visitor: &mut V) -> Result<(), V::End> {
    start(model, layout, visitor)?;
    for step in 0..bound {
        self::step(model, layout, step * layout.step(), visitor)?;
    }
    visitor.unit(bound * layout.step() + usize::from(model.target))
}

/// State 0 and the initial values.
pub fn start<V: Visitor>(model: &Model, layout: &Layout, visitor: &mut V) -> Result<(), V::End> {
    state(model, layout, 0, visitor)?;
    visitor.unit(usize::from(model.init))?;
    for (group, counter) in layout.counters().iter().zip(model.used_counters()) {
        visitor.unit(group.first + usize::from(counter.initial))?;
    }
    for group in layout.clocks() {
        visitor.unit(group.first)?;
    }
    Ok(())
}

fn group<V: Visitor>(group: Group, visitor: &mut V) -> Result<(), V::End> {
    visitor.members(group)?;
    let end = group.first + group.length;
    for smaller in group.first..end {
        for greater in smaller + 1..end {
            visitor.excludes(smaller, greater)?;
        }
    }
    Ok(())
}

fn state<V: Visitor>(model: &Model, layout: &Layout, block: usize, visitor: &mut V) -> Result<(), V::End> {
    for part in layout.groups() {
        group(part.at(block), visitor)?;
    }
    let locations = usize::from(model.locations);
    for (location, atoms) in model.invariant[..locations].iter().enumerate() {
        failing(layout, block, block + location, atoms, visitor)?;
    }
    Ok(())
}

/// For each atom and each value that fails it: not `condition`, not that value.
fn failing<V: Visitor>(layout: &Layout, block: usize, condition: usize, atoms: &Atoms, visitor: &mut V) -> Result<(), V::End> {
    for atom in atoms {
        let (group, comparison) = match atom {
            Atom::Blank => continue,
            Atom::Clock(c) => (layout.clocks()[usize::from(c.index)], c),
            Atom::Counter(c) => (layout.counters()[usize::from(c.index)], c),
        };
        for value in 0..group.length {
            if !comparison.holds(value as u32) {
                visitor.excludes(condition, block + group.first + value)?;
            }
        }
    }
    Ok(())
}

/// A step from the state block that begins at `block`.
pub fn step<V: Visitor>(model: &Model, layout: &Layout, block: usize, visitor: &mut V) -> Result<(), V::End> {
    let choice = block + layout.state;
    let next = block + layout.step();
    group(Group { first: choice, length: layout.choices }, visitor)?;
    for ticks in 0..=layout.ceiling {
        delay(layout, block, choice + ticks, ticks, visitor)?;
    }
    let first_edge = choice + layout.ceiling + 1;
    for (index, edge) in model.used_edges().iter().enumerate() {
        self::edge(layout, block, first_edge + index, edge, visitor)?;
    }
    state(model, layout, next, visitor)
}

fn delay<V: Visitor>(layout: &Layout, block: usize, choice: usize, ticks: usize, visitor: &mut V) -> Result<(), V::End> {
    let next = block + layout.step();
    kept(layout.locations().at(block), layout.locations().at(next), choice, visitor)?;
    for group in layout.counters() {
        kept(group.at(block), group.at(next), choice, visitor)?;
    }
    for group in layout.clocks() {
        let (before, after) = (block + group.first, next + group.first);
        for value in 0..group.length {
            let later = (value + ticks).min(layout.ceiling);
            visitor.both_imply(choice, before + value, after + later)?;
        }
    }
    Ok(())
}

/// Each value before is the value after, of the same group or of one as long.
fn kept<V: Visitor>(before: Group, after: Group, choice: usize, visitor: &mut V) -> Result<(), V::End> {
    for value in 0..before.length {
        visitor.both_imply(choice, before.first + value, after.first + value)?;
    }
    Ok(())
}

fn edge<V: Visitor>(layout: &Layout, block: usize, choice: usize, edge: &Edge, visitor: &mut V) -> Result<(), V::End> {
    let next = block + layout.step();
    visitor.implies(choice, block + usize::from(edge.source))?;
    visitor.implies(choice, next + usize::from(edge.target))?;
    failing(layout, block, choice, &edge.guard, visitor)?;
    for (index, group) in layout.counters().iter().enumerate() {
        match edge.updates[index] {
            Update::Keep => kept(group.at(block), group.at(next), choice, visitor)?,
            Update::Constant(constant) => {
                constant_update(group.at(next), choice, usize::from(constant), visitor)?;
            }
            Update::Sum { source, offset } => {
                let read_in = if edge.reads_after(index as u8, source) { next } else { block };
                let read = layout.counters()[usize::from(source)].at(read_in);
                sum_update(read, group.at(next), choice, isize::from(offset), visitor)?;
            }
        }
    }
    for (group, update) in layout.clocks().iter().zip(edge.clock_updates) {
        let after = group.at(next);
        match update {
            ClockUpdate::Unchanged => kept(group.at(block), after, choice, visitor)?,
            ClockUpdate::Reset => visitor.implies(choice, after.first)?,
            ClockUpdate::Copy(source) => kept(layout.clocks()[usize::from(source)].at(block), after, choice, visitor)?,
        }
    }
    Ok(())
}

fn constant_update<V: Visitor>(after: Group, choice: usize, constant: usize, visitor: &mut V) -> Result<(), V::End> {
    if constant < after.length {
        visitor.implies(choice, after.first + constant)
    } else {
        visitor.never(choice)
    }
}

fn sum_update<V: Visitor>(read: Group, after: Group, choice: usize, offset: isize, visitor: &mut V) -> Result<(), V::End> {
    for value in 0..read.length {
        let result = value as isize + offset;
        if (0..after.length as isize).contains(&result) {
            visitor.both_imply(choice, read.first + value, after.first + result as usize)?;
        } else {
            visitor.excludes(choice, read.first + value)?;
        }
    }
    Ok(())
}
