//! Solver variables ("Numbering"): state 0, then for each step its choice block
//! and its state block, from 1.

use crate::model::{ceiling, choice_length, state_length, Model};

/// Variables of which one is true: `first`, `first + 1`, and so on.
#[derive(Clone, Copy, PartialEq, Eq, Debug)]
pub struct Group {
    pub first: i32,
    pub length: u32,
}

impl Group {
    /// The variable of one value.
    pub fn member(&self, value: u32) -> i32 {
        self.first + value as i32
    }

    /// The values of the group, rising.
    pub fn values(&self) -> std::ops::Range<u32> {
        0..self.length
    }

    /// The variables of the group, rising.
    pub fn members(&self) -> impl Iterator<Item = i32> + '_ {
        self.values().map(|value| self.member(value))
    }
}

/// Where the groups of a well-formed model stand.
#[derive(Clone, PartialEq, Eq, Debug)]
pub struct Numbering {
    pub ceiling: u32,
    /// Lengths of the groups of a state block: locations, counters, clocks.
    group_lengths: Vec<u32>,
    counters: usize,
    state_length: u32,
    choice_length: u32,
}

impl Numbering {
    pub fn of(model: &Model) -> Numbering {
        let ceiling = ceiling(model);
        let mut group_lengths = vec![u32::from(model.locations)];
        group_lengths.extend(model.used_counters().iter().map(|c| u32::from(c.greatest) + 1));
        group_lengths.extend((0..model.clocks).map(|_| ceiling + 1));
        Numbering {
            ceiling,
            group_lengths,
            counters: usize::from(model.counters),
            state_length: state_length(model),
            choice_length: choice_length(model),
        }
    }

    /// The groups of state t in block order.
    pub fn state(&self, t: u32) -> Vec<Group> {
        (0..self.group_lengths.len()).map(|index| self.state_group(t, index)).collect()
    }

    fn state_group(&self, t: u32, index: usize) -> Group {
        let before: u32 = self.group_lengths[..index].iter().sum();
        let block = t * (self.state_length + self.choice_length);
        Group { first: (1 + block + before) as i32, length: self.group_lengths[index] }
    }

    /// The locations of state t.
    pub fn locations(&self, t: u32) -> Group {
        self.state_group(t, 0)
    }

    /// A counter's values in state t.
    pub fn counter(&self, t: u32, index: usize) -> Group {
        self.state_group(t, 1 + index)
    }

    /// A clock's values in state t.
    pub fn clock(&self, t: u32, index: usize) -> Group {
        self.state_group(t, 1 + self.counters + index)
    }

    /// The choice block of step t, from 1: delays 0 to M, then edges.
    pub fn choices(&self, t: u32) -> Group {
        let block = (t - 1) * (self.state_length + self.choice_length);
        Group { first: (1 + block + self.state_length) as i32, length: self.choice_length }
    }

    /// The variable of delay d in step t.
    pub fn delay(&self, t: u32, ticks: u32) -> i32 {
        self.choices(t).member(ticks)
    }

    /// The variable of edge e in step t.
    pub fn edge(&self, t: u32, edge: usize) -> i32 {
        self.choices(t).member(self.ceiling + 1 + edge as u32)
    }
}
