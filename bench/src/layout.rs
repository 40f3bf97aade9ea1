//! Where the groups of a model's variables stand, computed once. Variables are
//! counted from 0 here.

use reference::model::{ceiling, choice_length, state_length, Model};

/// Members `first`, `first + 1`, and so on.
#[derive(Clone, Copy, Default)]
pub struct Group {
    pub first: usize,
    pub length: usize,
}

impl Group {
    /// The same group in the block that begins at `block`.
    pub fn at(self, block: usize) -> Group {
        Group { first: block + self.first, length: self.length }
    }
}

/// The groups of a state block, from its beginning, and the lengths of blocks.
pub struct Layout {
    pub ceiling: usize,
    pub state: usize,
    pub choices: usize,
    counters: usize,
    groups: Vec<Group>,
}

impl Layout {
    pub fn of(model: &Model) -> Layout {
        let ceiling = ceiling(model) as usize;
        let counters = model.used_counters();
        let lengths = std::iter::once(usize::from(model.locations))
            .chain(counters.iter().map(|c| usize::from(c.greatest) + 1))
            .chain((0..model.clocks).map(|_| ceiling + 1));
        let mut first = 0;
        let mut groups = Vec::new();
        for length in lengths {
            groups.push(Group { first, length });
            first += length;
        }
        Layout {
            ceiling,
            state: state_length(model) as usize,
            choices: choice_length(model) as usize,
            counters: counters.len(),
            groups,
        }
    }

    /// The length of a step's two blocks.
    pub fn step(&self) -> usize {
        self.state + self.choices
    }

    /// Locations, counters, clocks.
    pub fn groups(&self) -> &[Group] {
        &self.groups
    }

    pub fn locations(&self) -> Group {
        self.groups[0]
    }

    pub fn counters(&self) -> &[Group] {
        &self.groups[1..=self.counters]
    }

    pub fn clocks(&self) -> &[Group] {
        &self.groups[1 + self.counters..]
    }
}
