//! "Two present keys are in one group if they share a cell, directly or through other present
//! keys. The group's cells are all homes of its keys."

use crate::call::Record;
use crate::model::{home, Table};
use std::collections::BTreeMap;

#[derive(Clone, Copy, Default)]
pub struct Group {
    pub keys: usize,
    pub cells: usize,
}

impl Group {
    pub fn has_more_keys_than_cells(&self) -> bool {
        self.keys > self.cells
    }
}

/// Cells joined by the keys that have both of them as homes.
struct Joined {
    parent: BTreeMap<(bool, usize), (bool, usize)>,
}

impl Joined {
    fn root(&self, cell: (bool, usize)) -> (bool, usize) {
        let mut at = cell;
        while self.parent[&at] != at {
            at = self.parent[&at];
        }
        at
    }

    fn join(&mut self, one: (bool, usize), other: (bool, usize)) {
        self.parent.entry(one).or_insert(one);
        self.parent.entry(other).or_insert(other);
        let (root, other_root) = (self.root(one), self.root(other));
        self.parent.insert(other_root, root);
    }
}

pub fn groups(numbers: &Record, present: &[u32]) -> Vec<Group> {
    let homes = |key: u32| {
        (
            (false, home(numbers, Table::Zero, key)),
            (true, home(numbers, Table::One, key)),
        )
    };
    let mut joined = Joined {
        parent: BTreeMap::new(),
    };
    for key in present {
        let (one, other) = homes(*key);
        joined.join(one, other);
    }
    let mut by_root: BTreeMap<(bool, usize), Group> = BTreeMap::new();
    for key in present {
        by_root.entry(joined.root(homes(*key).0)).or_default().keys += 1;
    }
    for cell in joined.parent.keys() {
        by_root.entry(joined.root(*cell)).or_default().cells += 1;
    }
    by_root.into_values().collect()
}
