//! Sound stores whose settling comes near the bound of demand 3.
//!
//! Each group is a path of keys that ends in two keys with the same two homes, and one key that
//! waits before the path. The waiting key pushes every key of the path one cell down; the two keys
//! at the end have no room between them, so every key is pushed up again, until the waiting key
//! comes out and takes its free home in table 1. A group of k keys needs 2k-2 steps for that.

use crate::call::Record;
use crate::model::{home, Table};
use crate::random::Random;
use crate::sound::{random_value, Placement};
use std::collections::HashMap;

/// Homes in table 0 and table 1.
type Homes = (usize, usize);

/// Keys by their homes, found by drawing.
struct KeysByHomes {
    found: HashMap<Homes, Vec<u32>>,
}

/// Where the keys of one group live.
struct GroupPlan {
    waiting: Homes,
    /// Each with the table it lies in.
    placed: Vec<(Homes, Table)>,
}

/// So many groups, each with so many keys on its path. None if the numbers have not enough cells,
/// or no fitting keys were drawn.
pub fn long_walks(
    random: &mut Random,
    numbers: &Record,
    groups: usize,
    path: usize,
) -> Option<Placement> {
    let mut free = [free_cells(random, numbers), free_cells(random, numbers)];
    let plans: Option<Vec<GroupPlan>> = (0..groups).map(|_| plan(&mut free, path)).collect();
    let plans = plans?;
    let mut keys = draw_keys(random, numbers, &plans)?;
    let mut placement = Placement::default();
    for plan in plans {
        let side = 0;
        placement.wait(keys.take(plan.waiting), random_value(random), side);
        for (homes, table) in plan.placed {
            placement.hold(numbers, table, keys.take(homes), random_value(random));
        }
    }
    Some(placement)
}

fn free_cells(random: &mut Random, numbers: &Record) -> Vec<usize> {
    let mut cells: Vec<usize> = (0..numbers.r as usize).collect();
    random.shuffle(&mut cells);
    cells
}

/// Takes the group's cells from the free ones: a chain of cells of table 0 and table 1 in turn, and
/// one more cell of table 1 that stays free.
fn plan(free: &mut [Vec<usize>; 2], path: usize) -> Option<GroupPlan> {
    let chain: Option<Vec<usize>> = (0..path + 2).map(|at| free[at % 2].pop()).collect();
    let chain = chain?;
    let stays_free = free[1].pop()?;
    let link = |at: usize| match at % 2 {
        0 => ((chain[at], chain[at + 1]), Table::Zero),
        _ => ((chain[at + 1], chain[at]), Table::One),
    };
    let mut placed: Vec<(Homes, Table)> = (0..=path).map(link).collect();
    let (homes, table) = link(path);
    let last_table = match table {
        Table::Zero => Table::One,
        Table::One => Table::Zero,
    };
    placed.push((homes, last_table));
    Some(GroupPlan {
        waiting: (chain[0], stays_free),
        placed,
    })
}

fn draw_keys(random: &mut Random, numbers: &Record, plans: &[GroupPlan]) -> Option<KeysByHomes> {
    let mut wanted: HashMap<Homes, usize> = HashMap::new();
    for plan in plans {
        let placed = plan.placed.iter().map(|(homes, _)| *homes);
        for homes in placed.chain([plan.waiting]) {
            *wanted.entry(homes).or_default() += 1;
        }
    }
    let mut found: HashMap<Homes, Vec<u32>> = HashMap::new();
    let tries = 30 * (numbers.r as usize).pow(2);
    for _ in 0..tries {
        let key = random.between(1, 2_147_483_647);
        let homes = (
            home(numbers, Table::Zero, key),
            home(numbers, Table::One, key),
        );
        let Some(still_wanted) = wanted.get_mut(&homes) else {
            continue;
        };
        let keys = found.entry(homes).or_default();
        if !keys.contains(&key) {
            keys.push(key);
            *still_wanted -= 1;
        }
        if *still_wanted == 0 {
            wanted.remove(&homes);
        }
        if wanted.is_empty() {
            return Some(KeysByHomes { found });
        }
    }
    None
}

impl KeysByHomes {
    fn take(&mut self, homes: Homes) -> u32 {
        let keys = self.found.get_mut(&homes);
        keys.and_then(Vec::pop)
            .expect("as many keys were drawn as the plans need")
    }
}
