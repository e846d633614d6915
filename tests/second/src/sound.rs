//! Draws sound stores that no history has to lead to: any placement, any queue, any detector.

use crate::call::{Memory, Record};
use crate::model::{home, Table};
use crate::random::Random;
use std::collections::{BTreeMap, BTreeSet};

pub struct SoundStore {
    pub record: Record,
    pub memory: Memory,
}

/// Where the present keys of a sound store lie: each in one home or waiting.
#[derive(Default)]
pub struct Placement {
    /// For each table the occupied cells: place, then key and value.
    tables: [BTreeMap<usize, (u32, u32)>; 2],
    /// Key, value, side; the front entry first.
    waiting: Vec<(u32, u32, u32)>,
}

#[derive(Clone, Copy)]
enum Wish {
    Absent,
    In(Table),
    Waiting,
}

const PLACES: [Wish; 3] = [Wish::In(Table::Zero), Wish::In(Table::One), Wish::Waiting];
const ALL_WISHES: [Wish; 4] = [Wish::Absent, PLACES[0], PLACES[1], PLACES[2]];

/// How often a key is wished absent, in table 0, in table 1, waiting.
pub type Wishes = [usize; 4];

impl Placement {
    /// The key's home must be free.
    pub fn hold(&mut self, numbers: &Record, table: Table, key: u32, value: u32) {
        let before = self
            .table_mut(table)
            .insert(home(numbers, table, key), (key, value));
        assert!(before.is_none(), "the cell of key {key} is taken");
    }

    pub fn wait(&mut self, key: u32, value: u32, side: u32) {
        self.waiting.push((key, value, side));
    }

    fn table_mut(&mut self, table: Table) -> &mut BTreeMap<usize, (u32, u32)> {
        match table {
            Table::Zero => &mut self.tables[0],
            Table::One => &mut self.tables[1],
        }
    }

    /// Whether the place had room for the key.
    fn put(&mut self, random: &mut Random, numbers: &Record, key: u32, place: Wish) -> bool {
        let value = random_value(random);
        match place {
            Wish::Absent => true,
            Wish::Waiting => {
                let room = self.waiting.len() < numbers.q as usize;
                if room {
                    self.wait(key, value, random.between(0, 1));
                }
                room
            }
            Wish::In(table) => {
                let at = home(numbers, table, key);
                let free = !self.table_mut(table).contains_key(&at);
                if free {
                    self.hold(numbers, table, key, value);
                }
                free
            }
        }
    }

    pub fn waiting(&self) -> usize {
        self.waiting.len()
    }

    pub fn present(&self) -> Vec<u32> {
        let in_tables = self.tables.iter().flat_map(|table| table.values());
        let keys = in_tables.map(|(key, _)| *key);
        keys.chain(self.waiting.iter().map(|(key, _, _)| *key))
            .collect()
    }
}

/// Puts each of the different keys where a random wish says. A key whose wished place is taken
/// goes to another place that has room, or stays absent.
pub fn place_keys(
    random: &mut Random,
    numbers: &Record,
    keys: &[u32],
    wishes: &Wishes,
) -> Placement {
    let mut placement = Placement::default();
    for key in keys {
        let mut others = PLACES;
        random.shuffle(&mut others);
        let wished = ALL_WISHES[random.weighted(wishes)];
        let _placed = placement.put(random, numbers, *key, wished)
            || others
                .iter()
                .any(|other| placement.put(random, numbers, *key, *other));
    }
    placement
}

/// "Any 32-bit unsigned number, 0 among them."
pub fn random_value(random: &mut Random) -> u32 {
    match random.below(4) {
        0 => 0,
        1 => random.between(1, 9),
        _ => random.word(),
    }
}

/// Different pairs of good keys and sides 0 or 1, of any number up to the room; often pairs of
/// the given keys, often as many as there is room for.
fn random_marks(random: &mut Random, room: u32, keys: &[u32]) -> Vec<(u32, u32)> {
    let wanted = match random.below(4) {
        0 => 0,
        1 => room,
        _ => random.between(0, room),
    };
    let mut seen = BTreeSet::new();
    let mut marks = Vec::new();
    while marks.len() < wanted as usize {
        let key = if keys.is_empty() || random.one_in(4) {
            random.between(1, 2_147_483_647)
        } else {
            random.pick(keys)
        };
        let pair = (key, random.between(0, 1));
        if seen.insert(pair) {
            marks.push(pair);
        }
    }
    marks
}

/// Writes the placement and a random detector into words.
pub fn lay_out(random: &mut Random, numbers: &Record, placement: &Placement) -> SoundStore {
    let marks = random_marks(random, numbers.d, &placement.present());
    let mut memory = Memory::zeros_for(numbers);
    for (table, words) in placement
        .tables
        .iter()
        .zip([&mut memory.t0, &mut memory.t1])
    {
        for (at, (key, value)) in table {
            words[2 * at] = *key;
            words[2 * at + 1] = *value;
        }
    }
    for (words, entry) in memory.queue.chunks_exact_mut(3).zip(&placement.waiting) {
        words.copy_from_slice(&[entry.0, entry.1, entry.2]);
    }
    for (words, mark) in memory.detector.chunks_exact_mut(2).zip(&marks) {
        words.copy_from_slice(&[mark.0, mark.1]);
    }
    let record = Record {
        queue_len: placement.waiting.len() as u32,
        detector_len: marks.len() as u32,
        ..*numbers
    };
    SoundStore { record, memory }
}

pub fn random_sound_store(random: &mut Random, numbers: &Record, keys: &[u32]) -> SoundStore {
    let wishes = random.pick(&[[1, 3, 3, 1], [4, 2, 2, 2], [0, 4, 2, 1], [0, 1, 1, 4]]);
    let placement = place_keys(random, numbers, keys, &wishes);
    lay_out(random, numbers, &placement)
}
