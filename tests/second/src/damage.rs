//! Sound stores, and the same stores after ONE small damage to one clause of "sound".

use crate::call::{Call, Memory, Record};
use crate::model::{home, Table};
use crate::numbers::{key_pool, small_numbers};
use crate::pair::Pair;
use crate::random::Random;
use crate::sound::{random_sound_store, random_value, SoundStore};

const DAMAGES_TRIED_ON_ONE_STORE: usize = 12;

#[derive(Clone, Copy, Debug, PartialEq, Eq)]
pub enum Damage {
    KeyNotAtHome(Table),
    FreeCellWithValue(Table),
    BadKeyAtHome(Table),
    WaitingKeyZero,
    WaitingKeyAbove,
    WaitingSideAboveOne,
    MarkedKeyZero,
    MarkedKeyAbove,
    MarkedSideAboveOne,
    PairTwice,
    PairTwiceBySideMeant,
    KeyWordPastQueue,
    ValueWordPastQueue,
    SideWordPastQueue,
    KeyWordPastDetector,
    SideWordPastDetector,
    QueueLengthTooSmall,
    QueueLengthTooGreat,
    DetectorLengthTooSmall,
    DetectorLengthTooGreat,
    KeyInBothTables,
    KeyInTableAndQueue(Table),
    KeyTwiceInQueue,
}

impl Damage {
    pub const ALL: [Damage; 27] = [
        Damage::KeyNotAtHome(Table::Zero),
        Damage::KeyNotAtHome(Table::One),
        Damage::FreeCellWithValue(Table::Zero),
        Damage::FreeCellWithValue(Table::One),
        Damage::BadKeyAtHome(Table::Zero),
        Damage::BadKeyAtHome(Table::One),
        Damage::WaitingKeyZero,
        Damage::WaitingKeyAbove,
        Damage::WaitingSideAboveOne,
        Damage::MarkedKeyZero,
        Damage::MarkedKeyAbove,
        Damage::MarkedSideAboveOne,
        Damage::PairTwice,
        Damage::PairTwiceBySideMeant,
        Damage::KeyWordPastQueue,
        Damage::ValueWordPastQueue,
        Damage::SideWordPastQueue,
        Damage::KeyWordPastDetector,
        Damage::SideWordPastDetector,
        Damage::QueueLengthTooSmall,
        Damage::QueueLengthTooGreat,
        Damage::DetectorLengthTooSmall,
        Damage::DetectorLengthTooGreat,
        Damage::KeyInBothTables,
        Damage::KeyInTableAndQueue(Table::Zero),
        Damage::KeyInTableAndQueue(Table::One),
        Damage::KeyTwiceInQueue,
    ];

    pub fn name(self) -> &'static str {
        match self {
            Damage::KeyNotAtHome(Table::Zero) => "key not at home, table 0",
            Damage::KeyNotAtHome(Table::One) => "key not at home, table 1",
            Damage::FreeCellWithValue(Table::Zero) => "free cell with a value, table 0",
            Damage::FreeCellWithValue(Table::One) => "free cell with a value, table 1",
            Damage::BadKeyAtHome(Table::Zero) => "bad key at its home, table 0",
            Damage::BadKeyAtHome(Table::One) => "bad key at its home, table 1",
            Damage::WaitingKeyZero => "waiting key 0",
            Damage::WaitingKeyAbove => "waiting key too great",
            Damage::WaitingSideAboveOne => "waiting side above 1",
            Damage::MarkedKeyZero => "marked key 0",
            Damage::MarkedKeyAbove => "marked key too great",
            Damage::MarkedSideAboveOne => "marked side above 1",
            Damage::PairTwice => "pair twice in the detector",
            Damage::PairTwiceBySideMeant => "pair twice by the table meant",
            Damage::KeyWordPastQueue => "key word past the queue's length",
            Damage::ValueWordPastQueue => "value word past the queue's length",
            Damage::SideWordPastQueue => "side word past the queue's length",
            Damage::KeyWordPastDetector => "key word past the detector's length",
            Damage::SideWordPastDetector => "side word past the detector's length",
            Damage::QueueLengthTooSmall => "queue length one too small",
            Damage::QueueLengthTooGreat => "queue length one too great",
            Damage::DetectorLengthTooSmall => "detector length one too small",
            Damage::DetectorLengthTooGreat => "detector length one too great",
            Damage::KeyInBothTables => "key in both tables",
            Damage::KeyInTableAndQueue(Table::Zero) => "key in table 0 and queue",
            Damage::KeyInTableAndQueue(Table::One) => "key in table 1 and queue",
            Damage::KeyTwiceInQueue => "key twice in the queue",
        }
    }
}

pub fn run(pair: &mut Pair, random: &mut Random) {
    let numbers = small_numbers(random);
    let size = random.between(1, 2 * numbers.r + 4) as usize;
    let keys = key_pool(random, &numbers, size);
    let store = random_sound_store(random, &numbers, &keys);
    pair.load(&store.memory);
    let answer = pair.call(store.record, Call::Check);
    pair.demand(answer.number == 0, store.record, || {
        "check refuses a sound store".to_string()
    });
    pair.tally.sound_checks += 1;
    for _ in 0..DAMAGES_TRIED_ON_ONE_STORE {
        let which = random.below(Damage::ALL.len());
        check_damaged(pair, random, &store, which);
    }
}

/// Does nothing if the store has no place for this damage.
fn check_damaged(pair: &mut Pair, random: &mut Random, store: &SoundStore, which: usize) {
    let damage = Damage::ALL[which];
    let mut damaged = Damaged {
        record: store.record,
        memory: store.memory.clone(),
        random,
    };
    if damaged.damage(damage).is_none() {
        return;
    }
    pair.load(&damaged.memory);
    let answer = pair.call(damaged.record, Call::Check);
    pair.demand(answer.number == 9, damaged.record, || {
        format!("check does not refuse this damage: {}", damage.name())
    });
    pair.tally.damages[which] += 1;
}

struct Damaged<'a> {
    record: Record,
    memory: Memory,
    random: &'a mut Random,
}

impl Damaged<'_> {
    fn damage(&mut self, damage: Damage) -> Option<()> {
        match damage {
            Damage::KeyNotAtHome(table) => self.move_from_home(table),
            Damage::FreeCellWithValue(table) => self.give_free_cell_a_value(table),
            Damage::BadKeyAtHome(table) => self.put_bad_key_at_home(table),
            Damage::WaitingKeyZero => self.write_waiting(0, 0),
            Damage::WaitingKeyAbove => {
                let word = self.word_above_keys();
                self.write_waiting(0, word)
            }
            Damage::WaitingSideAboveOne => {
                let word = self.word_above_one();
                self.write_waiting(2, word)
            }
            Damage::MarkedKeyZero => self.write_marked(0, 0),
            Damage::MarkedKeyAbove => {
                let word = self.word_above_keys();
                self.write_marked(0, word)
            }
            Damage::MarkedSideAboveOne => {
                let word = self.word_above_one();
                self.write_marked(1, word)
            }
            Damage::PairTwice => self.mark_pair_twice(None),
            Damage::PairTwiceBySideMeant => {
                let word = self.word_above_one();
                self.mark_pair_twice(Some(word))
            }
            Damage::KeyWordPastQueue => self.write_past_queue(0),
            Damage::ValueWordPastQueue => self.write_past_queue(1),
            Damage::SideWordPastQueue => self.write_past_queue(2),
            Damage::KeyWordPastDetector => self.write_past_detector(0),
            Damage::SideWordPastDetector => self.write_past_detector(1),
            Damage::QueueLengthTooSmall => decrease(&mut self.record.queue_len),
            Damage::QueueLengthTooGreat => increase(&mut self.record.queue_len, self.record.q),
            Damage::DetectorLengthTooSmall => decrease(&mut self.record.detector_len),
            Damage::DetectorLengthTooGreat => {
                increase(&mut self.record.detector_len, self.record.d)
            }
            Damage::KeyInBothTables => self.put_key_in_both_tables(),
            Damage::KeyInTableAndQueue(table) => self.let_key_wait_too(table),
            Damage::KeyTwiceInQueue => self.let_key_wait_twice(),
        }
    }

    fn table(&self, table: Table) -> &Vec<u32> {
        match table {
            Table::Zero => &self.memory.t0,
            Table::One => &self.memory.t1,
        }
    }

    fn table_mut(&mut self, table: Table) -> &mut Vec<u32> {
        match table {
            Table::Zero => &mut self.memory.t0,
            Table::One => &mut self.memory.t1,
        }
    }

    fn word_above_keys(&mut self) -> u32 {
        let random_word = self.random.word() | 2_147_483_648;
        self.random.pick(&[2_147_483_648, u32::MAX, random_word])
    }

    fn word_above_one(&mut self) -> u32 {
        let random_word = self.random.between(2, u32::MAX);
        self.random.pick(&[2, 2_147_483_648, random_word])
    }

    fn word_above_zero(&mut self) -> u32 {
        let random_word = self.random.between(1, u32::MAX);
        self.random.pick(&[1, random_word])
    }

    /// A random cell that is free, or one that is not.
    fn some_cell(&mut self, table: Table, free: bool) -> Option<usize> {
        let words = self.table(table).chunks_exact(2).enumerate();
        let cells: Vec<usize> = words
            .filter(|(_, words)| (words[0] == 0) == free)
            .map(|(at, _)| at)
            .collect();
        (!cells.is_empty()).then(|| self.random.pick(&cells))
    }

    /// As the occupied cell is the key's home, no free cell can be.
    fn move_from_home(&mut self, table: Table) -> Option<()> {
        let from = self.some_cell(table, false)?;
        let to = self.some_cell(table, true)?;
        let words = self.table_mut(table);
        words.swap(2 * from, 2 * to);
        words.swap(2 * from + 1, 2 * to + 1);
        Some(())
    }

    fn give_free_cell_a_value(&mut self, table: Table) -> Option<()> {
        let at = self.some_cell(table, true)?;
        let value = self.word_above_zero();
        self.table_mut(table)[2 * at + 1] = value;
        Some(())
    }

    /// The home is defined for bad keys too, so only the clause about good keys is broken.
    fn put_bad_key_at_home(&mut self, table: Table) -> Option<()> {
        let key = self.word_above_keys();
        let value = random_value(self.random);
        let at = home(&self.record, table, key);
        self.table_mut(table)[2 * at] = key;
        self.table_mut(table)[2 * at + 1] = value;
        Some(())
    }

    fn some_waiting(&mut self) -> Option<usize> {
        let waiting = self.record.queue_len as usize;
        (waiting > 0).then(|| self.random.below(waiting))
    }

    fn write_waiting(&mut self, offset: usize, word: u32) -> Option<()> {
        let at = self.some_waiting()?;
        self.memory.queue[3 * at + offset] = word;
        Some(())
    }

    fn some_marked(&mut self) -> Option<usize> {
        let marked = self.record.detector_len as usize;
        (marked > 0).then(|| self.random.below(marked))
    }

    fn write_marked(&mut self, offset: usize, word: u32) -> Option<()> {
        let at = self.some_marked()?;
        self.memory.detector[2 * at + offset] = word;
        Some(())
    }

    /// Copies one pair over another; `other_side` is a further word for table 1.
    fn mark_pair_twice(&mut self, other_side: Option<u32>) -> Option<()> {
        let (from, to) = (self.some_marked()?, self.some_marked()?);
        if from == to {
            return None;
        }
        let (key, side) = (
            self.memory.detector[2 * from],
            self.memory.detector[2 * from + 1],
        );
        if other_side.is_some() && side == 0 {
            return None;
        }
        self.memory.detector[2 * to] = key;
        self.memory.detector[2 * to + 1] = other_side.unwrap_or(side);
        Some(())
    }

    fn write_past_queue(&mut self, offset: usize) -> Option<()> {
        let (length, room) = (self.record.queue_len, self.record.q);
        let at = (length < room).then(|| self.random.between(length, room - 1))? as usize;
        self.memory.queue[3 * at + offset] = self.word_above_zero();
        Some(())
    }

    fn write_past_detector(&mut self, offset: usize) -> Option<()> {
        let (length, room) = (self.record.detector_len, self.record.d);
        let at = (length < room).then(|| self.random.between(length, room - 1))? as usize;
        self.memory.detector[2 * at + offset] = self.word_above_zero();
        Some(())
    }

    fn key_in(&mut self, table: Table) -> Option<u32> {
        let at = self.some_cell(table, false)?;
        Some(self.table(table)[2 * at])
    }

    fn put_key_in_both_tables(&mut self) -> Option<()> {
        let (from, to) = self
            .random
            .pick(&[(Table::Zero, Table::One), (Table::One, Table::Zero)]);
        let key = self.key_in(from)?;
        let at = home(&self.record, to, key);
        self.table_mut(to)[2 * at] = key;
        Some(())
    }

    fn let_key_wait_too(&mut self, table: Table) -> Option<()> {
        let key = self.key_in(table)?;
        self.write_waiting(0, key)
    }

    fn let_key_wait_twice(&mut self) -> Option<()> {
        let (from, to) = (self.some_waiting()?, self.some_waiting()?);
        self.memory.queue[3 * to] = self.memory.queue[3 * from];
        (from != to).then_some(())
    }
}

fn decrease(length: &mut u32) -> Option<()> {
    *length = length.checked_sub(1)?;
    Some(())
}

fn increase(length: &mut u32, room: u32) -> Option<()> {
    *length += 1;
    (*length <= room).then_some(())
}
