//! Histories on sound stores: many calls in a row, each with the record the last one gave back.
//!
//! Beside the comparison of both versions, a plain map says what each call must answer about a
//! key: the map property of a store from open.

use crate::call::{Answer, Buffer, Call, Memory, Record};
use crate::faults;
use crate::numbers::{big_numbers, good_key, key_pool, small_numbers, with_functions};
use crate::pair::Pair;
use crate::random::Random;
use crate::sound::{random_sound_store, random_value};
use std::collections::BTreeMap;

/// How often find, define, change, remove, settle and check are called, by mood.
const MOODS: [[usize; 6]; 4] = [
    [10, 60, 5, 5, 15, 2],
    [15, 30, 8, 30, 15, 2],
    [10, 15, 5, 5, 60, 2],
    [25, 20, 20, 20, 10, 5],
];
const CALLS_IN_ONE_MOOD: u32 = 40;
const FAULT_KINDS: usize = 4;

struct History<'a> {
    pair: &'a mut Pair,
    random: &'a mut Random,
    record: Record,
    /// The keys that most calls ask for.
    asked: Vec<u32>,
    expected: BTreeMap<u32, u32>,
}

pub fn run_small(pair: &mut Pair, random: &mut Random) {
    let numbers = small_numbers(random);
    let most_keys = (3 * numbers.r + numbers.q + 3).min(400);
    let size = random.between(2, most_keys) as usize;
    let keys = key_pool(random, &numbers, size);
    let calls = match random.weighted(&[60, 30, 10]) {
        0 => random.between(50, 400),
        1 => random.between(400, 1_000),
        _ => random.between(1_000, 3_000),
    };
    if random.one_in(4) {
        from_sound_store(pair, random, numbers, &keys, keys.clone()).run(calls);
    } else {
        from_open(pair, random, numbers, keys).run(calls);
    }
}

/// Few calls on big tables that are well filled from the start; the calls ask for few keys.
pub fn run_big(pair: &mut Pair, random: &mut Random) {
    let numbers = big_numbers(random);
    let size = random.between(100, 2 * numbers.r) as usize;
    let keys = key_pool(random, &numbers, size);
    let asked = keys.iter().copied().take(60).collect();
    from_sound_store(pair, random, numbers, &keys, asked).run(60);
    let few_keys = key_pool(random, &numbers, 40);
    from_open(pair, random, numbers, few_keys).run(60);
}

/// Opens over words that held anything before.
fn from_open<'a>(
    pair: &'a mut Pair,
    random: &'a mut Random,
    numbers: Record,
    asked: Vec<u32>,
) -> History<'a> {
    let mut memory = Memory::zeros_for(&numbers);
    for which in Buffer::ALL {
        memory.buffer_mut(which).fill_with(|| random.word());
    }
    pair.load(&memory);
    let answer = pair.call(numbers, Call::Open);
    pair.demand(answer.number == 0, numbers, || "open refused".to_string());
    History {
        pair,
        random,
        record: answer.record,
        asked,
        expected: BTreeMap::new(),
    }
}

fn from_sound_store<'a>(
    pair: &'a mut Pair,
    random: &'a mut Random,
    numbers: Record,
    keys: &[u32],
    asked: Vec<u32>,
) -> History<'a> {
    let store = random_sound_store(random, &numbers, keys);
    pair.load(&store.memory);
    History {
        pair,
        random,
        record: store.record,
        asked,
        expected: contents(&store.record, &store.memory),
    }
}

fn contents(record: &Record, memory: &Memory) -> BTreeMap<u32, u32> {
    let tables = memory.t0.chunks_exact(2).chain(memory.t1.chunks_exact(2));
    let waiting = memory.queue.chunks_exact(3);
    tables
        .filter(|words| words[0] != 0)
        .chain(waiting.take(record.queue_len as usize))
        .map(|words| (words[0], words[1]))
        .collect()
}

impl History<'_> {
    fn run(&mut self, calls: u32) {
        let mut mood = MOODS[0];
        for done in 0..calls {
            if done % CALLS_IN_ONE_MOOD == 0 {
                mood = self.random.pick(&MOODS);
            }
            match self.random.weighted(&[1, 20, 480]) {
                0 => self.open_anew(),
                1 => self.faulty_call(),
                _ => self.good_call(&mood),
            }
        }
        let answer = self.pair.call(self.record, Call::Check);
        self.judge(Call::Check, &answer);
    }

    fn good_call(&mut self, mood: &[usize; 6]) {
        let call = self.draw_call(mood);
        let answer = self.pair.call(self.record, call);
        self.judge(call, &answer);
        self.record = answer.record;
    }

    fn draw_call(&mut self, mood: &[usize; 6]) -> Call {
        let key = self.draw_key();
        let value = random_value(self.random);
        match self.random.weighted(mood) {
            0 => Call::Find { key },
            1 => Call::Define { key, value },
            2 => Call::Change { key, value },
            3 => Call::Remove { key },
            4 => Call::Settle {
                n: self.draw_settle(),
            },
            _ => Call::Check,
        }
    }

    /// Sometimes a key that waits, so that waiting keys are also found, changed and removed.
    fn draw_key(&mut self) -> u32 {
        let waiting = self.record.queue_len as usize;
        if waiting > 0 && self.random.one_in(4) {
            let at = self.random.below(waiting);
            return self.pair.memory().queue[3 * at];
        }
        if self.random.one_in(20) {
            return good_key(self.random);
        }
        self.random.pick(&self.asked)
    }

    fn draw_settle(&mut self) -> u32 {
        if self.random.one_in(3) {
            self.record.l
        } else {
            self.random.between(0, self.record.l)
        }
    }

    /// "An accepted open begins that history anew." The lengths in its record are ignored.
    fn open_anew(&mut self) {
        let numbers = with_functions(self.random, self.record);
        let numbers = Record {
            l: self.random.between(1, 64),
            queue_len: self.random.word(),
            detector_len: self.random.word(),
            ..numbers
        };
        let answer = self.pair.call(numbers, Call::Open);
        self.pair.demand(answer.number == 0, numbers, || {
            "open anew refused".to_string()
        });
        self.record = answer.record;
        self.expected.clear();
    }

    /// A call with one or more things wrong. It must be refused, and as both versions leave every
    /// word, the history goes on with the record from before it.
    fn faulty_call(&mut self) {
        let saved = self.pair.memory().clone();
        let mut record = self.record;
        let mut memory = saved.clone();
        let mood = self.random.pick(&MOODS);
        let mut call = if self.random.one_in(8) {
            Call::Open
        } else {
            self.draw_call(&mood)
        };
        let first = self.random.below(FAULT_KINDS);
        self.make_wrong(first, &mut call, &mut record, &mut memory);
        if self.random.one_in(4) {
            // Another kind: two faults of one kind could undo each other.
            let second = (first + 1 + self.random.below(FAULT_KINDS - 1)) % FAULT_KINDS;
            self.make_wrong(second, &mut call, &mut record, &mut memory);
        }
        if memory != saved {
            self.pair.load(&memory);
        }
        let answer = self.pair.call(record, call);
        self.pair.demand(answer.number != 0, record, || {
            format!("the faulty call {call:?} was accepted")
        });
        if memory != saved {
            self.pair.load(&saved);
        }
    }

    fn make_wrong(
        &mut self,
        kind: usize,
        call: &mut Call,
        record: &mut Record,
        memory: &mut Memory,
    ) {
        match kind {
            0 => faults::number_out_of_range(self.random, record),
            1 => self.wrong_buffer(memory),
            2 if *call != Call::Open => faults::length_above_room(self.random, record),
            _ => self.wrong_argument(call, record),
        }
    }

    /// A bad key or a settle above the limit; calls without an argument get a bad number instead.
    fn wrong_argument(&mut self, call: &mut Call, record: &mut Record) {
        let bad = faults::bad_key(self.random);
        match call {
            Call::Find { key }
            | Call::Define { key, .. }
            | Call::Change { key, .. }
            | Call::Remove { key } => *key = bad,
            Call::Settle { n } => *n = self.random.pick(&[record.l.saturating_add(1), u32::MAX]),
            Call::Open | Call::Check => faults::number_out_of_range(self.random, record),
        }
    }

    fn wrong_buffer(&mut self, memory: &mut Memory) {
        let buffer = memory.buffer_mut(self.random.pick(&Buffer::ALL));
        let wrong = faults::wrong_length(self.random, buffer.len());
        buffer.resize_with(wrong, || self.random.word());
    }

    /// What the plain map and the sound store say of a call without faults.
    fn judge(&mut self, call: Call, answer: &Answer) {
        let expected = self.expected_answer(call);
        let got = (answer.number, answer.value);
        self.pair.tally.map_answers += 1;
        self.pair.demand(got == expected, answer.record, || {
            format!("{call:?} answers {got:?}, a map answers {expected:?}")
        });
        if answer.number == 0 {
            self.follow(call);
        }
    }

    /// The refusal number and the value. Only whether the queue is full is not the map's matter.
    fn expected_answer(&self, call: Call) -> (u32, u32) {
        let held = call.key().and_then(|key| self.expected.get(&key)).copied();
        let queue_full = self.record.queue_len == self.record.q;
        match (call, held) {
            (Call::Define { .. }, Some(value)) => (5, value),
            (Call::Define { .. }, None) if queue_full => (6, 0),
            (Call::Find { .. } | Call::Change { .. } | Call::Remove { .. }, found) => {
                found.map_or((7, 0), |value| (0, value))
            }
            (Call::Settle { .. } | Call::Check | Call::Open | Call::Define { .. }, _) => (0, 0),
        }
    }

    fn follow(&mut self, call: Call) {
        match call {
            Call::Define { key, value } | Call::Change { key, value } => {
                self.expected.insert(key, value);
            }
            Call::Remove { key } => {
                self.expected.remove(&key);
            }
            Call::Open | Call::Find { .. } | Call::Settle { .. } | Call::Check => {}
        }
    }
}
