//! Arbitrary stores, nearly all of them unsound: "On an unsound store the calls still do what this
//! page says."

use crate::call::{Buffer, Call, Memory, Record};
use crate::faults;
use crate::model::{home, Table};
use crate::numbers::{good_key, key_pool, small_numbers};
use crate::pair::Pair;
use crate::random::Random;
use crate::sound::{random_sound_store, random_value};

/// Up to this many cells a buffer is given the length that the record asks for.
const MOST_CELLS_FOLLOWED: u32 = 40_000;
/// Tables with more cells hold zeros but for a few words.
const MOST_CELLS_FILLED: u32 = 1_000;

pub fn run(pair: &mut Pair, random: &mut Random) {
    let (mut record, memory) = if random.one_in(4) {
        scribbled_sound_store(random)
    } else {
        let record = arbitrary_record(random);
        (record, arbitrary_memory(random, &record))
    };
    pair.load(&memory);
    for _ in 0..random.between(1, 12) {
        let call = draw_call(random, &record, pair.memory());
        let answer = pair.call(record, call);
        let refused_open = call == Call::Open && answer.number != 0;
        if !refused_open || random.one_in(2) {
            record = answer.record;
        }
    }
}

/// A sound store with a few words changed, anywhere; with none of them changed it stays sound.
fn scribbled_sound_store(random: &mut Random) -> (Record, Memory) {
    let numbers = small_numbers(random);
    let size = random.between(1, 2 * numbers.r + 4) as usize;
    let keys = key_pool(random, &numbers, size);
    let store = random_sound_store(random, &numbers, &keys);
    let mut record = store.record;
    let mut memory = store.memory;
    for _ in 0..random.below(6) {
        let buffer = memory.buffer_mut(random.pick(&Buffer::ALL));
        let at = random.below(buffer.len());
        buffer[at] = match random.below(3) {
            0 => random.pick(&keys),
            _ => any_word(random),
        };
    }
    if random.one_in(4) {
        record.queue_len = random.between(0, record.q);
    }
    if random.one_in(4) {
        record.detector_len = random.between(0, record.d);
    }
    (record, memory)
}

fn arbitrary_record(random: &mut Random) -> Record {
    if random.one_in(60) {
        return random_words(random);
    }
    let mut record = small_numbers(random);
    for _ in 0..random.below(3) {
        faults::number_at_limit(random, &mut record);
    }
    if random.one_in(2_000) {
        record.r = 32_768;
    }
    record.queue_len = some_length(random, record.q);
    record.detector_len = some_length(random, record.d);
    if random.one_in(8) {
        faults::length_above_room(random, &mut record);
    }
    while random.one_in(8) {
        faults::number_out_of_range(random, &mut record);
    }
    record
}

fn random_words(random: &mut Random) -> Record {
    Record {
        r: any_word(random),
        q: any_word(random),
        d: any_word(random),
        l: any_word(random),
        a0: any_word(random),
        b0: any_word(random),
        a1: any_word(random),
        b1: any_word(random),
        queue_len: any_word(random),
        detector_len: any_word(random),
    }
}

fn some_length(random: &mut Random, room: u32) -> u32 {
    match random.below(4) {
        0 => room,
        1 => 0,
        _ => random.between(0, room),
    }
}

fn any_word(random: &mut Random) -> u32 {
    match random.below(8) {
        0 => 0,
        1 => random.between(1, 3),
        2 => random.between(0, 64),
        3 => 2_147_483_648 + random.between(0, 9),
        4 => 2_147_483_647 - random.between(0, 9),
        5 => u32::MAX,
        _ => random.word(),
    }
}

fn any_side(random: &mut Random) -> u32 {
    match random.below(8) {
        0..=2 => 0,
        3 | 4 => 1,
        5 => 2,
        6 => 2_147_483_648,
        _ => random.word(),
    }
}

fn arbitrary_memory(random: &mut Random, record: &Record) -> Memory {
    let mut memory = memory_of_some_lengths(random, record);
    if record.r <= MOST_CELLS_FILLED {
        fill(random, &mut memory);
    }
    put_sides(random, &mut memory);
    put_some_keys_at_home(random, record, &mut memory);
    memory
}

/// Mostly the lengths that the record asks for; where it asks for too much, any others.
fn memory_of_some_lengths(random: &mut Random, record: &Record) -> Memory {
    let followed = |random: &mut Random, asked: u32, width: usize| {
        if asked <= MOST_CELLS_FOLLOWED {
            width * asked as usize
        } else {
            random.below(100)
        }
    };
    let table = followed(random, record.r, 2);
    let queue = followed(random, record.q, 3);
    let detector = followed(random, record.d, 2);
    let mut memory = Memory::of_lengths(table, table, queue, detector);
    while random.one_in(8) {
        let buffer = memory.buffer_mut(random.pick(&Buffer::ALL));
        buffer.resize(faults::wrong_length(random, buffer.len()), 0);
    }
    if random.one_in(60) {
        faults::exchange_buffers(random, &mut memory);
    }
    memory
}

/// Small words, so that keys and homes meet; random words; or a mixture.
fn fill(random: &mut Random, memory: &mut Memory) {
    let style = random.below(4);
    let greatest_small = random.between(2, 20);
    for which in Buffer::ALL {
        memory
            .buffer_mut(which)
            .fill_with(|| match (style, random.below(4)) {
                (0, _) => random.between(0, greatest_small),
                (1, _) => random.word(),
                (2, 0..=2) => 0,
                _ => any_word(random),
            });
    }
}

fn put_sides(random: &mut Random, memory: &mut Memory) {
    if random.one_in(5) {
        return;
    }
    for words in memory.queue.chunks_exact_mut(3) {
        words[2] = any_side(random);
    }
    for words in memory.detector.chunks_exact_mut(2) {
        words[1] = any_side(random);
    }
}

fn put_some_keys_at_home(random: &mut Random, record: &Record, memory: &mut Memory) {
    if record.r == 0 {
        return;
    }
    for _ in 0..random.below(8) {
        let key = key_from(random, memory);
        let table = random.pick(&Table::BOTH);
        let words = match table {
            Table::Zero => &mut memory.t0,
            Table::One => &mut memory.t1,
        };
        if let Some(word) = words.get_mut(2 * home(record, table, key)) {
            *word = key;
        }
    }
}

/// A word that lies in the memory, or a small one, or any good key.
fn key_from(random: &mut Random, memory: &Memory) -> u32 {
    let words = memory.buffer(random.pick(&Buffer::ALL));
    match random.below(8) {
        0 => random.between(1, 20),
        1 => good_key(random),
        _ if words.is_empty() => good_key(random),
        _ => random.pick(words),
    }
}

/// A key that waits or is marked within the lengths, if the record lets such be.
fn waiting_key(random: &mut Random, record: &Record, memory: &Memory) -> Option<u32> {
    let waiting = (record.queue_len as usize).min(memory.queue.len() / 3);
    (waiting > 0).then(|| memory.queue[3 * random.below(waiting)])
}

fn draw_call(random: &mut Random, record: &Record, memory: &Memory) -> Call {
    let key = match random.below(12) {
        0 => faults::bad_key(random),
        1..=3 => waiting_key(random, record, memory).unwrap_or(1),
        _ => key_from(random, memory),
    };
    let value = random_value(random);
    match random.weighted(&[2, 12, 16, 10, 14, 20, 6]) {
        0 => Call::Open,
        1 => Call::Find { key },
        2 => Call::Define { key, value },
        3 => Call::Change { key, value },
        4 => Call::Remove { key },
        5 => Call::Settle {
            n: draw_settle(random, record),
        },
        _ => Call::Check,
    }
}

fn draw_settle(random: &mut Random, record: &Record) -> u32 {
    match random.below(10) {
        0 => record.l.saturating_add(1),
        1 => any_word(random),
        2 => 0,
        3..=5 => record.l,
        _ => random.between(0, record.l),
    }
}
