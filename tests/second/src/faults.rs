//! Makes single inputs wrong: numbers, lengths, keys. Used inside histories and on arbitrary stores.

use crate::call::{Memory, Record};
use crate::random::Random;

const P: u32 = 2_147_483_647;

/// The ranges of the eight numbers in the order of the record.
const RANGES: [(u32, u32); 8] = [
    (1, 32_768),
    (1, 64),
    (2, 128),
    (1, 64),
    (1, P - 1),
    (0, P - 1),
    (1, P - 1),
    (0, P - 1),
];

fn number_mut(record: &mut Record, which: usize) -> &mut u32 {
    match which {
        0 => &mut record.r,
        1 => &mut record.q,
        2 => &mut record.d,
        3 => &mut record.l,
        4 => &mut record.a0,
        5 => &mut record.b0,
        6 => &mut record.a1,
        _ => &mut record.b1,
    }
}

/// One of the eight numbers leaves its range, often by one.
pub fn number_out_of_range(random: &mut Random, record: &mut Record) {
    let which = random.below(RANGES.len());
    let (least, greatest) = RANGES[which];
    *number_mut(record, which) = match random.weighted(&[4, 3, 1, 1]) {
        0 => greatest + 1,
        1 => least.wrapping_sub(1),
        2 => u32::MAX,
        _ => random.between(greatest + 1, u32::MAX),
    };
}

/// One of the eight numbers goes to an end of its range and so stays in it. The number of cells
/// is left out here: it would make every such store a big one.
pub fn number_at_limit(random: &mut Random, record: &mut Record) {
    let which = 1 + random.below(RANGES.len() - 1);
    let (least, greatest) = RANGES[which];
    *number_mut(record, which) = random.pick(&[least, greatest]);
}

/// The queue's or the detector's length goes above its room.
pub fn length_above_room(random: &mut Random, record: &mut Record) {
    let (length, room) = if random.one_in(2) {
        (&mut record.queue_len, record.q)
    } else {
        (&mut record.detector_len, record.d)
    };
    let just_above = room.saturating_add(1);
    *length = match random.weighted(&[4, 1, 1]) {
        0 => just_above,
        1 => u32::MAX,
        _ => random.between(just_above, u32::MAX),
    };
}

pub fn bad_key(random: &mut Random) -> u32 {
    match random.weighted(&[3, 3, 1, 1]) {
        0 => 0,
        1 => P + 1,
        2 => u32::MAX,
        _ => random.between(P + 1, u32::MAX),
    }
}

/// A length that is not the right one.
pub fn wrong_length(random: &mut Random, right: usize) -> usize {
    let wrong = match random.weighted(&[4, 4, 2, 1, 1]) {
        0 => right + 1,
        1 => right.saturating_sub(1),
        2 => 0,
        3 => 2 * right,
        _ => random.below(2 * right + 3),
    };
    if wrong == right {
        right + 1
    } else {
        wrong
    }
}

/// Two buffers of different lengths change places; if all are equal, nothing changes.
pub fn exchange_buffers(random: &mut Random, memory: &mut Memory) {
    if random.one_in(2) {
        std::mem::swap(&mut memory.queue, &mut memory.detector);
    } else {
        std::mem::swap(&mut memory.t1, &mut memory.queue);
    }
}
