//! Demand 3 of the mission: "Any sound store with q keys waiting: if no group of present keys
//! (linked by shared cells) has more keys than cells and none has more than D/2 keys, settling
//! alone empties the queue within (q+1)*D steps, over as many calls as it takes. If some group has
//! more keys than cells, no settling ever empties it."

use crate::call::{Call, Record};
use crate::groups::{groups, Group};
use crate::long_walks::long_walks;
use crate::numbers::{key_pool, with_functions};
use crate::pair::Pair;
use crate::random::Random;
use crate::sound::{lay_out, place_keys, Placement};

/// A store with too many keys in a group is settled for so many times the bound of the others.
const TIMES_THE_BOUND: u64 = 4;

enum Case {
    Emptied,
    Overfull,
    NoClaim,
}

pub fn run(pair: &mut Pair, random: &mut Random) {
    let (numbers, placement) = if random.one_in(10) {
        draw_long_walks(random)
    } else {
        draw_placement(random)
    };
    let groups = groups(&numbers, &placement.present());
    let numbers = with_detector_room(random, numbers, &groups);
    let store = lay_out(random, &numbers, &placement);
    pair.load(&store.memory);
    let answer = pair.call(store.record, Call::Check);
    pair.demand(answer.number == 0, store.record, || {
        "check refuses a sound store".to_string()
    });
    match case_of(&groups, numbers.d) {
        Case::Emptied => must_empty(pair, random, store.record),
        Case::Overfull => must_never_empty(pair, random, store.record),
        Case::NoClaim => pair.tally.demand3.no_claim += 1,
    }
}

/// Keys in either home or waiting. A store where nothing waits has nothing to settle, and a group
/// with more keys than cells takes many calls, so these are mostly drawn again.
fn draw_placement(random: &mut Random) -> (Record, Placement) {
    loop {
        let numbers = draw_numbers(random);
        let size = random.between(1, 2 * numbers.r + 3) as usize;
        let keys = key_pool(random, &numbers, size);
        let wishes = random.pick(&[[0, 2, 2, 1], [0, 1, 1, 1], [0, 1, 1, 6], [2, 1, 1, 2]]);
        let placement = place_keys(random, &numbers, &keys, &wishes);
        let overfull = groups(&numbers, &placement.present())
            .iter()
            .any(Group::has_more_keys_than_cells);
        let dull = placement.waiting() == 0 || overfull;
        if !dull || random.one_in(8) {
            return (numbers, placement);
        }
    }
}

/// Groups that need many steps, each with one key waiting.
fn draw_long_walks(random: &mut Random) -> (Record, Placement) {
    loop {
        let q = random.between(1, 8);
        let path = random.between(1, 6);
        let numbers = Record {
            r: q * (path + 4) / 2 + random.between(1, 3),
            q,
            l: random.between(1, 64),
            ..Record::default()
        };
        let numbers = with_functions(random, numbers);
        if let Some(placement) = long_walks(random, &numbers, q as usize, path as usize) {
            return (numbers, placement);
        }
    }
}

/// All but the detector's room, which is chosen by the groups.
fn draw_numbers(random: &mut Random) -> Record {
    let r = match random.weighted(&[45, 45, 10]) {
        0 => random.between(1, 5),
        1 => random.between(6, 16),
        _ => random.between(17, 80),
    };
    let q = match random.weighted(&[60, 35, 5]) {
        0 => random.between(1, 3),
        1 => random.between(4, 16),
        _ => random.between(17, 64),
    };
    let l = match random.weighted(&[50, 50]) {
        0 => random.between(1, 6),
        _ => random.between(7, 64),
    };
    let numbers = Record {
        r,
        q,
        l,
        ..Record::default()
    };
    with_functions(random, numbers)
}

/// Often exactly twice the largest group: there the bound has least to spare.
fn with_detector_room(random: &mut Random, numbers: Record, groups: &[Group]) -> Record {
    let largest = groups.iter().map(|group| group.keys).max().unwrap_or(0) as u32;
    let twice_the_largest = (2 * largest).clamp(2, 128);
    let d = match random.weighted(&[6, 2, 2]) {
        0 => twice_the_largest,
        1 => random.between(twice_the_largest, (2 * twice_the_largest).min(128)),
        _ => random.between(2, 128),
    };
    Record { d, ..numbers }
}

fn case_of(groups: &[Group], d: u32) -> Case {
    if groups.iter().any(Group::has_more_keys_than_cells) {
        Case::Overfull
    } else if groups.iter().all(|group| 2 * group.keys <= d as usize) {
        Case::Emptied
    } else {
        Case::NoClaim
    }
}

/// (q+1)*D steps.
fn bound(record: &Record) -> u64 {
    (u64::from(record.queue_len) + 1) * u64::from(record.d)
}

/// Settles a random portion; gives the record and how many steps were done.
fn settle_some(pair: &mut Pair, random: &mut Random, record: Record) -> (Record, u64) {
    let n = random.between(0, record.l);
    let answer = pair.call(record, Call::Settle { n });
    (answer.record, u64::from(answer.steps))
}

fn must_empty(pair: &mut Pair, random: &mut Random, start: Record) {
    let bound = bound(&start);
    let mut record = start;
    let mut steps = 0;
    while record.queue_len > 0 && steps <= bound {
        let (next, done) = settle_some(pair, random, record);
        record = next;
        steps += done;
    }
    pair.demand(record.queue_len == 0 && steps <= bound, record, || {
        format!("from {start:?}: {steps} steps, bound {bound}, the queue should be empty")
    });
    pair.tally.demand3.emptied_after(steps, bound);
}

fn must_never_empty(pair: &mut Pair, random: &mut Random, start: Record) {
    let enough = TIMES_THE_BOUND * bound(&start);
    let mut record = start;
    let mut steps = 0;
    while record.queue_len > 0 && steps < enough {
        let (next, done) = settle_some(pair, random, record);
        record = next;
        steps += done;
    }
    pair.demand(record.queue_len > 0, record, || {
        format!("from {start:?}: empty after {steps} steps with more keys than cells")
    });
    pair.tally.demand3.overfull += 1;
}
