//! Draws the numbers of a store and the keys that its calls ask for.

use crate::call::Record;
use crate::model::{home, Table};
use crate::random::Random;
use std::collections::BTreeSet;

const P: u32 = 2_147_483_647;

/// Numbers in range, both lengths 0; small rooms often, so that they fill.
pub fn small_numbers(random: &mut Random) -> Record {
    let r = match random.weighted(&[30, 35, 30, 5]) {
        0 => random.between(1, 4),
        1 => random.between(5, 12),
        2 => random.between(13, 40),
        _ => random.between(41, 300),
    };
    numbers_with_cells(random, r)
}

pub fn big_numbers(random: &mut Random) -> Record {
    let r = match random.weighted(&[1, 1, 1]) {
        0 => 32_768,
        1 => random.between(32_000, 32_767),
        _ => random.between(2_000, 32_000),
    };
    numbers_with_cells(random, r)
}

fn numbers_with_cells(random: &mut Random, r: u32) -> Record {
    let q = small_or_up_to(random, 1, 4, 64);
    let d = small_or_up_to(random, 2, 8, 128);
    let l = small_or_up_to(random, 1, 3, 64);
    let numbers = Record {
        r,
        q,
        d,
        l,
        ..Record::default()
    };
    with_functions(random, numbers)
}

fn small_or_up_to(random: &mut Random, least: u32, small: u32, greatest: u32) -> u32 {
    match random.weighted(&[75, 20, 5]) {
        0 => random.between(least, small),
        1 => random.between(least, greatest),
        _ => greatest,
    }
}

/// Puts function numbers into the record: random ones, equal ones, plain ones, those of store S
/// on the page, the greatest ones.
pub fn with_functions(random: &mut Random, numbers: Record) -> Record {
    let (a0, b0) = (random.between(1, P - 1), random.between(0, P - 1));
    let (a1, b1) = (random.between(1, P - 1), random.between(0, P - 1));
    let (a0, b0, a1, b1) = match random.weighted(&[50, 12, 12, 6, 12, 8]) {
        0 => (a0, b0, a1, b1),
        1 => (a0, b0, a0, b0),
        2 => (1, 0, a1, b1),
        3 => (1, 0, 1, 0),
        4 => (1, 0, 536_870_912, 0),
        _ => (P - 1, P - 1, a1, P - 1),
    };
    Record {
        a0,
        b0,
        a1,
        b1,
        ..numbers
    }
}

pub fn good_key(random: &mut Random) -> u32 {
    match random.weighted(&[4, 4, 1]) {
        0 => random.between(1, 64),
        1 => random.between(1, P),
        _ => P - random.between(0, 2),
    }
}

/// About `size` different good keys in random order; fewer where a style does not give so many.
pub fn key_pool(random: &mut Random, numbers: &Record, size: usize) -> Vec<u32> {
    let size_word = size as u32;
    let mut keys: Vec<u32> = match random.weighted(&[30, 10, 30, 15, 15]) {
        0 => (1..=size_word).collect(),
        1 => (P - size_word + 1..=P).collect(),
        2 => distinct(size, || random.between(1, P)),
        3 => multiples(numbers.r, size),
        _ => keys_of_few_cells(random, numbers, size),
    };
    random.shuffle(&mut keys);
    keys
}

fn distinct(size: usize, mut draw: impl FnMut() -> u32) -> Vec<u32> {
    let mut keys = BTreeSet::new();
    while keys.len() < size {
        keys.insert(draw());
    }
    keys.into_iter().collect()
}

/// With a plain function these share one home.
fn multiples(r: u32, size: usize) -> Vec<u32> {
    (1..=size as u32)
        .filter_map(|times| r.checked_mul(times))
        .filter(|key| *key <= P)
        .collect()
}

/// Keys whose homes in table 0 are among the first few cells, so that groups become large.
fn keys_of_few_cells(random: &mut Random, numbers: &Record, size: usize) -> Vec<u32> {
    let few = 1 + random.below(3);
    let tries = 50 * size;
    let keys: BTreeSet<u32> = (0..tries)
        .map(|_| random.between(1, P))
        .filter(|key| home(numbers, Table::Zero, *key) < few)
        .take(size)
        .collect();
    let lonely = keys.is_empty();
    keys.into_iter().chain(lonely.then_some(1)).collect()
}
