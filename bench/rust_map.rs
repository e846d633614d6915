//! Rust's HashMap with its own hasher, behind the calls of foreign.h.

use std::collections::hash_map::{Entry, HashMap};
use std::slice::from_raw_parts;

type Map = HashMap<u32, u32>;

fn value_of(key: u32, salt: u32) -> u32 {
    key.wrapping_mul(2_654_435_761).wrapping_add(salt)
}

fn define(map: &mut Map, key: u32, value: u32) -> u32 {
    match map.entry(key) {
        Entry::Occupied(_) => 0,
        Entry::Vacant(place) => {
            place.insert(value);
            1
        }
    }
}

#[no_mangle]
pub extern "C" fn rust_map_new(room: usize) -> *mut Map {
    Box::into_raw(Box::new(Map::with_capacity(room)))
}

/// # Safety
/// `map` comes from `rust_map_new` and is not used again.
#[no_mangle]
pub unsafe extern "C" fn rust_map_free(map: *mut Map) {
    drop(Box::from_raw(map));
}

/// # Safety
/// `map` comes from `rust_map_new`; `keys` has `n` words. So in every function below.
#[no_mangle]
pub unsafe extern "C" fn rust_map_define_all(map: &mut Map, keys: *const u32, n: usize) -> u64 {
    let keys = from_raw_parts(keys, n);
    keys.iter()
        .map(|&key| u64::from(define(map, key, value_of(key, 0))))
        .sum()
}

/// # Safety
/// As above.
#[no_mangle]
pub unsafe extern "C" fn rust_map_find_all(map: &Map, keys: *const u32, n: usize) -> u64 {
    let keys = from_raw_parts(keys, n);
    keys.iter()
        .map(|key| map.get(key).map_or(1, |&value| u64::from(value)))
        .sum()
}

/// # Safety
/// As above.
#[no_mangle]
pub unsafe extern "C" fn rust_map_change_all(
    map: &mut Map,
    keys: *const u32,
    n: usize,
    salt: u32,
) -> u64 {
    let mut change = |key: u32| match map.get_mut(&key) {
        Some(value) => std::mem::replace(value, value_of(key, salt)),
        None => 1,
    };
    let keys = from_raw_parts(keys, n);
    keys.iter().map(|&key| u64::from(change(key))).sum()
}

/// # Safety
/// As above.
#[no_mangle]
pub unsafe extern "C" fn rust_map_renew_all(map: &mut Map, keys: *const u32, n: usize) -> u64 {
    let mut sum = 0;
    for &key in from_raw_parts(keys, n) {
        sum += u64::from(map.remove(&key).unwrap_or(1));
        sum += u64::from(define(map, key, value_of(key, 0)));
    }
    sum
}

#[no_mangle]
pub extern "C" fn rust_map_define_one(map: &mut Map, key: u32, value: u32) -> u32 {
    define(map, key, value)
}
