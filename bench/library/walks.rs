//! Iterations over the keys of a map, one by one.
use crate::prepared::{Work, copies, even, mix, prepared};
use std::alloc::AllocError;

/// The iterator that a work uses.
#[derive(Clone, Copy)]
pub enum Way {
    Pairs,
    Keys,
    Values,
    PairsFromBehind,
    KeysFromBehind,
    ValuesFromBehind,
}

/// Iterates over the keys with their values, repeatedly. Each entry has `keys` keys.
pub fn walk(work: Work, keys: u64) -> Result<u64, AllocError> {
    let map = prepared(work.alloc, 1, work.size, 16, keys)?;
    let mut sum = 0u64;
    for _ in 0..work.count {
        for (key, value) in map.iter() {
            sum = both(sum, key, *value);
        }
    }
    Ok(sum)
}

fn both(sum: u64, key: i64, value: u64) -> u64 {
    (sum ^ key.cast_unsigned()).wrapping_add(value)
}

/// Iterates over all keys of a map, repeatedly.
pub fn walk_by(work: Work, way: Way) -> Result<u64, AllocError> {
    let map = even(work, 1)?;
    let mut sum = 0;
    for _ in 0..work.count {
        let mut part = 0u64;
        match way {
            Way::Pairs => {
                for (key, value) in map.iter() {
                    part = both(part, key, *value);
                }
            }
            Way::Keys => {
                for key in map.keys() {
                    part = part.wrapping_add(key.cast_unsigned());
                }
            }
            Way::Values => {
                for value in map.values() {
                    part = part.wrapping_add(*value);
                }
            }
            Way::PairsFromBehind => {
                for (key, value) in map.iter().rev() {
                    part = both(part, key, *value);
                }
            }
            Way::KeysFromBehind => {
                for key in map.keys().rev() {
                    part = part.wrapping_add(key.cast_unsigned());
                }
            }
            Way::ValuesFromBehind => {
                for value in map.values().rev() {
                    part = part.wrapping_add(*value);
                }
            }
        }
        sum = mix(sum, part);
    }
    Ok(sum)
}

/// Iterates over all keys of four owned maps.
pub fn walk_owned(work: Work) -> Result<u64, AllocError> {
    let mut sum = 0;
    let mut left = work.count;
    for map in copies(work.alloc, &even(work, 1)?, 4)? {
        if left == 0 {
            break;
        }
        left -= 1;
        let mut part = 0u64;
        for pair in map {
            let (key, value) = pair?;
            part = both(part, key, value);
        }
        sum = mix(sum, part);
    }
    Ok(sum)
}
