//! Walks over the keys of a map, one by one.
use super::{mix, prepared};

/// Iterates over all keys of a map of `size` entries, `count` times. `way` says what it reads: 0 keys and values, 1 keys, 2 values, and
/// 3 to 5 these three from the end.
pub fn walk(way: u32, size: u64, count: u64) -> u64 {
    let map = prepared(1, size, 16, 0);
    let mut sum = 0;
    for _ in 0..count {
        let part = match way {
            0 => map.pairs().fold(0, both),
            1 => map.pairs().fold(0, |sum, (key, _)| key_alone(sum, key)),
            2 => map.pairs().fold(0, |sum, (_, value)| value_alone(sum, value)),
            3 => map.pairs().rev().fold(0, both),
            4 => map.pairs().rev().fold(0, |sum, (key, _)| key_alone(sum, key)),
            _ => map.pairs().rev().fold(0, |sum, (_, value)| value_alone(sum, value)),
        };
        sum = mix(sum, part);
    }
    sum
}

/// Iterates over all keys of `count` of four owned maps.
pub fn walk_owned(size: u64, count: u64) -> u64 {
    let map = prepared(1, size, 16, 0);
    let mut sum = 0;
    for map in vec![map; 4].into_iter().take(count as usize) {
        sum = mix(sum, map.into_pairs().fold(0, |sum, (key, value)| both(sum, (key, &value))));
    }
    sum
}

fn both(sum: u64, pair: (i64, &u64)) -> u64 {
    (sum ^ pair.0 as u64).wrapping_add(*pair.1)
}

fn key_alone(sum: u64, key: i64) -> u64 {
    sum.wrapping_add(key as u64)
}

fn value_alone(sum: u64, value: &u64) -> u64 {
    sum.wrapping_add(*value)
}
