//! Works on many entries at once.
use super::{Map, SPACING, checksum, prepared};
use crate::draw::Draw;

/// Paints ranges over about ten entries each, from the least key up.
pub fn paint_over_ten(check: bool, size: u64, count: u64) -> u64 {
    let mut map = prepared(1, size, 16, 0);
    let mut draw = Draw(2);
    let mut lo = 0;
    for _ in 0..count {
        let above = lo + (SPACING * 10) as i64;
        map.paint(lo, above - 1, draw.below(4));
        lo = above;
    }
    checksum(check, 0, &map)
}

/// Paints all keys of four maps, each in one call, with a value that no entry has.
pub fn paint_over_all(check: bool, size: u64, count: u64) -> u64 {
    let map = prepared(1, size, 16, 0);
    let above = (SPACING * size * 2) as i64;
    let mut sum = 0;
    for (place, mut map) in (0..).zip(vec![map; 4]) {
        if place < count {
            map.paint(0, above - 1, 4);
        }
        sum = checksum(check, sum, &map);
    }
    sum
}

/// Builds the map of half the values, repeatedly.
pub fn halve_values(check: bool, size: u64, count: u64) -> u64 {
    let map = prepared(1, size, 16, 0);
    let mut sum = 0;
    for _ in 0..count {
        sum = checksum(check, sum, &map.transform_values(|value| value / 2));
    }
    sum
}

/// Combines a borrowed map with two borrowed maps of ten entries, one before it and one after it in the order of operands, repeatedly.
pub fn combine_three(check: bool, size: u64, count: u64, operation: fn(&Map, &Map, &Map) -> Map) -> u64 {
    let map = prepared(1, size, 16, 0);
    let before = prepared(3, 10, 16 * (size / 10), 0);
    let after = prepared(4, 10, 16 * (size / 10), 0);
    let mut sum = 0;
    for _ in 0..count {
        sum = checksum(check, sum, &operation(&before, &map, &after));
    }
    sum
}
