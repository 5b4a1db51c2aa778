//! Maps that works start with, and checksums of their results.
use crate::draw::Draw;
use range_map_blaze::RangeMapBlaze;
use std::alloc::{AllocError, Global};

/// The type of the maps in all works.
pub type Map = RangeMapBlaze<i64, u64>;

/// The parameters of a work.
#[derive(Clone, Copy)]
pub struct Work {
    pub alloc: Global,
    /// Whether the checksum includes the final entries.
    pub check: bool,
    /// The number of entries of the maps.
    pub size: u64,
    /// The number of operations.
    pub count: u64,
}

/// The number of entries of all maps together, for works whose size means another number.
pub const ENTRIES: u64 = 100_000;

/// The average number of keys for each entry of a prepared map, including the gap before it.
const SPACING: u64 = 17;

/// Returns about the number of keys from the first to the last key of a prepared map of `size` entries.
pub fn spread(size: u64) -> u64 {
    size.saturating_mul(SPACING)
}

/// Returns a map of `size` entries of 1 to 16 keys, or of `keys` keys, after gaps of 1 to `gap` keys.
pub fn prepared(
    alloc: Global,
    seed: u64,
    size: u64,
    gap: u64,
    keys: u64,
) -> Result<Map, AllocError> {
    let mut draw = Draw::new(seed);
    let mut items = Vec::new(alloc);
    let mut next = 0i64;
    for _ in 0..size {
        let start = next.wrapping_add(draw.key(gap));
        let more = if keys == 0 {
            draw.key(16)
        } else {
            (keys - 1).cast_signed()
        };
        let end = start.wrapping_add(more);
        next = end.wrapping_add(2);
        items.push((start..=end, draw.below(4)))?;
    }
    RangeMapBlaze::from_ranges(alloc, items)
}

/// Returns a map of entries of 1 to 16 keys after gaps of 1 to 16 keys.
pub fn even(work: Work, seed: u64) -> Result<Map, AllocError> {
    prepared(work.alloc, seed, work.size, 16, 0)
}

/// Returns `count` copies of a map.
pub fn copies(alloc: Global, map: &Map, count: u64) -> Result<Vec<Map>, AllocError> {
    let mut maps = Vec::new(alloc);
    for _ in 0..count {
        maps.push(map.clone()?)?;
    }
    Ok(maps)
}

/// Adds a part to a checksum.
pub fn mix(sum: u64, part: u64) -> u64 {
    sum.wrapping_mul(31).wrapping_add(part)
}

/// Adds a map to a checksum: the number of its keys, and its entries if they are checked.
pub fn checksum(check: bool, sum: u64, map: &Map) -> u64 {
    let mut sum = sum;
    if check {
        for (range, value) in map.range_values() {
            let (start, end) = range.into_inner();
            sum = mix(sum, start.cast_unsigned());
            sum = mix(sum, end.cast_unsigned());
            sum = mix(sum, *value);
        }
    }
    mix(sum, u64::try_from(map.len()).unwrap_or(u64::MAX))
}
