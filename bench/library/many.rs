//! Operations between many maps.
use crate::prepared::{ENTRIES, Map, Work, checksum, even, prepared};
use range_map_multi::MultiwayRangeMapBlazeRef;
use std::alloc::{AllocError, Global};

/// Returns `count` maps over the same keys.
fn maps_of(alloc: Global, count: u64) -> Result<Vec<Map>, AllocError> {
    let size = if count == 0 { 0 } else { ENTRIES / count };
    let mut maps = Vec::new(alloc);
    for place in 0..count {
        let gap = count.saturating_mul(16);
        maps.push(prepared(alloc, place.wrapping_add(1), size, gap, 0)?)?;
    }
    Ok(maps)
}

/// Returns the union of borrowed maps.
fn union_of(alloc: Global, maps: &[Map]) -> Result<Map, AllocError> {
    let mut borrowed = Vec::new(alloc);
    for map in maps {
        borrowed.push(map)?;
    }
    borrowed.union(alloc)
}

/// Builds the union of `size` borrowed maps, repeatedly.
pub fn union_of_many(work: Work) -> Result<u64, AllocError> {
    let maps = maps_of(work.alloc, work.size)?;
    let mut sum = 0;
    for _ in 0..work.count {
        sum = checksum(work.check, sum, &union_of(work.alloc, &maps)?);
    }
    Ok(sum)
}

/// The operations between three maps.
#[derive(Clone, Copy, Debug)]
pub enum OfThree {
    Union,
    SymmetricDifference,
}

impl OfThree {
    /// Combines three borrowed maps.
    fn of(self, alloc: Global, maps: [&Map; 3]) -> Result<Map, AllocError> {
        match self {
            OfThree::Union => maps.union(alloc),
            OfThree::SymmetricDifference => maps.symmetric_difference(alloc),
        }
    }
}

/// Combines a borrowed map with two borrowed maps of ten entries, repeatedly. In the list of maps, one is before it and one
/// after it.
pub fn combine_three(work: Work, operation: OfThree) -> Result<u64, AllocError> {
    let map = even(work, 1)?;
    let gap = (work.size / 10).saturating_mul(16);
    let before = prepared(work.alloc, 3, 10, gap, 0)?;
    let after = prepared(work.alloc, 4, 10, gap, 0)?;
    let mut sum = 0;
    for _ in 0..work.count {
        let made = operation.of(work.alloc, [&before, &map, &after])?;
        sum = checksum(work.check, sum, &made);
    }
    Ok(sum)
}
