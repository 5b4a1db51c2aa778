//! Works on whole maps.
use crate::prepared::{Map, Work, checksum, copies, even, prepared, spread};
use range_map_multi::{MultiwayRangeMapBlaze, MultiwayRangeMapBlazeRef};
use std::alloc::{AllocError, Global};

/// The combinations of two maps.
#[derive(Clone, Copy, Debug)]
pub enum Combination {
    Union,
    Intersection,
    /// The first map's values at the keys of the second.
    Restriction,
    Difference,
    SymmetricDifference,
    /// The sums of the values at the keys of both maps.
    InnerJoin,
    /// The sums of the values at the keys of the first map, where the second map may have none.
    LeftJoin,
    /// The sums of the values at the keys of at least one map, where the other map may have none.
    FullJoin,
    /// The union of the two maps, by the operation for many maps.
    UnionOfMany,
    /// The intersection of the two maps, by the operation for many maps.
    IntersectionOfMany,
}

/// Returns the combination of the work with this number, and the number of entries of its second map. The first map has
/// `size` entries.
pub fn combined(number: u32, size: u64) -> Option<(Combination, u64)> {
    match number {
        8 => Some((Combination::Union, size)),
        9 => Some((Combination::Union, size / 10)),
        10 => Some((Combination::Union, 100)),
        12 => Some((Combination::Intersection, size)),
        13 => Some((Combination::Difference, size)),
        14 => Some((Combination::SymmetricDifference, size)),
        21 => Some((Combination::Restriction, 100)),
        22 => Some((Combination::Difference, 100)),
        28 => Some((Combination::SymmetricDifference, 100)),
        30 => Some((Combination::InnerJoin, size)),
        31 => Some((Combination::InnerJoin, 100)),
        32 => Some((Combination::LeftJoin, 100)),
        33 => Some((Combination::UnionOfMany, 100)),
        34 => Some((Combination::IntersectionOfMany, 100)),
        52 => Some((Combination::FullJoin, size)),
        _ => None,
    }
}

/// Splits sixteen maps in the middle.
pub fn split_off(work: Work) -> Result<u64, AllocError> {
    let map = even(work, 1)?;
    let middle = (spread(work.size) / 2).cast_signed();
    let mut sum = 0;
    let mut left = work.count;
    for map in copies(work.alloc, &map, 16)? {
        let mut map = map;
        if left > 0 {
            left -= 1;
            sum = checksum(work.check, sum, &map.split_off(middle)?);
        }
        sum = checksum(work.check, sum, &map);
    }
    Ok(sum)
}

/// Appends maps to four others of the same size.
pub fn append(work: Work) -> Result<u64, AllocError> {
    let mut maps = copies(work.alloc, &even(work, 1)?, 4)?;
    let mut sum = 0;
    let mut left = work.count;
    for other in copies(work.alloc, &even(work, 3)?, 4)? {
        let mut other = other;
        if let Some(mut map) = maps.pop() {
            if left > 0 {
                left -= 1;
                map.append(&mut other)?;
            }
            sum = checksum(work.check, sum, &map);
        }
        sum = checksum(work.check, sum, &other);
    }
    Ok(sum)
}

/// Builds the map of half the values, repeatedly.
pub fn halve_values(work: Work) -> Result<u64, AllocError> {
    let map = even(work, 1)?;
    let mut sum = 0;
    for _ in 0..work.count {
        let halves = map.transform_values(|value| *value / 2)?;
        sum = checksum(work.check, sum, &halves);
    }
    Ok(sum)
}

impl Combination {
    /// Combines two borrowed maps.
    fn of(self, alloc: Global, map: &Map, other: &Map) -> Result<Map, AllocError> {
        match self {
            Combination::Union => map | other,
            Combination::Intersection => map & other,
            Combination::Restriction => other & map,
            Combination::Difference => map - other,
            Combination::SymmetricDifference => map ^ other,
            Combination::InnerJoin => map.inner_join(
                other,
                |left, right| left.wrapping_add(*right),
            ),
            Combination::LeftJoin => {
                other.left_join(
                    map,
                    |left, right| left.wrapping_add(right.copied().unwrap_or(0)),
                )
            }
            Combination::FullJoin => map.full_join(other, |left, right| {
                let left = left.copied().unwrap_or(0);
                left.wrapping_add(right.copied().unwrap_or(0))
            }),
            Combination::UnionOfMany => [map, other].union(alloc),
            Combination::IntersectionOfMany => [map, other].intersection(alloc),
        }
    }

    /// Combines two owned maps. Joins and the intersection of many borrow them.
    fn of_values(self, alloc: Global, map: Map, other: Map) -> Result<Map, AllocError> {
        match self {
            Combination::Union => map | other,
            Combination::Intersection => map & other,
            Combination::Restriction => other & map,
            Combination::Difference => map - other,
            Combination::SymmetricDifference => map ^ other,
            Combination::UnionOfMany => union_of_two(alloc, map, other),
            Combination::InnerJoin
            | Combination::LeftJoin
            | Combination::FullJoin
            | Combination::IntersectionOfMany => self.of(alloc, &map, &other),
        }
    }
}

/// Returns the union of two owned maps, by the operation for many maps.
fn union_of_two(alloc: Global, map: Map, other: Map) -> Result<Map, AllocError> {
    let mut maps = Vec::new(alloc);
    maps.push(map)?;
    maps.push(other)?;
    maps.union(alloc)
}

/// Combines two borrowed maps, repeatedly.
pub fn combine(work: Work, combination: Combination, other: u64) -> Result<u64, AllocError> {
    let gap = if other == 0 { 0 } else { work.size / other };
    let map = even(work, 1)?;
    let other = prepared(work.alloc, 3, other, gap.saturating_mul(16), 0)?;
    let mut sum = 0;
    for _ in 0..work.count {
        sum = checksum(work.check, sum, &combination.of(work.alloc, &map, &other)?);
    }
    Ok(sum)
}

/// Returns a map with one entry for each sixteen of the other map's. Its entries cover nearly all keys of the other
/// map.
fn wide(work: Work) -> Result<Map, AllocError> {
    prepared(work.alloc, 3, work.size / 16, 0, spread(16))
}

/// Combines a borrowed map with such a wide map, repeatedly.
pub fn combine_wide(work: Work, combination: Combination) -> Result<u64, AllocError> {
    let map = even(work, 1)?;
    let other = wide(work)?;
    let mut sum = 0;
    for _ in 0..work.count {
        sum = checksum(work.check, sum, &combination.of(work.alloc, &map, &other)?);
    }
    Ok(sum)
}

/// Combines each of four owned maps with an owned wide map.
pub fn combine_wide_owned(work: Work, combination: Combination) -> Result<u64, AllocError> {
    let mut others = copies(work.alloc, &wide(work)?, 4)?;
    let mut sum = 0;
    let mut left = work.count;
    for map in copies(work.alloc, &even(work, 1)?, 4)? {
        let mut map = map;
        if let Some(other) = others.pop() {
            if left > 0 {
                left -= 1;
                map = combination.of_values(work.alloc, map, other)?;
            }
        }
        sum = checksum(work.check, sum, &map);
    }
    Ok(sum)
}

/// Combines an owned map with a thousand small owned maps, one after another.
pub fn combine_owned(work: Work, combination: Combination) -> Result<u64, AllocError> {
    let mut map = even(work, 1)?;
    let gap = (work.size / 100).saturating_mul(16);
    let mut others = Vec::new(work.alloc);
    for seed in 3..1003 {
        others.push(prepared(work.alloc, seed, 100, gap, 0)?)?;
    }
    let mut left = work.count;
    for other in others {
        if left == 0 {
            break;
        }
        left -= 1;
        map = combination.of_values(work.alloc, map, other)?;
    }
    Ok(checksum(work.check, 0, &map))
}
