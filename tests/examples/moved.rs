//! Values that are moved and not cloned: the clone of each of them fails.
use crate::stubborn::{Stubborn, deaf};
use blaze_iters::OwnedRangeValuesIter;
use blaze_streams::{SortedDisjointMap, union_of};
use blaze_table::{RangeTable, canonical_of};
use range_map_blaze::{RangeMapBlaze, RangeSetBlaze};
use std::alloc::{AllocError, Global};
use std::ops::RangeInclusive;

type Stream = OwnedRangeValuesIter<i64, Stubborn>;

/// A table of one range, as an owned stream.
fn stream_of(alloc: Global, start: i64, end: i64, n: u32) -> Result<Stream, AllocError> {
    let mut table = RangeTable::new(alloc);
    if start <= end {
        let _ = table.paint(start, end, deaf(n))?;
    }
    Ok(OwnedRangeValuesIter::new(table))
}

/// A merge in which every piece is the last of its range.
fn merged(rt: &HostRuntime, left: Stream, right: Stream) -> Result<(), AllocError> {
    let _ = println!(rt; "{} {}", left.least_len(), right.least_len());
    for (range, value) in union_of(rt.alloc(), left, right)? {
        let _ = println!(rt; "{range:?} {value:?}");
    }
    Ok(())
}

/// Pairs painted in order, each of which is one piece.
fn painted(rt: &HostRuntime) -> Result<(), AllocError> {
    let pairs = vec![in rt.alloc(); (0i64, 10, deaf(1)), (5, 7, deaf(2)), (8, 12, deaf(3))]?;
    for (start, end, value) in canonical_of(rt.alloc(), pairs)? {
        let _ = println!(rt; "{start}..={end} {value:?}");
    }
    Ok(())
}

type Map = RangeMapBlaze<i64, Stubborn>;

/// A map of ranges of keys.
fn map_of(alloc: Global, ranges: &[(i64, i64, u32)]) -> Result<Map, AllocError> {
    let mut map = RangeMapBlaze::new(alloc);
    for (start, end, n) in ranges {
        let _ = map.ranges_insert(*start..=*end, deaf(*n))?;
    }
    Ok(map)
}

/// A map with the keys 0..=9 and 20..=29.
fn left(alloc: Global) -> Result<Map, AllocError> {
    map_of(alloc, &[(0, 9, 1), (20, 29, 2)])
}

/// A map with the keys 0..=9 and 40..=49.
fn right(alloc: Global) -> Result<Map, AllocError> {
    map_of(alloc, &[(0, 9, 3), (40, 49, 4)])
}

/// A map with the keys 28..=29.
fn few(alloc: Global) -> Result<Map, AllocError> {
    map_of(alloc, &[(28, 29, 2)])
}

/// A map with the keys 27..=28.
fn few_below(alloc: Global) -> Result<Map, AllocError> {
    map_of(alloc, &[(27, 28, 2)])
}

/// The even keys up to 30.
fn even_keys(alloc: Global) -> Result<Vec<RangeInclusive<i64>>, AllocError> {
    let mut ranges = Vec::new(alloc);
    for half in 0..16u8 {
        let key = i64::from(half.wrapping_mul(2));
        ranges.push(key..=key)?;
    }
    Ok(ranges)
}

/// A map of many entries: the even keys up to 30, and 40..=49.
fn many(alloc: Global) -> Result<Map, AllocError> {
    let mut map = map_of(alloc, &[(40, 49, 1)])?;
    for range in even_keys(alloc)? {
        let _ = map.ranges_insert(range, deaf(1))?;
    }
    Ok(map)
}

/// Prints what an operation made.
fn show(rt: &HostRuntime, call: &str, made: Result<Map, AllocError>) {
    let _ = println!(rt; "{call}: {made:?}");
}

/// Operators on maps of like sizes, in which every piece is the last of its range.
fn with_maps(rt: &HostRuntime) -> Result<(), AllocError> {
    let alloc = rt.alloc();
    show(rt, "a & b", left(alloc)? & right(alloc)?);
    show(rt, "a - b", left(alloc)? - right(alloc)?);
    show(rt, "a ^ b", left(alloc)? ^ right(alloc)?);
    Ok(())
}

/// Operators with the keys of a set, in which every piece is the last of its range.
fn with_a_set(rt: &HostRuntime, s: &RangeSetBlaze<i64>) -> Result<(), AllocError> {
    let alloc = rt.alloc();
    show(rt, "a & &s", left(alloc)? & s);
    show(rt, "a - &s", left(alloc)? - s);
    show(rt, "many - &s", many(alloc)? - s);
    Ok(())
}

/// Operators on an owned map of many entries and a map of few.
fn with_many(rt: &HostRuntime) -> Result<(), AllocError> {
    let alloc = rt.alloc();
    show(rt, "many - a", many(alloc)? - few(alloc)?);
    show(rt, "many ^ a", many(alloc)? ^ few(alloc)?);
    Ok(())
}

/// An owned map of few entries, and a borrowed map and set of many: every piece is the last of its range.
fn with_borrowed_many(
    rt: &HostRuntime,
    many: &Map,
    t: &RangeSetBlaze<i64>,
) -> Result<(), AllocError> {
    let alloc = rt.alloc();
    show(rt, "&many & a", many & few_below(alloc)?);
    show(rt, "a - &many", few(alloc)? - many);
    show(rt, "a & &t", few_below(alloc)? & t);
    Ok(())
}

/// Makes all calls of operators.
fn operators(rt: &HostRuntime) -> Result<(), AllocError> {
    let alloc = rt.alloc();
    with_maps(rt)?;
    with_many(rt)?;
    with_a_set(
        rt,
        &RangeSetBlaze::from_ranges(alloc, vec![in alloc; 0..=9]?)?,
    )?;
    let t = RangeSetBlaze::from_ranges(alloc, even_keys(alloc)?)?;
    with_borrowed_many(rt, &many(alloc)?, &t)
}

/// Makes all calls of this file.
pub fn all(rt: &HostRuntime) -> Result<(), AllocError> {
    let left = stream_of(rt.alloc(), 0, 9, 1)?;
    merged(rt, left, stream_of(rt.alloc(), -1, 4, 2)?)?;
    painted(rt)?;
    operators(rt)
}
