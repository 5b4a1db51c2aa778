//! Operations between many owned maps, in an array and as streams, and their joins.
use crate::maps::{Letters, Numbers, map_of};
use crate::streams::show;
use blaze_iters::RangeValuesIter;
use range_map_blaze::RangeMapBlaze;
use range_map_multi::{MultiwayRangeMapBlaze, MultiwayRangeMapBlazeRef, MultiwaySortedDisjointMap};
use std::alloc::AllocError;

/// Copies of maps.
fn copies(rt: &HostRuntime, maps: &[Letters; 3]) -> Result<Vec<Letters>, AllocError> {
    let mut copies = Vec::new(rt.alloc());
    for map in maps {
        copies.push(map.clone()?)?;
    }
    Ok(copies)
}

type Streams<'a> = Vec<RangeValuesIter<'a, i64, char>>;

/// The streams of maps.
fn streams<'a>(rt: &HostRuntime, maps: &'a [Letters; 3]) -> Result<Streams<'a>, AllocError> {
    let mut streams = Vec::new(rt.alloc());
    for map in maps {
        streams.push(map.range_values())?;
    }
    Ok(streams)
}

/// The operations on owned maps.
fn by_value(rt: &HostRuntime, maps: &[Letters; 3]) -> Result<(), AllocError> {
    let _ = println!(rt; "union: {:?}", copies(rt, maps)?.union(rt.alloc()));
    let owned = copies(rt, maps)?;
    if !owned.is_empty() {
        let _ = println!(rt; "intersection: {:?}", owned.intersection(rt.alloc()));
    }
    let made = copies(rt, maps)?.symmetric_difference(rt.alloc());
    let _ = println!(rt; "symmetric_difference: {made:?}");
    Ok(())
}

/// The operations on an array of borrowed maps.
fn in_an_array(rt: &HostRuntime, [z, a, b]: &[Letters; 3]) {
    let _ = println!(rt; "union: {:?}", [z, a, b].union(rt.alloc()));
    let _ = println!(rt; "intersection: {:?}", [z, a, b].intersection(rt.alloc()));
    let made = [z, a, b].symmetric_difference(rt.alloc());
    let _ = println!(rt; "symmetric_difference: {made:?}");
}

/// The operations on streams.
fn as_streams(rt: &HostRuntime, maps: &[Letters; 3]) -> Result<(), AllocError> {
    show(rt, "union", streams(rt, maps)?.union(rt.alloc()))?;
    let some = streams(rt, maps)?;
    if !some.is_empty() {
        show(rt, "intersection", some.intersection(rt.alloc()))?;
    }
    let made = streams(rt, maps)?.symmetric_difference(rt.alloc());
    show(rt, "symmetric_difference", made)
}

/// An inner join of streams: how many values a row has.
fn inner_joined(rt: &HostRuntime, streams: Streams<'_>) -> Result<(), AllocError> {
    let made = streams.inner_join(rt.alloc(), |row| row.len());
    show(rt, "inner_join", made)
}

/// A full join of streams: whether a row has all values.
fn full_joined(rt: &HostRuntime, streams: Streams<'_>) -> Result<(), AllocError> {
    let made = streams.full_join(rt.alloc(), |row| row.iter().all(|value| value.is_some()));
    show(rt, "full_join", made)
}

/// The sums of two maps where at least one has a number.
fn sums(rt: &HostRuntime, maps: [&Numbers; 2]) {
    let sums = maps.full_join(rt.alloc(), |row| {
        let mut sum = 0u32;
        for number in row {
            sum = sum.wrapping_add(number.map_or(0, |number| *number));
        }
        sum
    });
    let _ = println!(rt; "full_join: {sums:?}");
}

/// The join of no maps: one call, whose result every key has.
fn none_joined(rt: &HostRuntime, none: [&RangeMapBlaze<u8, u32>; 0]) {
    let mut calls = 0u32;
    let everywhere = none.inner_join(rt.alloc(), |_| {
        calls = calls.wrapping_add(1);
        7u32
    });
    let _ = println!(rt; "inner_join: {everywhere:?}; {calls} calls");
}

/// Joins of maps of numbers, and of none.
fn numbers(rt: &HostRuntime) -> Result<(), AllocError> {
    let a = map_of(rt.alloc(), &[(0, 9, 1)])?;
    sums(rt, [&a, &map_of(rt.alloc(), &[(5, 14, 10)])?]);
    none_joined(rt, []);
    Ok(())
}

/// Makes all calls of this file.
pub fn all(rt: &HostRuntime) -> Result<(), AllocError> {
    let alloc = rt.alloc();
    let z = map_of(alloc, &[(2, 2, 'z'), (6, 200, 'z')])?;
    let a = map_of(alloc, &[(2, 6, 'a')])?;
    let b = map_of(alloc, &[(1, 2, 'b'), (5, 100, 'b')])?;
    let maps = [z, a, b];
    by_value(rt, &maps)?;
    in_an_array(rt, &maps);
    as_streams(rt, &maps)?;
    inner_joined(rt, streams(rt, &maps)?)?;
    full_joined(rt, streams(rt, &maps)?)?;
    numbers(rt)
}
