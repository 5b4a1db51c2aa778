//! Maps in loops, of streams and in their order; closures with a state.
ghost use Rattle.blaze_entries.specs.Painted.{ClonesAreAlike};

use range_map_blaze::{IntoRangeMapBlaze, RangeMapBlaze, Turns};
use std::alloc::{AllocError, Global};
use std::cell::Cell;

/// A map of letters.
pub type Letters = RangeMapBlaze<i64, char>;

/// A map of numbers.
pub type Numbers = RangeMapBlaze<i64, u32>;

/// A map of ranges painted in their order.
pub fn map_of<V: Eq + Copy>(
    alloc: Global,
    ranges: &[(i64, i64, V)],
) -> Result<RangeMapBlaze<i64, V>, AllocError>
    requires { ClonesAreAlike V.is_clone V.eq }
{
    let mut map = RangeMapBlaze::default(alloc);
    for (start, end, value) in ranges {
        let _ = map.ranges_insert(*start..=*end, *value)?;
    }
    Ok(map)
}

/// A loop over a borrowed map.
fn borrowed_loop(rt: &HostRuntime, map: &Letters) {
    for (key, value) in map {
        let _ = println!(rt; "{key} {value}");
    }
}

/// A loop over an owned map.
fn owned_loop(rt: &HostRuntime, map: Letters) -> Result<(), AllocError> {
    for pair in map {
        let (key, value) = pair?;
        let _ = println!(rt; "{key} {value}");
    }
    Ok(())
}

/// The nearest entries of a key: the last that starts there or below, and the first that ends there or above.
fn nearest(rt: &HostRuntime, map: &Letters, key: i64) {
    let (below, above) = (map.range_at_or_below(key), map.range_at_or_above(key));
    let _ = println!(rt; "{key}: {below:?} {above:?}");
}

/// Entries that a closure with a state keeps: one call an entry.
fn kept_entries(rt: &HostRuntime, mut map: Letters) {
    let mut calls = 0u8;
    map.ranges_retain(|range, value| {
        calls = calls.wrapping_add(1);
        *value == 'a' && *range.end() < 9
    });
    let _ = println!(rt; "{calls} calls: {map}, {}", map.range_values_len());
}

/// The even keys, kept by a closure that counts its calls in a cell: one call a key.
fn kept_keys(rt: &HostRuntime, mut map: Letters) -> Result<(), AllocError> {
    let calls = Cell::new(0u8);
    map.retain(|key, _| {
        calls.set(calls.get().wrapping_add(1));
        *key % 2 == 0
    })?;
    let _ = println!(rt; "{} calls: {map}", calls.get());
    Ok(())
}

/// The sums of two maps, with the number of the call: one call for each segment.
fn sums(rt: &HostRuntime, ones: &Numbers, tens: &Numbers) {
    let mut calls = 0u32;
    let sums = ones.full_join(tens, |one, ten| {
        calls = calls.wrapping_add(1);
        let one = one.map_or(0, |one| *one);
        (one.wrapping_add(ten.map_or(0, |ten| *ten)), calls)
    });
    let _ = println!(rt; "full_join: {sums:?}; {calls} calls");
}

/// Tens: one call for each entry.
fn tens_of(rt: &HostRuntime, map: &Numbers) {
    let mut calls = 0u32;
    let tens = map.transform_values(|number| {
        calls = calls.wrapping_add(1);
        *number / 10
    });
    let _ = println!(rt; "transform_values: {tens:?}; {calls} calls");
}

/// Half the number of each call, counted from 1: the calls ascend by entry, and touching equal results are one entry.
fn halves_of_calls(rt: &HostRuntime, map: &Numbers) {
    let mut calls = 0u32;
    let halves = map.transform_values(|_| {
        calls = calls.wrapping_add(1);
        calls / 2
    });
    let _ = println!(rt; "transform_values: {halves:?}");
}

/// A map of a stream.
fn of_stream(rt: &HostRuntime, map: &Letters) {
    let made = map.range_values().into_range_map_blaze(rt.alloc());
    let _ = println!(rt; "{made:?}");
}

/// The order of maps.
fn orders(rt: &HostRuntime, left: &Letters, right: &Letters) {
    let order = left.cmp_counted(right, &mut Turns::new());
    let _ = println!(rt; "{order:?} {:?} {}", left.partial_cmp(right), left < right);
}

/// Calls of maps of letters.
fn of_letters(rt: &HostRuntime) -> Result<(), AllocError> {
    let alloc = rt.alloc();
    let map = map_of(alloc, &[(1, 2, 'a'), (5, 5, 'b')])?;
    borrowed_loop(rt, &map);
    nearest(rt, &map, 0);
    nearest(rt, &map, 2);
    nearest(rt, &map, 3);
    nearest(rt, &map, 6);
    of_stream(rt, &map);
    orders(rt, &map, &map_of(alloc, &[(1, 2, 'b')])?);
    owned_loop(rt, map)
}

/// Calls with closures.
fn with_closures(rt: &HostRuntime) -> Result<(), AllocError> {
    let alloc = rt.alloc();
    kept_entries(rt, map_of(alloc, &[(0, 3, 'a'), (4, 7, 'b'), (9, 9, 'a')])?);
    kept_keys(rt, map_of(alloc, &[(0, 4, 'a')])?)?;
    let tens = map_of(alloc, &[(4, 8, 10)])?;
    sums(rt, &map_of(alloc, &[(1, 5, 1)])?, &tens);
    tens_of(rt, &map_of(alloc, &[(1, 3, 10), (4, 6, 11), (8, 9, 20)])?);
    let ranges = [(1, 3, 10), (4, 6, 20), (7, 9, 30), (11, 12, 40)];
    halves_of_calls(rt, &map_of(alloc, &ranges)?);
    Ok(())
}

/// Makes all calls of this file.
pub fn all(rt: &HostRuntime) -> Result<(), AllocError> {
    of_letters(rt)?;
    with_closures(rt)
}
