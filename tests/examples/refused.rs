//! Values whose clone fails: the map after a failed call, and calls that clone none of them.
use crate::stubborn::{Stubborn, deaf, heard};
use blaze_table::RangeTable;
use range_map_blaze::RangeMapBlaze;
use std::alloc::{AllocError, Global};
use std::fmt::Debug;

type Map = RangeMapBlaze<i64, Stubborn>;

/// A map of one range.
fn one(alloc: Global, start: i64, end: i64, value: Stubborn) -> Result<Map, AllocError> {
    let mut map = RangeMapBlaze::new(alloc);
    let _ = map.ranges_insert(start..=end, value)?;
    Ok(map)
}

/// Prints what a call returned, and what it left: the entries and the number of keys.
fn show<X: Debug + Drop>(rt: &HostRuntime, call: &str, answer: Result<X, AllocError>, map: &Map) {
    let _ = println!(rt; "{call}: {answer:?} {map}, {} keys", map.len());
}

/// Paints a range over the one range of a deaf value: rests on both sides need a clone, one rest is moved.
fn painted(rt: &HostRuntime, start: i64, end: i64) -> Result<(), AllocError> {
    let mut map = one(rt.alloc(), 0, 9, deaf(7))?;
    let answer = map.ranges_insert(start..=end, heard(8));
    show(rt, "ranges_insert", answer, &map);
    Ok(())
}

/// Paints by single lookups over the one range of a deaf value.
fn painted_by_splice(rt: &HostRuntime, start: i64, end: i64) -> Result<(), AllocError> {
    let mut table = RangeTable::new(rt.alloc());
    let _ = table.paint(0, 9, deaf(7))?;
    if start <= end {
        let answer = table.paint_by_splice(start, end, heard(8));
        let _ = println!(rt; "paint_by_splice: {answer:?} {:?}", table.first());
    }
    Ok(())
}

/// Fills from 0 up to a key around two entries: the last gap gets the value itself, each gap before it needs a clone.
fn filled(rt: &HostRuntime, end: i64) -> Result<(), AllocError> {
    let mut map = one(rt.alloc(), 2, 3, heard(1))?;
    let _ = map.ranges_insert(6..=6, heard(2))?;
    let answer = map.ranges_insert_absent(0..=end, deaf(9));
    show(rt, "ranges_insert_absent", answer, &map);
    Ok(())
}

/// Changes keys of the one range of a deaf value: a rest on either side needs a clone, one rest is moved, and an equal result takes
/// no edit.
fn updated(rt: &HostRuntime, start: i64, end: i64, number: u32) -> Result<(), AllocError> {
    let mut map = one(rt.alloc(), 0, 9, deaf(7))?;
    let answer = map.ranges_update(start..=end, |_| Ok(Some(heard(number))));
    show(rt, "ranges_update", answer, &map);
    Ok(())
}

/// Removes single keys of the one entry of a deaf value: each call needs a clone and fails.
fn cut(rt: &HostRuntime, map: &mut Map) {
    show(rt, "remove", map.remove(5), map);
    show(rt, "pop_first", map.pop_first(), map);
    show(rt, "pop_last", map.pop_last(), map);
}

/// Removes, takes and splits off parts of that entry, which needs a clone. A split above its last key needs none.
fn parted(rt: &HostRuntime, map: &mut Map) {
    show(rt, "ranges_remove", map.ranges_remove(4..=5), map);
    show(rt, "ranges_take", map.ranges_take(4..=5), map);
    for key in [4, 10] {
        show(rt, "split_off", map.split_off(key), map);
    }
}

/// Copies that map, and fills its gaps.
fn copied(rt: &HostRuntime, map: &Map) {
    show(rt, "clone", map.clone(), map);
    show(rt, "fill_gaps", map.fill_gaps(), map);
}

/// Removes entries of one key, and splits off a whole entry: no value is cloned.
fn moved(rt: &HostRuntime, map: &mut Map) -> Result<(), AllocError> {
    for (start, end, n) in [(3, 3, 8), (5, 6, 9), (9, 9, 6)] {
        let _ = map.ranges_insert(start..=end, deaf(n))?;
    }
    show(rt, "remove", map.remove(3), map);
    show(rt, "pop_first", map.pop_first(), map);
    show(rt, "pop_last", map.pop_last(), map);
    show(rt, "split_off", map.split_off(5), map);
    Ok(())
}

/// Appends a map up to its first deaf value: the other map is unchanged. `extend_from` clones nothing.
fn extended(rt: &HostRuntime, map: &mut Map, mut other: Map) {
    show(rt, "append", map.append(&mut other), map);
    let _ = println!(rt; "{other}");
    show(rt, "extend_from", map.extend_from(other), map);
}

/// Fills the gaps of a map with another map's entries, up to the first deaf value.
fn extended_absent(rt: &HostRuntime, map: &mut Map, other: &Map) {
    show(rt, "extend_absent", map.extend_absent(other), map);
}

/// Prints pairs, by value, from both ends. The last key of an entry gets the value itself; a failed clone ends the iterator.
fn pairs(rt: &HostRuntime, map: Map) {
    let mut pairs = map.into_iter();
    let (first, last) = (pairs.next(), pairs.next_back());
    let _ = println!(rt;
        "into_iter: {first:?} {last:?} {:?} {:?}",
        pairs.next(),
        pairs.next()
    );
}

/// Prints values, by value, the last one first.
fn values(rt: &HostRuntime, map: Map) {
    let mut values = map.into_values();
    let (last, first) = (values.next_back(), values.next());
    let _ = println!(rt; "into_values: {last:?} {first:?} {:?}", values.next_back());
}

/// Prints keys, by value: no value is cloned.
fn keys(rt: &HostRuntime, map: Map) {
    let mut keys = map.into_keys();
    let _ = println!(rt;
        "into_keys: {:?} {:?} {:?}",
        keys.next(),
        keys.next(),
        keys.next()
    );
}

/// Prints the first pair of a range, whose values are cloned before the first pair is asked for. No other value is cloned.
fn ranges(rt: &HostRuntime, map: &Map) {
    let without = map.range(5..=6).map(|mut pairs| pairs.next());
    show(rt, "range", without, map);
    let with = map.range(5..=7).map(|mut pairs| pairs.next());
    show(rt, "range", with, map);
}

/// Makes the calls on one entry of a deaf value, and on entries that are moved.
fn removals(rt: &HostRuntime) -> Result<(), AllocError> {
    let mut map = one(rt.alloc(), 1, 9, deaf(7))?;
    cut(rt, &mut map);
    parted(rt, &mut map);
    copied(rt, &map);
    moved(rt, &mut one(rt.alloc(), 1, 1, deaf(7))?)
}

/// A map of two entries, of which the second has a deaf value.
fn two(alloc: Global) -> Result<Map, AllocError> {
    let ranges = vec![in alloc; (5..=5, heard(2)), (7..=7, deaf(7))]?;
    RangeMapBlaze::from_ranges(alloc, ranges)
}

/// Extends maps by that one.
fn extensions(rt: &HostRuntime) -> Result<(), AllocError> {
    let alloc = rt.alloc();
    extended(rt, &mut one(alloc, 1, 3, heard(1))?, two(alloc)?);
    extended_absent(rt, &mut one(alloc, 1, 3, heard(1))?, &two(alloc)?);
    Ok(())
}

/// Goes through owned maps.
fn iterators(rt: &HostRuntime) -> Result<(), AllocError> {
    let alloc = rt.alloc();
    let mut map = one(alloc, 1, 1, deaf(7))?;
    let _ = map.ranges_insert(3..=4, heard(8))?;
    ranges(rt, &two(alloc)?);
    pairs(rt, map);
    pairs(rt, one(alloc, 1, 3, deaf(7))?);
    values(rt, one(alloc, 1, 3, deaf(7))?);
    keys(rt, one(alloc, 1, 3, deaf(7))?);
    Ok(())
}

/// Makes all calls of this file.
pub fn all(rt: &HostRuntime) -> Result<(), AllocError> {
    for (start, end) in [(4, 5), (0, 4), (5, 9)] {
        painted(rt, start, end)?;
        painted_by_splice(rt, start, end)?;
    }
    for end in [9, 6, 3] {
        filled(rt, end)?;
    }
    for (end, number) in [(5, 8), (9, 8), (5, 7)] {
        updated(rt, 4, end, number)?;
    }
    removals(rt)?;
    extensions(rt)?;
    iterators(rt)
}
