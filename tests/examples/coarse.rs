//! Values that are equal by a part of them: the value that an entry has stays where an equal one is painted inside it.
ghost use Rattle.std.specs.Prelude.{◌≡◌, nat_eq};
ghost use Rattle.std.proofs.Common.{rules};
ghost use Rattle.std.specs.Cmp.Rules.{comparing};
ghost use Rattle.std.specs.Ordering.{on};

use crate::maps::map_of;
use crate::tables::by_both;
use blaze_table::RangeTable;
use range_map_blaze::RangeMapBlaze;
use std::alloc::{AllocError, Global};
use std::fmt::{self, Debug, Formatter};
use std::ops::RangeInclusive;

/// A number with a label. Equality is that of the numbers.
#[derive(Drop)]
struct Labelled(u32, char);

impl PartialEq for Labelled {
    ghost eq = { on (λ a. a.0) nat_eq };

    ghost laws = { Prim.search (comparing, rules) };

    fn eq(&self, other: &Self) -> bool {
        self.0 == other.0
    }
}

impl Eq for Labelled {
    ghost laws = { Prim.search (comparing, rules) };
}

impl Clone for Labelled {
    ghost is_clone = { λ a b. a.0 ≡ b.0 };

    fn clone(&self) -> Result<Self, AllocError> {
        Ok(Labelled(self.0, self.1))
    }
}

/// `(1, x)`, with the number and its label.
impl Debug for Labelled {
    fn fmt<W: fmt::Write>(&self, f: &mut Formatter<W>) -> fmt::Result {
        write!(f, "({}, {})", self.0, self.1)
    }
}

type Map = RangeMapBlaze<i64, Labelled>;

type Pairs = Vec<(RangeInclusive<i64>, Labelled)>;

/// A range inside 1..=9 with the value (1, y), and a range beside it with (2, z).
fn pairs(alloc: Global) -> Result<Pairs, AllocError> {
    Ok(vec![in alloc; (1..=4, Labelled(1, 'y')), (20..=20, Labelled(2, 'z'))]?)
}

/// The two ranges as a map.
fn map_of_pairs(alloc: Global) -> Result<Map, AllocError> {
    RangeMapBlaze::from_ranges(alloc, pairs(alloc)?)
}

/// Paints inside the entry 1..=9 with the value (1, x).
fn painted(rt: &HostRuntime, map: &mut Map) -> Result<(), AllocError> {
    let changed = map.ranges_insert(3..=4, Labelled(1, 'y'))?;
    let old = map.insert(3, Labelled(1, 'y'))?;
    let _ = println!(rt; "{changed} {old:?} {map}");
    Ok(())
}

/// The labels: one call for each entry, with the stored value.
fn labels(rt: &HostRuntime, map: &Map) {
    let mut calls = 0u32;
    let labels = map.transform_values(|value| {
        calls = calls.wrapping_add(1);
        value.1
    });
    let _ = println!(rt; "labels: {labels:?}; {calls} calls");
}

/// Tens with a label: touching tens with equal numbers are one entry, though their labels differ.
fn tens(rt: &HostRuntime) -> Result<(), AllocError> {
    let numbers = map_of(rt.alloc(), &[(1i64, 3, 10u32), (4, 6, 11), (8, 9, 20)])?;
    let tens = numbers.transform_values(|number| {
        Labelled(*number / 10, if *number % 2 == 0 { 'x' } else { 'y' })
    })?;
    let is_equal = tens.get(4).is_some_and(|value| *value == Labelled(1, '-'));
    let _ = println!(rt;
        "tens: {} entries, {} keys, {is_equal}",
        tens.ranges_len(),
        tens.len()
    );
    Ok(())
}

/// Extensions by pairs.
fn extended_by_pairs(rt: &HostRuntime, map: &mut Map) -> Result<(), AllocError> {
    let alloc = rt.alloc();
    map.extend_points(vec![in alloc; (1, Labelled(1, 'y'))]?)?;
    map.extend_ranges(pairs(alloc)?)?;
    map.extend_simple(pairs(alloc)?)?;
    let _ = println!(rt; "pairs: {map}");
    Ok(())
}

/// Extensions by an owned map, and by one that is emptied.
fn extended_by_value(rt: &HostRuntime, map: &mut Map) -> Result<(), AllocError> {
    let alloc = rt.alloc();
    map.extend_from(map_of_pairs(alloc)?)?;
    map.bitor_assign(map_of_pairs(alloc)?)?;
    map.append(&mut map_of_pairs(alloc)?)?;
    let _ = println!(rt; "by value: {map}");
    Ok(())
}

/// Extensions by a borrowed map.
fn extended_by_borrowed(rt: &HostRuntime, map: &mut Map, other: &Map) -> Result<(), AllocError> {
    map.extend_with(other)?;
    map.bitor_assign_ref(other)?;
    let _ = println!(rt; "borrowed: {map}");
    Ok(())
}

/// A range with the value (1, x), and one inside it with an equal value.
fn equal_pairs(alloc: Global) -> Result<Pairs, AllocError> {
    Ok(vec![in alloc; (1..=9, Labelled(1, 'x')), (1..=4, Labelled(1, 'y'))]?)
}

/// These onto no key: painted one by one, the first value stays.
fn extended_from_none(rt: &HostRuntime) -> Result<(), AllocError> {
    let alloc = rt.alloc();
    let mut map = Map::new(alloc);
    map.extend_simple(equal_pairs(alloc)?)?;
    let mut joined = Map::new(alloc);
    joined.extend_ranges(equal_pairs(alloc)?)?;
    let is_equal = joined == map;
    let _ = println!(rt;
        "from none: {map}, {} entry, {is_equal}",
        joined.ranges_len()
    );
    Ok(())
}

/// Fills around the entry 2..=3 with an equal value: all are one entry.
fn filled(rt: &HostRuntime) -> Result<(), AllocError> {
    let mut map = Map::new(rt.alloc());
    let _ = map.ranges_insert(2..=3, Labelled(1, 'x'))?;
    let grown = map.ranges_insert_absent(1..=5, Labelled(1, 'y'))?;
    let is_equal = match map.get(4) {
        Some(value) => *value == Labelled(1, 'y'),
        None => false,
    };
    let _ = println!(rt; "{grown}, {} entry, {is_equal}", map.ranges_len());
    Ok(())
}

/// Fills around the entry 3..=5 of a table with an equal value: all are one entry.
fn filled_table(rt: &HostRuntime) -> Result<(), AllocError> {
    let mut table: RangeTable<i64, Labelled> = RangeTable::new(rt.alloc());
    let _ = table.paint(3, 5, Labelled(1, 'x'))?;
    let grown = table.fill_absent(1, 9, Labelled(1, 'y'))?;
    let is_equal = match table.find(4) {
        Some(entry) => *entry.2 == Labelled(1, 'y'),
        None => false,
    };
    let _ = println!(rt; "{grown}, {} entry, {is_equal}", table.entries());
    Ok(())
}

/// Makes all calls of this file.
pub fn all(rt: &HostRuntime) -> Result<(), AllocError> {
    let mut map = RangeMapBlaze::new(rt.alloc());
    let _ = map.ranges_insert(1..=9, Labelled(1, 'x'))?;
    painted(rt, &mut map)?;
    labels(rt, &map);
    tens(rt)?;
    extended_by_pairs(rt, &mut map)?;
    extended_by_value(rt, &mut map)?;
    extended_by_borrowed(rt, &mut map, &map_of_pairs(rt.alloc())?)?;
    extended_from_none(rt)?;
    filled(rt)?;
    filled_table(rt)?;
    by_both(rt, &[(1i64, 9, Labelled(1, 'x')), (3, 4, Labelled(1, 'y'))])
}
