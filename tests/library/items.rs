//! Calls of tables, iterators and streams that no other program here makes.
use blaze_iters::{
    IntoIterMap, IntoKeys, IntoValues, IterMap, Keys, MapIntoRangesIter, MapRangesIter,
    RangeValuesIter, Values,
};
use blaze_streams::{CanonIter, CanonMapIter, MultiwaySweep, SweepEvent};
use blaze_table::RangeTable;
use std::alloc::{AllocError, Global};
use std::ops::RangeInclusive;
use std::test::Fail;

/// Returns a table with a letter at the keys 5 and 6.
fn letters(alloc: Global) -> Result<RangeTable<u8, char>, AllocError> {
    let mut table = RangeTable::new(alloc);
    let _ = table.paint(5, 6, 'a')?;
    Ok(table)
}

#[test]
fn entries_and_gaps(rt: HostRuntime) -> Result<(), Fail> {
    let table = letters(rt.alloc())?;
    assert_eq!(rt; table.next_above(4), Some((5, 6, &'a')));
    assert_eq!(rt; table.iter_starting_from(5).next(), Some((5, 6, &'a')));
    assert_eq!(rt; table.iter_starting_from(6).next(), None);
    match table.find(9) {
        Some(_) => assert!(rt; false),
        None => assert_eq!(rt; table.gap_round(9), (7, 255)),
    }
    Ok(())
}

#[test]
fn keys_of_a_borrowed_table(rt: HostRuntime) -> Result<(), Fail> {
    let table = letters(rt.alloc())?;
    let mut iter = IterMap::new(RangeValuesIter::new(&table));
    assert_eq!(rt; iter.next(), Some((5, &'a')));
    let mut keys = Keys::new(RangeValuesIter::new(&table));
    assert_eq!(rt; keys.next(), Some(5));
    let mut values = Values::new(RangeValuesIter::new(&table));
    assert_eq!(rt; values.next(), Some(&'a'));
    Ok(())
}

#[test]
fn keys_of_a_table(rt: HostRuntime) -> Result<(), Fail> {
    let mut iter = IntoIterMap::new(letters(rt.alloc())?);
    match iter.next_back() {
        Some(Ok(pair)) => assert_eq!(rt; pair, (6, 'a')),
        _ => assert!(rt; false),
    }
    let mut keys = IntoKeys::new(letters(rt.alloc())?);
    assert_eq!(rt; keys.next_back(), Some(6));
    let mut values = IntoValues::new(letters(rt.alloc())?);
    match values.next() {
        Some(Ok(value)) => assert_eq!(rt; value, 'a'),
        _ => assert!(rt; false),
    }
    Ok(())
}

#[test]
fn ranges_of_a_table(rt: HostRuntime) -> Result<(), Fail> {
    let table = letters(rt.alloc())?;
    assert_eq!(rt; MapRangesIter::new(&table).next(), Some(5..=6));
    assert_eq!(rt; MapIntoRangesIter::new(table).next(), Some(5..=6));
    Ok(())
}

#[test]
fn streams_of_nothing(rt: HostRuntime) {
    let items: Vec<(RangeInclusive<u8>, bool)> = Vec::new(rt.alloc());
    assert!(rt; CanonMapIter::new(items).next().is_none());
    let ranges: Vec<RangeInclusive<u8>> = Vec::new(rt.alloc());
    assert!(rt; CanonIter::new(ranges).next().is_none());
    let events: Vec<SweepEvent<u8, bool>> = Vec::new(rt.alloc());
    assert!(rt; MultiwaySweep::new(events).next().is_none());
}
