//! All lookups of a map, compared with those of a plain map.

use crate::plain::{entries_of, hash_of, runs, Choice, Outcome, Plain};
use range_map::{Entry, RangeMap, Table};
use std::collections::VecDeque;

/// Takes items from both ends of an iterator until it ends, and compares them.
pub fn check_ends<T: PartialEq + std::fmt::Debug>(
    choice: &mut Choice,
    mut iter: impl DoubleEndedIterator<Item = T>,
    items: impl IntoIterator<Item = T>,
) {
    let mut items: VecDeque<T> = items.into_iter().collect();
    let most_front = choice.below(4);
    loop {
        let (item, expected) = if choice.below(4) < most_front {
            (iter.next(), items.pop_front())
        } else {
            (iter.next_back(), items.pop_back())
        };
        assert_eq!(item, expected);
        if item.is_none() {
            break;
        }
    }
    assert!(iter.next().is_none() && iter.next_back().is_none() && iter.next().is_none());
}

/// Compares the iterators over entries, keys and values.
fn check_keys(choice: &mut Choice, map: &RangeMap, plain: &Plain, entries: &[Entry]) {
    let pairs = || plain.iter().map(|(&key, &value)| (key, value));
    check_ends(choice, map.iter(), entries.iter().cloned());
    check_ends(choice, map.key_values(), pairs());
    check_ends(choice, map.keys(), plain.keys().copied());
    check_ends(choice, map.values_by_key(), plain.values().copied());
    let values = entries.iter().map(|entry| entry.1);
    check_ends(choice, map.values_by_range(), values.clone());
    assert_eq!(map.values_by_range().len(), values.len());
    // `nth` passes whole entries.
    let mut keys = map.key_values();
    let mut expected: VecDeque<(i64, u64)> = pairs().collect();
    loop {
        assert_eq!(keys.size_hint(), (expected.len(), Some(expected.len())));
        let n = choice.below(6) as usize;
        let (key, other) = if choice.below(2) == 0 {
            expected.drain(..n.min(expected.len()));
            (keys.nth(n), expected.pop_front())
        } else {
            expected.truncate(expected.len() - n.min(expected.len()));
            (keys.nth_back(n), expected.pop_back())
        };
        assert_eq!(key, other);
        if key.is_none() {
            break;
        }
    }
    assert_eq!(keys.size_hint(), (0, Some(0)));
}

/// Compares all lookups of keys near `lo` to `hi`.
pub fn check(choice: &mut Choice, map: &RangeMap, plain: &Plain, lo: i64, hi: i64) -> Outcome {
    let entries = entries_of(plain);
    assert!(map.range_values().eq(entries.iter().cloned()));
    assert_eq!(map.range_values().len(), entries.len());
    check_ends(choice, map.range_values(), entries.iter().cloned());
    assert_eq!(map.len(), plain.len() as u128);
    assert_eq!(map.ranges_len(), entries.len());
    assert_eq!(map.is_empty(), plain.is_empty());

    let has = |key: i64| plain.contains_key(&key);
    assert_eq!(map.get(lo), plain.get(&lo).copied());
    assert_eq!(map.contains_key(hi), has(hi));
    let is_shared = |entry: &&Entry| *entry.0.start() <= hi && lo <= *entry.0.end();
    let shared: Vec<Entry> = entries.iter().filter(is_shared).cloned().collect();
    check_ends(choice, map.overlapping(lo..=hi), shared.iter().cloned());
    check_ends(choice, map.gaps(lo..=hi), runs(lo..=hi, |key| !has(key)));
    let all_keys: Vec<_> = entries.iter().map(|(range, _)| range.clone()).collect();
    let ends = all_keys.first().zip(all_keys.last());
    let window = ends.map_or(0..=0, |(first, last)| *first.start()..=*last.end());
    check_ends(choice, map.ranges(), runs(window, has));
    check_keys(choice, map, plain, &entries);
    let cut = |(range, value): &Entry| ((*range.start()).max(lo)..=(*range.end()).min(hi), *value);
    check_ends(choice, map.range(lo..=hi), shared.iter().map(cut));

    let within = plain.range(lo..=hi).count();
    assert_eq!(map.len_within(lo..=hi), within as u128);
    assert_eq!(map.has_any(lo..=hi), within != 0);
    assert_eq!(map.has_all(lo..=hi), within as i64 == hi - lo + 1);
    let length = choice.below(6);
    let mut starts = (lo..=hi).filter(|&start| {
        length > 0
            && start
                .checked_add(length - 1)
                .map_or(false, |end| end <= hi && !(start..=end).any(has))
    });
    let (first, last) = (starts.next(), starts.next_back());
    assert_eq!(map.find_gap(lo..=hi, length as u64), first);
    assert_eq!(map.find_last_gap(lo..=hi, length as u64), last.or(first));

    let (range, value) = map.range_or_gap_at(lo);
    let at = entries.iter().find(|(range, _)| range.contains(&lo));
    assert_eq!(map.range_at(lo), at.cloned());
    assert_eq!(value, map.get(lo));
    let below = entries.iter().rev().find(|(range, _)| *range.start() <= lo);
    let above = entries.iter().find(|(range, _)| *range.end() >= lo);
    assert_eq!(map.range_at_or_below(lo), below.cloned());
    assert_eq!(map.range_at_or_above(lo), above.cloned());
    if value.is_none() {
        let start = below.map_or(i64::MIN, |(range, _)| range.end() + 1);
        let end = above.map_or(i64::MAX, |(range, _)| range.start() - 1);
        assert_eq!(range, start..=end);
    }
    let first = plain.iter().next().map(|(&key, &value)| (key, value));
    let last = plain.iter().next_back().map(|(&key, &value)| (key, value));
    assert_eq!(map.first_key_value(), first);
    assert_eq!(map.last_key_value(), last);

    let buffer = map.to_table()?;
    let table = buffer.as_table();
    check_ends(choice, table.range_values(), entries.iter().cloned());
    assert_eq!(table.ranges_len(), entries.len());
    assert_eq!(table.get(lo), map.get(lo));
    assert_eq!(table.contains_key(lo), map.contains_key(lo));
    assert_eq!(table.range_at(lo), map.range_at(lo));
    assert_eq!(table.range_or_gap_at(lo), map.range_or_gap_at(lo));
    assert_eq!(table.range_at_or_below(lo), map.range_at_or_below(lo));
    assert_eq!(table.range_at_or_above(lo), map.range_at_or_above(lo));
    assert_eq!(table.len_within(lo..=hi), map.len_within(lo..=hi));
    assert_eq!(Table::new(table.lo(), table.hi(), table.value()), Ok(table));
    let loaded = RangeMap::from_table(table)?;
    assert_eq!(&loaded, map);
    assert_eq!(hash_of(&loaded), hash_of(map));
    Ok(())
}
