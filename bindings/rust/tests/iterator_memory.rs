//! The memory of iterators: their sizes, what they allocate, and iterations whose allocations fail. Also
//! calls that collect their input in memory of Rust, and fail to allocate it.
//!
//! This test has a file of its own, because a program has one `#[global_allocator]`. The library calls
//! the `malloc` of C, so the allocator below sees the memory of the crate and of the test alone.

#[allow(dead_code)]
#[path = "calls/plain.rs"]
mod plain;

use plain::{entries_of, runs, Choice, Plain};
use range_map::{
    Gaps, IntoRangeValues, KeyValues, Keys, OutOfMemory, Overlapping, Pieces, RangeMap,
    RangeValues, Ranges, ValuesByKey, ValuesByRange,
};
use std::alloc::{GlobalAlloc, Layout, System};
use std::cell::Cell;
use std::collections::VecDeque;
use std::fmt::Debug;
use std::mem::size_of;

/// The size of a block of an iterator. Nothing else of these tests has this size.
const BLOCK: usize = 768;

thread_local! {
    /// How many blocks this thread allocated, and how many of them it has not freed.
    static ALLOCATED: Cell<usize> = const { Cell::new(0) };
    static IN_USE: Cell<usize> = const { Cell::new(0) };
    /// Whether its allocations of blocks fail, and whether all of its allocations fail.
    static FAILS: Cell<bool> = const { Cell::new(false) };
    static ALL_FAIL: Cell<bool> = const { Cell::new(false) };
    /// How many allocations of any size it made.
    static ALL: Cell<usize> = const { Cell::new(0) };
}

struct Counting;

// SAFETY: the methods are those of `System`, except that an allocation may fail.
unsafe impl GlobalAlloc for Counting {
    unsafe fn alloc(&self, layout: Layout) -> *mut u8 {
        ALL.with(|all| all.set(all.get() + 1));
        if ALL_FAIL.with(Cell::get) {
            return std::ptr::null_mut();
        }
        if layout.size() == BLOCK {
            if FAILS.with(Cell::get) {
                return std::ptr::null_mut();
            }
            ALLOCATED.with(|count| count.set(count.get() + 1));
            IN_USE.with(|count| count.set(count.get() + 1));
        }
        // SAFETY: the caller keeps the conditions of `alloc`.
        unsafe { System.alloc(layout) }
    }

    unsafe fn dealloc(&self, pointer: *mut u8, layout: Layout) {
        if layout.size() == BLOCK {
            IN_USE.with(|count| count.set(count.get() - 1));
        }
        // SAFETY: the caller keeps the conditions of `dealloc`.
        unsafe { System.dealloc(pointer, layout) }
    }
}

#[global_allocator]
static COUNTING: Counting = Counting;

/// A map with `count` entries of up to 3 keys.
fn map_of(choice: &mut Choice, count: i64) -> (RangeMap, Plain) {
    let mut plain = Plain::new();
    let mut key = -500;
    for value in 0..count {
        key += choice.below(3);
        for _ in 0..=choice.below(3) {
            plain.insert(key, value as u64);
            key += 1;
        }
    }
    let pairs = plain.iter().map(|(&key, &value)| (key, value));
    (pairs.collect(), plain)
}

#[test]
fn an_iterator_has_at_most_200_bytes() {
    let sizes = [
        size_of::<RangeValues>(),
        size_of::<IntoRangeValues>(),
        size_of::<Overlapping>(),
        size_of::<Pieces>(),
        size_of::<Ranges>(),
        size_of::<Gaps>(),
        size_of::<Keys>(),
        size_of::<KeyValues>(),
        size_of::<ValuesByKey>(),
        size_of::<ValuesByRange>(),
    ];
    assert!(sizes.iter().all(|&size| size <= 200), "{sizes:?}");
}

#[test]
fn a_short_iteration_does_not_allocate() {
    let (map, plain) = map_of(&mut Choice(1), 100);
    let (key, _) = map.range_values().nth(50).unwrap();
    let key = *key.start();
    let apart = RangeMap::from([(0..=9, 1), (20..=29, 2), (40..=49, 3)]);
    let before = ALL.with(Cell::get);
    let mut entries = map.range_values();
    assert!(entries.next().is_some() && entries.next().is_some());
    assert!(entries.next_back().is_some() && entries.next_back().is_some());
    assert!(map.overlapping(key..).nth(1).is_some());
    assert_eq!(map.range(key..=key).count(), 1);
    assert!(apart.ranges().next().is_some() && apart.ranges().next_back().is_some());
    assert!(apart.gaps(5..).next().is_some() && apart.gaps(..).next_back().is_some());
    assert!(apart.is_disjoint(&RangeMap::new()) && apart.covers(&RangeMap::new()));
    assert_eq!(map.keys().next_back(), plain.keys().next_back().copied());
    let copy = entries.clone();
    assert_eq!((copy.len(), entries.len()), (96, 96));
    drop((copy, entries));
    assert_eq!(ALL.with(Cell::get), before);
}

#[test]
fn each_end_allocates_one_block() {
    let (map, _) = map_of(&mut Choice(2), 1000);
    assert_eq!(ALLOCATED.with(Cell::get), 0);
    let mut entries = map.range_values();
    assert!(entries.by_ref().take(300).count() == 300);
    assert_eq!(ALLOCATED.with(Cell::get), 1);
    let copy = entries.clone();
    assert_eq!(ALLOCATED.with(Cell::get), 1);
    assert!(entries.by_ref().rev().take(300).count() == 300);
    assert_eq!((ALLOCATED.with(Cell::get), IN_USE.with(Cell::get)), (2, 2));
    assert!(entries.eq(copy.take(400)));
    assert_eq!((ALLOCATED.with(Cell::get), IN_USE.with(Cell::get)), (3, 0));
    assert!(map.into_range_values().nth(500).is_some());
    assert_eq!((ALLOCATED.with(Cell::get), IN_USE.with(Cell::get)), (4, 0));
}

/// Takes items from both ends, while allocations of blocks fail now and then or always. A copy of the
/// iterator returns the items that it has not returned.
fn check_ends<T: PartialEq + Debug>(
    choice: &mut Choice,
    mut iter: impl DoubleEndedIterator<Item = T> + Clone,
    items: impl IntoIterator<Item = T>,
) {
    let mut items: VecDeque<T> = items.into_iter().collect();
    let (most_front, most_failures) = (choice.below(5), choice.below(4));
    loop {
        // (no allocation fails in an assertion, which may need memory)
        FAILS.with(|fails| fails.set(choice.below(3) < most_failures));
        if choice.below(40) == 0 {
            let mut copy = iter.clone();
            let is_same = items.iter().all(|item| copy.next().as_ref() == Some(item));
            let is_empty = copy.next().is_none();
            FAILS.with(|fails| fails.set(false));
            assert!(is_same && is_empty);
            continue;
        }
        let (item, expected) = if choice.below(4) < most_front {
            (iter.next(), items.pop_front())
        } else {
            (iter.next_back(), items.pop_back())
        };
        FAILS.with(|fails| fails.set(false));
        assert_eq!(item, expected);
        if item.is_none() {
            break;
        }
    }
    assert!(iter.next().is_none() && iter.next_back().is_none());
}

#[test]
fn an_iteration_goes_on_without_blocks() {
    let choice = &mut Choice(3);
    for count in [0, 1, 2, 3, 4, 17, 18, 19, 49, 50, 51, 52, 83, 150] {
        for _ in 0..12 {
            let (map, plain) = map_of(choice, count);
            let entries = entries_of(&plain);
            let last = plain.keys().next_back().map_or(-500, |&key| key);
            let (one, two) = (
                choice.below(last + 520) - 510,
                choice.below(last + 520) - 510,
            );
            let (lo, hi) = (one.min(two), one.max(two));
            let overlap =
                |entry: &&range_map::Entry| *entry.0.start() <= hi && lo <= *entry.0.end();
            let shared: Vec<_> = entries.iter().filter(overlap).cloned().collect();
            let pieces = shared
                .iter()
                .map(|(range, value)| ((*range.start()).max(lo)..=(*range.end()).min(hi), *value));
            let has = |key: i64| plain.contains_key(&key);
            let pairs = plain.iter().map(|(&key, &value)| (key, value));
            let values = entries.iter().map(|entry| entry.1);
            check_ends(choice, map.range_values(), entries.iter().cloned());
            check_ends(choice, map.range(lo..=hi), pieces);
            check_ends(choice, map.overlapping(lo..=hi), shared.iter().cloned());
            check_ends(choice, map.ranges(), runs(-500..=last, has));
            check_ends(choice, map.gaps(lo..=hi), runs(lo..=hi, |key| !has(key)));
            check_ends(choice, map.key_values(), pairs);
            check_ends(choice, map.keys(), plain.keys().copied());
            check_ends(choice, map.values_by_key(), plain.values().copied());
            check_ends(choice, map.values_by_range(), values);
            assert_eq!(IN_USE.with(Cell::get), 0);
        }
    }
    assert!(ALLOCATED.with(Cell::get) > 100);
}

#[test]
fn a_call_without_memory_returns_an_error() {
    let mut map = RangeMap::from([(0..=9, 1), (10..=19, 2), (30..=39, 1)]);
    let copy = map.clone();
    ALL_FAIL.with(|fails| fails.set(true));
    let retained = map.retain(|_, value| value == 1);
    let none_removed = map.retain(|_, _| true);
    let extended = map.try_extend([(5..=6, 3)]);
    let united = RangeMap::union_of([&map, &copy]).map(drop);
    let table = map.to_table().map(drop);
    let entries = map.iter().count();
    ALL_FAIL.with(|fails| fails.set(false));
    let failed = [retained, extended, united, table];
    assert_eq!(failed, [Err(OutOfMemory); 4]);
    assert_eq!((none_removed, entries), (Ok(()), 3));
    assert_eq!(map, copy);
}
