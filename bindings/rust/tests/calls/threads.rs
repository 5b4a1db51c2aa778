//! Maps in several threads: lookups at the same time, and maps that go from thread to thread.

use crate::plain::{entries_of, Choice, Plain};
use range_map::{
    Gaps, IntoRangeValues, InvalidTable, KeyValues, Keys, Op, OutOfMemory, Overlapping, Pieces,
    Place, RangeMap, RangeValues, Ranges, Table, TableBuf, ValuesByKey, ValuesByRange,
};
use std::sync::{Arc, Mutex};
use std::thread;

#[test]
fn threads_share_a_map() {
    let mut choice = Choice(3);
    let plain: Plain = (0..2000)
        .map(|_| (choice.below(9000), choice.below(3) as u64))
        .collect();
    let map: RangeMap = plain.clone().into_iter().collect();
    let copy = map.clone();
    let entries = entries_of(&plain);
    thread::scope(|scope| {
        for start in 0..4 {
            let (map, copy, plain, entries) = (&map, &copy, &plain, &entries);
            scope.spawn(move || {
                for key in (start..9000).step_by(3) {
                    assert_eq!(map.get(key), plain.get(&key).copied());
                    let (range, value) = map.range_or_gap_at(key);
                    assert!(range.contains(&key) && value == map.get(key));
                    assert_eq!(map.has_any(key..=key), value.is_some());
                }
                assert!(map.into_iter().eq(entries.iter().cloned()));
                assert!(map.range_values().rev().eq(entries.iter().rev().cloned()));
                assert_eq!(map.len(), plain.len() as u128);
                assert!(map == copy && map >= copy && map.gaps(..).count() > 1000);
                assert_eq!((map | copy).as_ref(), Ok(map));
                assert_eq!(
                    map.to_table().map(|table| table.as_table().get(7)),
                    Ok(map.get(7))
                );
            });
        }
    });
    assert_eq!(map, copy);
}

#[test]
fn all_types_are_send_and_sync() {
    fn check<T: Send + Sync + std::panic::UnwindSafe + std::fmt::Debug>() {}
    check::<RangeMap>();
    check::<IntoRangeValues>();
    check::<RangeValues<'static>>();
    check::<Overlapping<'static>>();
    check::<Ranges<'static>>();
    check::<Gaps<'static>>();
    check::<Pieces<'static>>();
    check::<Keys<'static>>();
    check::<KeyValues<'static>>();
    check::<ValuesByKey<'static>>();
    check::<ValuesByRange<'static>>();
    check::<Table<'static>>();
    check::<TableBuf>();
    check::<OutOfMemory>();
    check::<InvalidTable>();
    check::<Op>();
    check::<Place>();
}

#[test]
fn a_map_goes_from_thread_to_thread() {
    let mut choice = Choice(5);
    let mut plain = Plain::new();
    let mut map = RangeMap::new();
    for turn in 0..20 {
        let changes: Vec<(i64, u64)> = (0..100)
            .map(|_| (choice.below(500), choice.below(3) as u64))
            .collect();
        plain.extend(changes.iter().copied());
        let changed = thread::spawn(move || {
            for (key, value) in changes {
                map.insert(key, value)?;
            }
            map.ranges_remove(turn..=turn)?;
            Ok::<_, OutOfMemory>(map)
        });
        plain.remove(&turn);
        map = changed.join().unwrap().unwrap();
        assert!(map.range_values().eq(entries_of(&plain)));
    }
    // Another thread takes the map apart, and a third one drops what remains of it.
    let mut entries = map.into_range_values();
    let (first, entries) = thread::spawn(move || (entries.next(), entries))
        .join()
        .unwrap();
    let last = thread::spawn(move || entries.last()).join().unwrap();
    let wanted = entries_of(&plain);
    assert_eq!(first.as_ref(), wanted.first());
    assert_eq!(last.as_ref(), wanted.last());
}

#[test]
fn scoped_threads_return_maps() {
    let shards = thread::scope(|scope| {
        let shards: Vec<_> = (0..4)
            .map(|shard| {
                scope.spawn(move || {
                    (0..1000)
                        .map(|at| (4 * at + shard, shard as u64))
                        .collect::<RangeMap>()
                })
            })
            .collect();
        shards
            .into_iter()
            .map(|shard| shard.join().unwrap())
            .collect::<Vec<_>>()
    });
    let map = shards
        .iter()
        .try_fold(RangeMap::new(), |map, shard| &map | shard)
        .unwrap();
    let wanted = (0..4000).map(|key| (key..=key, key as u64 % 4));
    assert!(map.range_values().eq(wanted));
}

#[test]
fn threads_change_a_map_under_a_lock() {
    let map = Arc::new(Mutex::new(RangeMap::new()));
    let threads: Vec<_> = (0..4)
        .map(|thread| {
            let map = Arc::clone(&map);
            thread::spawn(move || {
                for at in 0..500 {
                    let start = 10 * (4 * at + thread);
                    let mut map = map.lock().unwrap();
                    map.ranges_insert(start..=start + 3, thread as u64).unwrap();
                    map.ranges_remove(start + 1..=start + 1).unwrap();
                }
            })
        })
        .collect();
    for thread in threads {
        thread.join().unwrap();
    }
    let map = Arc::try_unwrap(map).unwrap().into_inner().unwrap();
    let wanted = (0..2000).flat_map(|at| {
        let (start, value) = (10 * at, at as u64 % 4);
        [(start..=start, value), (start + 2..=start + 3, value)]
    });
    assert!(map.into_range_values().eq(wanted));
}
