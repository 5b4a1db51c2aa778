//! Random calls on two maps, and maps with many entries.

use crate::check::{check, check_ends};
use crate::plain::{entries_of, filtered, runs, Choice, Outcome, Plain, KEYS};
use range_map::{Entry, Op, Place, RangeMap};
use std::ops::RangeInclusive;

const OPS: [Op; 7] = [
    Op::Add,
    Op::Min,
    Op::Max,
    Op::BitAnd,
    Op::BitOr,
    Op::BitXor,
    Op::KeepOld,
];

fn combined(old: u64, value: u64, op: Op) -> u64 {
    match op {
        Op::Add => old.wrapping_add(value),
        Op::Min => old.min(value),
        Op::Max => old.max(value),
        Op::BitAnd => old & value,
        Op::BitOr => old | value,
        Op::BitXor => old ^ value,
        Op::KeepOld => old,
    }
}

fn collected(map: RangeMap) -> Vec<Entry> {
    map.into_range_values().collect()
}

fn round(choice: &mut Choice) -> Outcome {
    let base = [0, -12, i64::MIN, i64::MAX - KEYS + 1][choice.below(4) as usize];
    let (mut map, mut plain) = (RangeMap::new(), Plain::new());
    let (mut other, mut other_plain) = (RangeMap::default(), Plain::new());
    for _ in 0..100 {
        let (one, two) = (base + choice.below(KEYS), base + choice.below(KEYS));
        let (lo, hi, value) = (one.min(two), one.max(two), choice.below(4) as u64);
        let size = plain.len();
        match choice.below(29) {
            0..=2 => {
                plain.extend((lo..=hi).map(|key| (key, value)));
                assert_eq!(map.ranges_insert(lo..=hi, value)?, plain.len() != size);
            }
            3 => {
                plain.extend((lo..hi).map(|key| (key, value)));
                assert_eq!(map.ranges_insert(lo..hi, value)?, plain.len() != size);
            }
            4 => {
                for key in lo..=hi {
                    plain.entry(key).or_insert(value);
                }
                assert_eq!(
                    map.ranges_insert_absent(lo..=hi, value)?,
                    plain.len() != size
                );
            }
            5 => {
                let is_free = plain.range(lo..=hi).next().is_none();
                if is_free {
                    plain.extend((lo..=hi).map(|key| (key, value)));
                }
                assert_eq!(map.fill_if_free(lo..=hi, value)?, is_free);
            }
            6 => assert_eq!(map.insert(lo, value)?, plain.insert(lo, value)),
            7 => {
                plain.retain(|key, _| !(lo..=hi).contains(key));
                assert_eq!(map.ranges_remove(lo..=hi)?, plain.len() != size);
            }
            8 => assert_eq!(map.remove(lo)?, plain.remove(&lo)),
            9 => {
                let first = plain.keys().next().copied();
                let first = first.and_then(|key| plain.remove_entry(&key));
                assert_eq!(map.pop_first()?, first);
            }
            10 => {
                let last = plain.keys().next_back().copied();
                let last = last.and_then(|key| plain.remove_entry(&key));
                assert_eq!(map.pop_last()?, last);
            }
            11 if choice.below(2) == 0 => {
                let ranges = [(lo..hi, value), (one..two, value + 1), (lo..lo + 1, value)];
                for (range, value) in &ranges {
                    plain.extend(range.clone().map(|key| (key, *value)));
                }
                let (keys, values): (Vec<_>, Vec<_>) = ranges.iter().cloned().unzip();
                match choice.below(5) {
                    0 => map.extend(ranges),
                    1 => map.extend(&ranges),
                    2 => map.extend(keys.iter().zip(&values)),
                    3 => map.extend_with(&RangeMap::from(ranges))?,
                    _ => map.extend_with(&ranges.into_iter().collect())?,
                }
            }
            11 => {
                let ranges = [(lo..=hi, value), (one..=two, value + 1), (lo..=lo, value)];
                for (range, value) in &ranges {
                    plain.extend(range.clone().map(|key| (key, *value)));
                }
                let (keys, values): (Vec<_>, Vec<_>) = ranges.iter().cloned().unzip();
                match choice.below(6) {
                    0 => map.extend(ranges),
                    1 => map.try_extend(ranges)?,
                    2 => map.extend(&ranges),
                    3 => map.extend(keys.iter().zip(&values)),
                    4 => map |= RangeMap::from(ranges),
                    _ => map |= RangeMap::from_iter(ranges),
                }
            }
            12 => {
                let keys = [(one, value), (two, value + 1), (lo, value)];
                plain.extend(keys);
                match choice.below(5) {
                    0 => map.extend(keys),
                    1 => map.extend(&keys),
                    2 => map.extend(&Plain::from(keys)),
                    3 => map.extend_with(&RangeMap::from(keys))?,
                    _ => map.extend_with(&keys.into_iter().collect())?,
                }
            }
            13 => {
                other = map.split_off(lo)?;
                other_plain = plain.split_off(&lo);
            }
            14 => {
                plain.extend(&other_plain);
                match choice.below(3) {
                    0 => map.extend_with(&other)?,
                    1 => map |= &other,
                    _ => map.append(&mut other.clone())?,
                }
            }
            15 => {
                map.append(&mut other)?;
                plain.append(&mut other_plain);
                assert!(other.is_empty());
            }
            16 => {
                plain = filtered(&other_plain, |key| plain.contains_key(&key));
                match choice.below(3) {
                    0 => map.intersect_with(&other)?,
                    1 => map &= &other,
                    _ => map &= other.clone(),
                }
            }
            17 => {
                plain.retain(|key, _| !other_plain.contains_key(key));
                match choice.below(3) {
                    0 => map.subtract(&other)?,
                    1 => map -= &other,
                    _ => map -= other.clone(),
                }
            }
            18 => {
                let mut toggled = filtered(&other_plain, |key| !plain.contains_key(&key));
                toggled.extend(filtered(&plain, |key| !other_plain.contains_key(&key)));
                plain = toggled;
                match choice.below(2) {
                    0 => map ^= &other,
                    _ => map ^= other.clone(),
                }
            }
            19 => {
                let mut union = plain.clone();
                union.extend(&other_plain);
                let both = filtered(&other_plain, |key| plain.contains_key(&key));
                let difference = filtered(&plain, |key| !other_plain.contains_key(&key));
                let mut one_of = filtered(&other_plain, |key| !plain.contains_key(&key));
                one_of.extend(&difference);
                let (a, b) = (|| map.clone(), || other.clone());
                for united in [&map | &other, &map | b(), a() | &other, a() | b()] {
                    assert_eq!(collected(united?), entries_of(&union));
                }
                for shared in [&map & &other, &map & b(), a() & &other, a() & b()] {
                    assert_eq!(collected(shared?), entries_of(&both));
                }
                for reduced in [&map - &other, &map - b(), a() - &other, a() - b()] {
                    assert_eq!(collected(reduced?), entries_of(&difference));
                }
                for toggled in [&map ^ &other, &map ^ b(), a() ^ &other, a() ^ b()] {
                    assert_eq!(collected(toggled?), entries_of(&one_of));
                }
                let same = &map;
                assert_eq!((&map | same)?, map);
                assert_eq!((&map & same)?, map);
                assert!((&map - same)?.is_empty() && (&map ^ same)?.is_empty());
            }
            20 => {
                let complement = map.complement_with(value)?;
                assert_eq!(complement.len() + map.len(), 1 << 64);
                let window = base..=base + (KEYS - 1);
                assert!(window
                    .clone()
                    .all(|key| complement.contains_key(key) != plain.contains_key(&key)));
                assert!(complement.ranges().eq(map.gaps(..)));
            }
            21 => {
                other = map.try_clone()?;
                other_plain = plain.clone();
                assert_eq!(other, map);
            }
            22 => {
                std::mem::swap(&mut map, &mut other);
                std::mem::swap(&mut plain, &mut other_plain);
                assert_eq!(map.cmp(&other), plain.cmp(&other_plain));
                assert_eq!(map < other, plain < other_plain);
                assert_eq!(map == other, plain == other_plain);
            }
            23 | 24 => {
                let op = OPS[choice.below(7) as usize];
                let place = [Place::All, Place::Mapped][choice.below(2) as usize];
                let value = [value, u64::MAX - value][choice.below(2) as usize];
                for key in lo..=hi {
                    match plain.get_mut(&key) {
                        Some(old) => *old = combined(*old, value, op),
                        None if place == Place::All => drop(plain.insert(key, value)),
                        None => {}
                    }
                }
                map.combine(lo..=hi, value, op, place)?;
            }
            25 => {
                map.clear();
                plain.clear();
            }
            26 => {
                let entries = entries_of(&plain);
                let is_kept = |range: &RangeInclusive<i64>, other: u64| {
                    other != value && !range.contains(&lo)
                };
                let mut called = Vec::new();
                map.retain(|range, other| {
                    called.push((range.clone(), other));
                    is_kept(&range, other)
                })?;
                assert_eq!(called, entries);
                let kept = entries
                    .into_iter()
                    .filter(|(range, other)| is_kept(range, *other));
                plain = kept
                    .flat_map(|(range, other)| range.map(move |key| (key, other)))
                    .collect();
            }
            27 => {
                let third = RangeMap::from([(lo..=hi, value)]);
                let third_plain: Plain = (lo..=hi).map(|key| (key, value)).collect();
                let maps = [&map, &other, &third];
                let plains = [&plain, &other_plain, &third_plain];
                let chosen: Vec<usize> = (0..choice.below(8))
                    .map(|_| choice.below(3) as usize)
                    .collect();
                let mut union = Plain::new();
                for &at in &chosen {
                    union.extend(plains[at]);
                }
                let united = RangeMap::union_of(chosen.iter().map(|&at| maps[at]))?;
                assert_eq!(collected(united), entries_of(&union));
            }
            _ => {
                let keys = choice.below(KEYS);
                let part: Plain = filtered(&plain, |key| key - base < keys);
                other = part.clone().into_iter().collect();
                other_plain = part;
                assert!(map.covers(&other));
            }
        }
        let is_free = |key: &i64| !plain.contains_key(key);
        assert_eq!(map.is_disjoint(&other), other_plain.keys().all(is_free));
        assert_eq!(map.covers(&other), !other_plain.keys().any(is_free));
        assert!(map.covers(&map) && map.is_disjoint(&map) == map.is_empty());
        check(choice, &map, &plain, lo, hi)?;
    }
    let entries: Vec<String> = entries_of(&plain)
        .iter()
        .map(|entry| format!("{entry:?}"))
        .collect();
    assert_eq!(map.to_string(), entries.join(", "));
    check_ends(choice, map.into_iter(), entries_of(&plain));
    Ok(())
}

#[test]
fn random_calls() -> Outcome {
    let mut choice = Choice(64);
    for _ in 0..500 {
        round(&mut choice)?;
    }
    Ok(())
}

/// Pairs of maps of which one has many more entries, and pairs with about as many.
#[test]
fn keys_of_two_maps() {
    let mut choice = Choice(11);
    let (mut covered, mut free) = (0, 0);
    for _ in 0..1500 {
        let counts = [0, 1, 2, 20, 60].map(|most| choice.below(most + 1));
        let mut pairs = counts.map(|count| {
            let first = choice.below(300);
            (0..count)
                .map(|_| (first + choice.below(3 * count), choice.below(3) as u64))
                .collect::<Plain>()
        });
        if choice.below(4) != 0 {
            let larger = pairs[4].clone();
            let is_in = choice.below(3) != 0;
            pairs[..4]
                .iter_mut()
                .for_each(|pairs| pairs.retain(|key, _| larger.contains_key(key) == is_in));
        }
        if choice.below(3) == 0 {
            pairs[3].insert(choice.below(500), 0);
        }
        let maps = pairs.clone().map(RangeMap::from_iter);
        for (map, plain) in maps.iter().zip(&pairs) {
            for (other, other_plain) in maps.iter().zip(&pairs) {
                let has = |key: &i64| plain.contains_key(key);
                let (is_free, is_covered) =
                    (!other_plain.keys().any(has), other_plain.keys().all(has));
                assert_eq!(map.is_disjoint(other), is_free, "{map} and {other}");
                assert_eq!(map.covers(other), is_covered, "{map} and {other}");
                free += usize::from(is_free && !map.is_empty() && !other.is_empty());
                covered += usize::from(is_covered && plain != other_plain && !other.is_empty());
            }
        }
    }
    assert!(covered > 200 && free > 1000, "{covered} {free}");
}

/// Iterations longer than one read, and batches longer than one call.
#[test]
fn many_entries() -> Outcome {
    let mut choice = Choice(7);
    for count in [3, 4, 5, 35, 36, 37, 68, 69, 100, 5000] {
        let mut ranges: Vec<Entry> = (0..count)
            .map(|i| (i * 10..=i * 10 + choice.below(10), i as u64))
            .collect();
        let map = RangeMap::from_iter(ranges.iter().cloned());
        for _ in 0..8 {
            check_ends(&mut choice, map.range_values(), ranges.iter().cloned());
            check_ends(&mut choice, map.overlapping(..), ranges.iter().cloned());
            check_ends(&mut choice, map.clone().into_iter(), ranges.iter().cloned());
            let has = |key| map.contains_key(key);
            let keys = 5..=count * 10 + 5;
            check_ends(
                &mut choice,
                map.gaps(keys.clone()),
                runs(keys, |key| !has(key)),
            );
            check_ends(&mut choice, map.ranges(), runs(0..=count * 10, has));
        }
        ranges.sort_by_key(|(range, _)| (range.start() * 7919) % 4999);
        let mut plain = Plain::new();
        for (range, value) in &ranges {
            plain.extend((range.start() - 3..range.end() + 4).map(|key| (key, *value)));
        }
        let wider = |(range, value): Entry| (range.start() - 3..range.end() + 4, value);
        let mut shuffled = RangeMap::new();
        shuffled.try_extend(ranges.into_iter().map(wider))?;
        assert_eq!(shuffled.into_iter().collect::<Vec<_>>(), entries_of(&plain));
    }
    Ok(())
}
