//! Each public call with a result that was written by hand.

use crate::plain::{hash_of, Outcome};
use range_map::{InvalidTable, Op, Place, RangeMap, Table, TableBuf};
use std::ops::Bound;

/// Each public call once, with its result.
#[test]
fn results_by_hand() -> Result<(), Box<dyn std::error::Error>> {
    assert!(range_map::library_version() >= 100);
    let mut map = RangeMap::new();
    assert_eq!(map, RangeMap::default());
    assert!(map.ranges_insert(10..=49, 1)?);
    assert!(!map.ranges_insert(20..30, 2)?);
    assert_eq!(map.to_string(), "(10..=19, 1), (20..=29, 2), (30..=49, 1)");
    assert_eq!(format!("{map:?}"), "{10..=19: 1, 20..=29: 2, 30..=49: 1}");
    assert!(map.ranges_insert_absent(45..=54, 3)?);
    assert!(!map.fill_if_free(54..=60, 4)?);
    assert!(map.fill_if_free(56..=60, 4)?);
    assert_eq!(map.insert(20, 5)?, Some(2));
    assert_eq!(map.insert(90, 5)?, None);
    assert!(map.ranges_remove(58..)?);
    assert!(!map.ranges_remove(58..)?);
    assert_eq!(map.remove(12)?, Some(1));
    assert_eq!(map.remove(12)?, None);
    assert_eq!(map.pop_first()?, Some((10, 1)));
    assert_eq!(map.pop_last()?, Some((57, 4)));
    let text = "(11..=11, 1), (13..=19, 1), (20..=20, 5), (21..=29, 2), (30..=49, 1), \
                (50..=54, 3), (56..=56, 4)";
    assert_eq!(map.to_string(), text);

    assert!(!map.is_empty());
    assert_eq!((map.len(), map.ranges_len()), (44, 7));
    assert_eq!(map.len_within(..=20), 9);
    assert_eq!((map.get(20), map.get(12)), (Some(5), None));
    assert!(map.contains_key(56) && !map.contains_key(55));
    assert_eq!(map.range_at(33), Some((30..=49, 1)));
    assert_eq!(map.range_at(12), None);
    assert_eq!(map.range_or_gap_at(33), (30..=49, Some(1)));
    assert_eq!(map.range_or_gap_at(9), (i64::MIN..=10, None));
    assert_eq!(map.range_at_or_above(55), Some((56..=56, 4)));
    assert_eq!(map.range_at_or_below(55), Some((50..=54, 3)));
    assert_eq!(map.first_key_value(), Some((11, 1)));
    assert_eq!(map.last_key_value(), Some((56, 4)));
    assert!(map.has_any(12..14) && !map.has_any(12..13));
    assert!(map.has_all(13..55) && !map.has_all(13..=55));
    assert_eq!(map.find_gap(11..=60, 1), Some(12));
    assert_eq!(map.find_gap(11..=60, 2), Some(57));
    assert_eq!(map.find_last_gap(11..=60, 2), Some(59));
    assert_eq!(map.find_last_gap(11..=56, 1), Some(55));
    assert_eq!(map.find_gap(.., 0), None);
    assert_eq!(map.find_gap(.., u64::MAX), None);
    assert_eq!(
        RangeMap::new().find_last_gap(.., u64::MAX),
        Some(i64::MIN + 1)
    );

    let debug = "[(50..=54, 3), (56..=56, 4)]";
    assert_eq!(format!("{:?}", map.overlapping(50..)), debug);
    assert_eq!(map.range_values().nth(2), Some((20..=20, 5)));
    assert_eq!(
        map.try_clone()?.into_range_values().nth_back(1),
        Some((50..=54, 3))
    );
    assert!(map.ranges().eq([11..=11, 13..=54, 56..=56]));
    assert_eq!(map.iter().next_back(), Some((56..=56, 4)));
    assert!(map
        .range(12..31)
        .rev()
        .eq([(30..=30, 1), (21..=29, 2), (20..=20, 5), (13..=19, 1)]));
    assert_eq!(map.range(54..=55).collect::<Vec<_>>(), [(54..=54, 3)]);
    assert_eq!(
        format!("{:?}", map.range(..=13)),
        "[(11..=11, 1), (13..=13, 1)]"
    );
    assert_eq!(map.keys().nth(1), Some(13));
    assert_eq!((map.keys().count(), map.keys().min()), (44, Some(11)));
    assert_eq!(map.key_values().nth_back(2), Some((53, 3)));
    assert!(map.values_by_range().eq([1, 1, 5, 2, 1, 3, 4]));
    assert!(map.values_by_key().rev().take(7).eq([4, 3, 3, 3, 3, 3, 1]));
    let mut keys = map.keys();
    assert_eq!((keys.nth(10), keys.nth_back(31)), (Some(22), Some(24)));
    assert_eq!(keys.size_hint(), (1, Some(1)));
    assert_eq!(format!("{keys:?}"), "Keys([(23..=23, 2)])");
    assert_eq!(keys.next().zip(keys.next()), None);
    let mut some = map.try_clone()?;
    some.retain(|range, value| value != 1 && range.start() == range.end())?;
    assert_eq!(some.to_string(), "(20..=20, 5), (56..=56, 4)");
    assert!(map.covers(&some) && !some.covers(&map) && !map.is_disjoint(&some));
    some.retain(|_, _| true)?;
    assert_eq!(some.ranges_len(), 2);
    some.retain(|_, _| false)?;
    assert!(some.is_empty() && map.covers(&some) && map.is_disjoint(&some));
    let maps = [
        RangeMap::from([(1..9, 1)]),
        RangeMap::from([(3..=4, 2)]),
        RangeMap::from([(4, 3)]),
    ];
    let text = "(1..=2, 1), (3..=3, 2), (4..=4, 3), (5..=8, 1)";
    assert_eq!(RangeMap::union_of(&maps)?.to_string(), text);
    assert_eq!(RangeMap::union_of([&map, &map])?, map);
    assert!(RangeMap::union_of([])?.is_empty());
    assert!(map.gaps(..20).rev().eq([12..=12, i64::MIN..=10]));
    assert_eq!(format!("{:?}", map.gaps(50..=56)), "[55..=55]");
    assert_eq!(format!("{:?}", map.ranges()), "[11..=11, 13..=54, 56..=56]");
    let two = RangeMap::from_iter([(1, 1), (2, 2)]);
    assert_eq!(
        format!("{:?}", two.range_values()),
        "[(1..=1, 1), (2..=2, 2)]"
    );
    assert_eq!(format!("{:?}", two.into_iter()), "[(1..=1, 1), (2..=2, 2)]");

    let mut upper = map.split_off(30)?;
    assert_eq!(map.len(), 18);
    assert_eq!(
        upper.to_string(),
        "(30..=49, 1), (50..=54, 3), (56..=56, 4)"
    );
    upper.ranges_remove(32..)?;
    map.ranges_remove(..29)?;
    map.append(&mut upper)?;
    assert_eq!(map.to_string(), "(29..=29, 2), (30..=31, 1)");
    assert!(upper.is_empty());
    upper.append(&mut map)?;
    assert!(map.is_empty() && upper.len() == 3);
    map.extend_with(&upper)?;
    map.try_extend([(31.., 6)])?;
    map.extend([(28, 7)]);
    map.extend([(27..=27, 7)]);
    let text = "(27..=28, 7), (29..=29, 2), (30..=30, 1), (31..=9223372036854775807, 6)";
    assert_eq!(map.to_string(), text);
    map.intersect_with(&RangeMap::from_iter([(0..=40, 8)]))?;
    assert_eq!(map.to_string(), "(27..=40, 8)");
    map.subtract(&RangeMap::from_iter([(30, 0)]))?;
    assert_eq!(map.to_string(), "(27..=29, 8), (31..=40, 8)");
    let complement = map.complement_with(9)?;
    let text = "(-9223372036854775808..=26, 9), (30..=30, 9), (41..=9223372036854775807, 9)";
    assert_eq!(complement.to_string(), text);

    let a = RangeMap::from_iter([(1..=4, 1)]);
    let b = RangeMap::from_iter([(3..=6, 2)]);
    assert_eq!((&a | &b)?.to_string(), "(1..=2, 1), (3..=6, 2)");
    assert_eq!((&a & &b)?.to_string(), "(3..=4, 2)");
    assert_eq!((&a - &b)?.to_string(), "(1..=2, 1)");
    assert_eq!((&a ^ &b)?.to_string(), "(1..=2, 1), (5..=6, 2)");
    for (text, change) in [
        (
            "(1..=2, 1), (3..=6, 2)",
            (|a, b| *a |= b) as fn(&mut RangeMap, &RangeMap),
        ),
        ("(3..=4, 2)", |a, b| *a &= b),
        ("(1..=2, 1)", |a, b| *a -= b),
        ("(1..=2, 1), (5..=6, 2)", |a, b| *a ^= b),
    ] {
        let mut changed = a.clone();
        change(&mut changed, &b);
        assert_eq!(changed.to_string(), text);
    }
    assert!(a < b && a != b && a == a.clone() && a >= RangeMap::new());
    assert_eq!(
        hash_of(&a),
        hash_of(&RangeMap::from_iter([(1..=2, 1), (3..=4, 1)]))
    );
    assert_ne!(hash_of(&a), hash_of(&b));
    let is_key = |entry: &(i64, u64)| entry.0 != 3;
    let keys: RangeMap = (1..=4).zip([1, 1, 1, 1]).filter(is_key).collect();
    assert_eq!(keys.to_string(), "(1..=2, 1), (4..=4, 1)");

    let whole = RangeMap::from_iter([(i64::MIN..=i64::MAX, 1)]);
    assert_eq!((whole.len(), whole.len_within(..)), (1 << 64, 1 << 64));
    assert!(whole.gaps(..).next().is_none() && whole.has_all(..) && whole.ranges().count() == 1);
    assert_eq!(whole.to_table()?.as_table().len_within(..), 1 << 64);
    let mut keys = whole.keys();
    assert_eq!(keys.size_hint(), (usize::MAX, None));
    assert_eq!(keys.nth(usize::MAX), Some(i64::MAX));
    assert_eq!((keys.next(), keys.size_hint()), (None, (0, Some(0))));
    assert_eq!(whole.keys().nth_back(usize::MAX), Some(i64::MIN));
    assert_eq!(whole.keys().nth(usize::MAX / 2 + 1), Some(0));
    assert!(whole.covers(&a) && !a.covers(&whole) && !whole.is_disjoint(&a));
    assert!(whole.complement_with(2)?.is_empty());
    map.clear();
    assert!(map.gaps(..).eq([i64::MIN..=i64::MAX]));
    assert!(map.complement_with(1)? == whole);
    Ok(())
}

#[test]
fn tables_by_hand() -> Outcome {
    let (lo, hi, value) = ([10, 20, 40], [19, 29, 49], [1, 1, 2]);
    let table = Table::new(&lo, &hi, &value).expect("the rows are in order");
    assert_eq!(
        (table.lo(), table.hi(), table.value()),
        (&lo[..], &hi[..], &value[..])
    );
    assert_eq!(table.ranges_len(), 3);
    assert_eq!(table.range_values().next_back(), Some((40..=49, 2)));
    assert_eq!((table.get(29), table.get(30)), (Some(1), None));
    assert!(table.contains_key(49) && !table.contains_key(50));
    assert_eq!(table.range_at(25), Some((20..=29, 1)));
    assert_eq!(table.range_or_gap_at(35), (30..=39, None));
    assert_eq!(table.range_at_or_above(30), Some((40..=49, 2)));
    assert_eq!(table.range_at_or_below(39), Some((20..=29, 1)));
    assert_eq!(table.len_within(15..=44), 20);
    let map = RangeMap::from_table(table)?;
    assert_eq!(map.to_string(), "(10..=29, 1), (40..=49, 2)");
    let vecs = map.to_table()?.into_vecs();
    assert_eq!(vecs, (vec![10, 40], vec![29, 49], vec![1, 2]));

    assert_eq!(Table::new(&lo, &hi, &value[..2]), Err(InvalidTable));
    assert_eq!(Table::new(&[2], &[1], &[0]), Err(InvalidTable));
    assert_eq!(Table::new(&[1, 2], &[2, 3], &[0, 0]), Err(InvalidTable));
    let none = Table::new(&[], &[], &[]).expect("a table may be empty");
    assert_eq!((none.get(0), none.len_within(..)), (None, 0));
    assert_eq!(none.range_or_gap_at(0), (i64::MIN..=i64::MAX, None));
    assert_eq!(
        (none.range_at_or_above(0), none.range_at_or_below(0)),
        (None, None)
    );
    assert!(RangeMap::from_table(none)?.is_empty());
    assert_eq!(RangeMap::new().to_table()?, TableBuf::default());
    Ok(())
}

/// Ranges without a key, also those that were iterated to their ends, do nothing in every call.
#[test]
fn ranges_without_a_key() -> Outcome {
    let mut iterated = 20..=22;
    assert_eq!(iterated.by_ref().last(), Some(22));
    let mut from_the_back = 20..=20;
    assert_eq!(from_the_back.next_back(), Some(20));
    let (least, greatest) = (i64::MIN, i64::MAX);
    let mut bounds = vec![
        (Bound::Included(5), Bound::Excluded(5)),
        (Bound::Included(6), Bound::Included(2)),
        (Bound::Unbounded, Bound::Excluded(least)),
        (Bound::Excluded(greatest), Bound::Unbounded),
        (Bound::Excluded(5), Bound::Excluded(6)),
    ];
    for range in [iterated, from_the_back] {
        let mut map = RangeMap::from_iter([(range.clone(), 1)]);
        map.extend([(range.clone(), 1)]);
        assert!(map.is_empty());
        use std::ops::RangeBounds;
        bounds.push((range.start_bound().cloned(), range.end_bound().cloned()));
    }
    for range in bounds {
        for full in [false, true] {
            let mut map = RangeMap::new();
            if full {
                map.ranges_insert(.., 1)?;
            }
            let before = map.try_clone()?;
            assert!(!map.ranges_insert(range, 2)?);
            assert!(!map.ranges_insert_absent(range, 2)?);
            assert!(map.fill_if_free(range, 2)?);
            assert!(!map.ranges_remove(range)?);
            map.combine(range, 2, Op::Add, Place::All)?;
            map.try_extend([(range, 2), (range, 3)])?;
            assert_eq!(map, before);
            assert_eq!(map.len_within(range), 0);
            assert!(!map.has_any(range) && map.has_all(range));
            assert_eq!(map.find_gap(range, 1), None);
            assert_eq!(map.find_last_gap(range, 1), None);
            assert_eq!(map.overlapping(range).count(), 0);
            assert_eq!(map.overlapping(range).rev().count(), 0);
            assert_eq!(map.range(range).count() + map.range(range).rev().count(), 0);
            assert_eq!(map.gaps(range).count(), 0);
            assert_eq!(map.gaps(range).rev().count(), 0);
            assert_eq!(map.to_table()?.as_table().len_within(range), 0);
        }
    }
    Ok(())
}
