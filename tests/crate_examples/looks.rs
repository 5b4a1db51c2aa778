//! What is at a key, and how much there is.
use crate::answers::{Answer, Words, judge};
use range_map_blaze::{RangeMapBlaze, UIntPlusOne};
use std::alloc::Global;

fn get_of_keys(alloc: Global) -> Answer {
    let map = Words::from_points(alloc, [(3, "c"), (1, "a"), (2, "b")])?;
    Ok(map.get(2) == Some(&"b") && map.get(4).is_none())
}

fn contains_key_of_keys(alloc: Global) -> Answer {
    let map = Words::from_points(alloc, [(3, "c"), (1, "a"), (2, "b")])?;
    Ok(map.contains_key(1) && !map.contains_key(4))
}

fn get_key_value_of_keys(alloc: Global) -> Answer {
    let map = Words::from_ranges(alloc, [(3..=5, "c"), (1..=2, "a")])?;
    let are_pairs = map.get_key_value(2) == Some((2, &"a"))
        && map.get_key_value(4) == Some((4, &"c"));
    Ok(are_pairs && map.get_key_value(6).is_none())
}

fn range_at_of_keys(alloc: Global) -> Answer {
    let map = Words::from_ranges(alloc, [(1..=3, "red"), (7..=10, "blue")])?;
    Ok(map.range_at(2) == Some((1..=3, &"red")) && map.range_at(5).is_none())
}

fn range_or_gap_at_of_keys(alloc: Global) -> Answer {
    let map = Words::from_ranges(alloc, [(1..=3, "red"), (7..=10, "blue")])?;
    let is_gap = map.range_or_gap_at(5) == (4..=6, None);
    let is_red = map.range_or_gap_at(2) == (1..=3, Some(&"red"));
    Ok(is_gap && is_red && map.range_or_gap_at(8) == (7..=10, Some(&"blue")))
}

fn first_key_value_of_one_and_two(alloc: Global) -> Answer {
    let mut map = Words::new(alloc);
    let is_none = map.first_key_value().is_none();
    let _ = map.insert(1, "a")?;
    let is_first = map.first_key_value() == Some((1, &"a"));
    let _ = map.insert(2, "b")?;
    Ok(is_none && is_first && map.first_key_value() == Some((1, &"a")))
}

fn last_key_value_of_one_and_two(alloc: Global) -> Answer {
    let mut map = Words::new(alloc);
    let is_none = map.last_key_value().is_none();
    let _ = map.insert(1, "a")?;
    let is_first = map.last_key_value() == Some((1, &"a"));
    let _ = map.insert(2, "b")?;
    Ok(is_none && is_first && map.last_key_value() == Some((2, &"b")))
}

fn default_is_empty(alloc: Global) -> Answer {
    Ok(Words::default(alloc).is_empty())
}

fn is_empty_until_an_insert(alloc: Global) -> Answer {
    let mut map = Words::new(alloc);
    let was_empty = map.is_empty();
    let _ = map.insert(1, "a")?;
    Ok(was_empty && !map.is_empty())
}

fn new_takes_entries(alloc: Global) -> Answer {
    let mut map = Words::new(alloc);
    let _ = map.insert(1, "a")?;
    Ok(map.contains_key(1) && map[1] == "a")
}

fn is_universal_with_all_keys(alloc: Global) -> Answer {
    let all = RangeMapBlaze::from_ranges(alloc, [(0u8..=100, "first"), (101..=255, "second")])?;
    let lacking = RangeMapBlaze::from_ranges(alloc, [(1u8..=255, "missing_zero")])?;
    Ok(all.is_universal() && !lacking.is_universal())
}

fn universe_with_a_word(alloc: Global) -> Answer {
    let map: RangeMapBlaze<u8, &'static str> = RangeMapBlaze::universe_with(alloc, &"all")?;
    let are_ends = map.get(0) == Some(&"all") && map.get(255) == Some(&"all");
    Ok(map.is_universal() && are_ends)
}

fn len_of_none_and_one(alloc: Global) -> Answer {
    let mut map = Words::new(alloc);
    let was_none = map.len() == 0;
    let _ = map.insert(1, "a")?;
    Ok(was_none && map.len() == 1)
}

fn len_below_two_to_the_128(alloc: Global) -> Answer {
    let ranges = [(i128::MIN..=10, "a"), (-10..=i128::MAX - 1, "a")];
    let map = RangeMapBlaze::from_ranges(alloc, ranges)?;
    Ok(map.len() == UIntPlusOne::UInt(u128::MAX))
}

/// Judges the examples of this file.
pub fn all(rt: &HostRuntime, alloc: Global) -> bool {
    judge(
        rt,
        "look-ups",
        &[
            ("get_of_keys", get_of_keys(alloc)),
            ("contains_key_of_keys", contains_key_of_keys(alloc)),
            ("get_key_value_of_keys", get_key_value_of_keys(alloc)),
            ("range_at_of_keys", range_at_of_keys(alloc)),
            ("range_or_gap_at_of_keys", range_or_gap_at_of_keys(alloc)),
            (
                "first_key_value_of_one_and_two",
                first_key_value_of_one_and_two(alloc),
            ),
            (
                "last_key_value_of_one_and_two",
                last_key_value_of_one_and_two(alloc),
            ),
            ("default_is_empty", default_is_empty(alloc)),
            ("is_empty_until_an_insert", is_empty_until_an_insert(alloc)),
            ("new_takes_entries", new_takes_entries(alloc)),
            (
                "is_universal_with_all_keys",
                is_universal_with_all_keys(alloc),
            ),
            ("universe_with_a_word", universe_with_a_word(alloc)),
            ("len_of_none_and_one", len_of_none_and_one(alloc)),
            ("len_below_two_to_the_128", len_below_two_to_the_128(alloc)),
        ],
    )
}
