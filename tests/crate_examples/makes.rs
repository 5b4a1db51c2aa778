//! Maps that are made.
use crate::answers::{Answer, Words, judge, prints};
use range_map_blaze::{CheckSortedDisjointMap, IntoRangeMapBlaze, RangeMapBlaze};
use std::alloc::{AllocError, Global};

/// The text of most lists of keys.
const OF_KEYS: &str = r#"(1..=3, "a"), (100..=100, "b")"#;

/// The text of most lists of ranges.
const OF_RANGES: &str = r#"(-10..=-5, "c"), (1..=2, "a")"#;

fn new_and_default(alloc: Global) -> Answer {
    let map = Words::new(alloc);
    Ok(map.is_empty() && map == Words::default(alloc))
}

fn from_points_greatest_first(alloc: Global) -> Answer {
    let points = [(100, "b"), (1, "c"), (3, "a"), (2, "a"), (1, "a")];
    prints(alloc, &Words::from_points(alloc, points)?, OF_KEYS)
}

fn from_points_greatest_last(alloc: Global) -> Answer {
    let points = [(1, "c"), (3, "a"), (2, "a"), (1, "a"), (100, "b")];
    prints(alloc, &Words::from_points(alloc, points)?, OF_KEYS)
}

fn from_array_of_points(alloc: Global) -> Answer {
    let points = [(100, "b"), (1, "c"), (3, "a"), (2, "a"), (1, "a")];
    prints(alloc, &Words::from_array(alloc, points)?, OF_KEYS)
}

fn from_ranges_in_any_order(alloc: Global) -> Answer {
    let ranges = [(2..=2, "b"), (1..=2, "a"), (-10..=-5, "c"), (1..=0, "d")];
    prints(alloc, &Words::from_ranges(alloc, ranges)?, OF_RANGES)
}

fn from_points_with_lent_words(alloc: Global) -> Answer {
    let points = [(1, &"c"), (3, &"a"), (2, &"a"), (1, &"a"), (100, &"b")];
    prints(
        alloc,
        &Words::from_points_ref_value(alloc, points)?,
        OF_KEYS,
    )
}

fn from_ranges_with_lent_words(alloc: Global) -> Answer {
    let ranges = [
        (1..=0, &"d"),
        (-10..=-5, &"c"),
        (2..=2, &"b"),
        (1..=2, &"a"),
    ];
    prints(
        alloc,
        &Words::from_ranges_ref_value(alloc, ranges)?,
        OF_RANGES,
    )
}

fn from_lent_points(alloc: Global) -> Answer {
    let points = [(2, "b"), (2, "a"), (1, "a")];
    prints(
        alloc,
        &Words::from_ref_points(alloc, &points)?,
        r#"(1..=2, "a")"#,
    )
}

fn from_lent_ranges(alloc: Global) -> Answer {
    let ranges = [(1..=0, "d"), (-10..=-5, "c"), (2..=2, "b"), (1..=2, "a")];
    prints(alloc, &Words::from_ref_ranges(alloc, &ranges)?, OF_RANGES)
}

fn from_lent_points_with_lent_words(alloc: Global) -> Answer {
    let points = [(1, &"c"), (100, &"b"), (1, &"a"), (2, &"a"), (3, &"a")];
    prints(
        alloc,
        &Words::from_ref_points_ref_value(alloc, &points)?,
        OF_KEYS,
    )
}

fn from_lent_ranges_with_lent_words(alloc: Global) -> Answer {
    let ranges = [
        (1..=0, &"d"),
        (-10..=-5, &"c"),
        (2..=2, &"b"),
        (1..=2, &"a"),
    ];
    prints(
        alloc,
        &Words::from_ref_ranges_ref_value(alloc, &ranges)?,
        OF_RANGES,
    )
}

/// A borrowed word.
type Word = &'static &'static str;

/// A list of two ranges, as a stream.
fn stream(
    alloc: Global,
    low: Word,
    high: Word,
) -> Result<Option<CheckSortedDisjointMap<i32, Word>>, AllocError> {
    let list = vec![in alloc; (-10..=-5, low), (1..=2, high)]?;
    Ok(CheckSortedDisjointMap::new(list).ok())
}

fn from_stream(alloc: Global, low: Word, high: Word, text: &str) -> Answer {
    match stream(alloc, low, high)? {
        Some(stream) => {
            let map = RangeMapBlaze::from_sorted_disjoint_map(alloc, stream)?;
            prints(alloc, &map, text)
        }
        None => Ok(false),
    }
}

fn stream_into_map(alloc: Global, low: Word, high: Word, text: &str) -> Answer {
    match stream(alloc, low, high)? {
        Some(stream) => prints(alloc, &stream.into_range_map_blaze(alloc)?, text),
        None => Ok(false),
    }
}

/// The text of another stream.
const OTHER: &str = r#"(-10..=-5, "a"), (1..=2, "b")"#;

/// Judges the examples of this file.
pub fn all(rt: &HostRuntime, alloc: Global) -> bool {
    judge(
        rt,
        "constructors",
        &[
            ("new_and_default", new_and_default(alloc)),
            (
                "from_points_greatest_first",
                from_points_greatest_first(alloc),
            ),
            (
                "from_points_greatest_last",
                from_points_greatest_last(alloc),
            ),
            ("from_array_of_points", from_array_of_points(alloc)),
            ("from_ranges_in_any_order", from_ranges_in_any_order(alloc)),
            (
                "from_points_with_lent_words",
                from_points_with_lent_words(alloc),
            ),
            (
                "from_ranges_with_lent_words",
                from_ranges_with_lent_words(alloc),
            ),
            ("from_lent_points", from_lent_points(alloc)),
            ("from_lent_ranges", from_lent_ranges(alloc)),
            (
                "from_lent_points_with_lent_words",
                from_lent_points_with_lent_words(alloc),
            ),
            (
                "from_lent_ranges_with_lent_words",
                from_lent_ranges_with_lent_words(alloc),
            ),
            ("from_stream", from_stream(alloc, &"c", &"a", OF_RANGES)),
            (
                "stream_into_map",
                stream_into_map(alloc, &"c", &"a", OF_RANGES),
            ),
            ("from_other_stream", from_stream(alloc, &"a", &"b", OTHER)),
            (
                "other_stream_into_map",
                stream_into_map(alloc, &"a", &"b", OTHER),
            ),
        ],
    )
}
