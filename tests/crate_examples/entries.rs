//! Entries and ranges of keys, one by one.
use crate::answers::{Answer, Words, gives, judge, prints};
use std::alloc::{AllocError, Global};

/// Ranges that overlap, the least painted last.
fn falling(alloc: Global) -> Result<Words, AllocError> {
    Words::from_ranges(alloc, [(30..=40, "c"), (15..=25, "b"), (10..=20, "a")])
}

/// The same ranges, the greatest painted last.
fn rising(alloc: Global) -> Result<Words, AllocError> {
    Words::from_ranges(alloc, [(10..=20, "a"), (15..=25, "b"), (30..=40, "c")])
}

fn range_values_of_falling(alloc: Global) -> Answer {
    let expected = [(10..=20, &"a"), (21..=25, &"b"), (30..=40, &"c")];
    Ok(gives(falling(alloc)?.range_values(), &expected))
}

fn range_values_of_rising(alloc: Global) -> Answer {
    let expected = [(10..=14, &"a"), (15..=25, &"b"), (30..=40, &"c")];
    Ok(gives(rising(alloc)?.range_values(), &expected))
}

fn into_range_values_of_falling(alloc: Global) -> Answer {
    let entries = falling(alloc)?.into_range_values()?;
    let expected = [(10..=20, "a"), (21..=25, "b"), (30..=40, "c")];
    Ok(gives(entries.map(|(range, word)| (range, *word)), &expected))
}

fn into_range_values_of_rising(alloc: Global) -> Answer {
    let entries = rising(alloc)?.into_range_values()?;
    let expected = [(10..=14, "a"), (15..=25, "b"), (30..=40, "c")];
    Ok(gives(entries.map(|(range, word)| (range, *word)), &expected))
}

fn ranges_of_rising(alloc: Global) -> Answer {
    Ok(gives(rising(alloc)?.ranges(), &[10..=25, 30..=40]))
}

fn ranges_of_falling(alloc: Global) -> Answer {
    Ok(gives(falling(alloc)?.ranges(), &[10..=25, 30..=40]))
}

fn into_ranges_of_rising(alloc: Global) -> Answer {
    Ok(gives(rising(alloc)?.into_ranges(), &[10..=25, 30..=40]))
}

fn into_ranges_of_falling(alloc: Global) -> Answer {
    Ok(gives(falling(alloc)?.into_ranges(), &[10..=25, 30..=40]))
}

fn ranges_len_counts_entries(alloc: Global) -> Answer {
    let map = Words::from_ranges(alloc, [(10..=20, "a"), (15..=25, "a"), (30..=40, "b")])?;
    let is_text = prints(alloc, &map, r#"(10..=25, "a"), (30..=40, "b")"#)?;
    Ok(is_text && map.ranges_len() == 2)
}

fn range_values_len_counts_entries(alloc: Global) -> Answer {
    let ranges = [
        (28..=35, "c"),
        (30..=40, "c"),
        (15..=25, "b"),
        (10..=20, "a"),
    ];
    let map = Words::from_ranges(alloc, ranges)?;
    let text = r#"(10..=20, "a"), (21..=25, "b"), (28..=40, "c")"#;
    Ok(prints(alloc, &map, text)? && map.range_values_len() == 3)
}

/// Judges the examples of this file.
pub fn all(rt: &HostRuntime, alloc: Global) -> bool {
    judge(
        rt,
        "entries",
        &[
            ("range_values_of_falling", range_values_of_falling(alloc)),
            ("range_values_of_rising", range_values_of_rising(alloc)),
            (
                "into_range_values_of_falling",
                into_range_values_of_falling(alloc),
            ),
            (
                "into_range_values_of_rising",
                into_range_values_of_rising(alloc),
            ),
            ("ranges_of_rising", ranges_of_rising(alloc)),
            ("ranges_of_falling", ranges_of_falling(alloc)),
            ("into_ranges_of_rising", into_ranges_of_rising(alloc)),
            ("into_ranges_of_falling", into_ranges_of_falling(alloc)),
            (
                "ranges_len_counts_entries",
                ranges_len_counts_entries(alloc),
            ),
            (
                "range_values_len_counts_entries",
                range_values_len_counts_entries(alloc),
            ),
        ],
    )
}
