//! Operations between many streams.
use crate::answers::{Answer, Numbers, Words, gives, judge};
use range_map_blaze::{CheckSortedDisjointMap, Owned, RangeMapBlaze, SweepEvent};
use range_map_multi::MultiwaySortedDisjointMap;
use std::alloc::{AllocError, Global};

/// A list as a stream.
type Stream = CheckSortedDisjointMap<i32, &'static &'static str>;

/// Three streams that overlap.
fn streams(alloc: Global) -> Result<Vec<Stream>, AllocError> {
    let mut streams = Vec::new(alloc);
    for list in [
        vec![in alloc; (2..=2, &"a"), (6..=200, &"a")]?,
        vec![in alloc; (2..=6, &"b")]?,
        vec![in alloc; (1..=2, &"c"), (5..=100, &"c")]?,
    ] {
        if let Ok(stream) = CheckSortedDisjointMap::new(list) {
            streams.push(stream)?;
        }
    }
    Ok(streams)
}

fn union_of_streams(alloc: Global) -> Answer {
    let expected = [
        (1..=2, &"c"),
        (3..=4, &"b"),
        (5..=100, &"c"),
        (101..=200, &"a"),
    ];
    Ok(gives(streams(alloc)?.union(alloc)?, &expected))
}

fn intersection_of_streams(alloc: Global) -> Answer {
    let streams = streams(alloc)?;
    if streams.is_empty() {
        return Ok(false);
    }
    Ok(gives(
        streams.intersection(alloc)?,
        &[(2..=2, &"c"), (6..=6, &"c")],
    ))
}

fn symmetric_difference_of_streams(alloc: Global) -> Answer {
    let expected = [
        (1..=2, &"c"),
        (3..=4, &"b"),
        (6..=6, &"c"),
        (101..=200, &"a"),
    ];
    Ok(gives(streams(alloc)?.symmetric_difference(alloc)?, &expected))
}

/// Returns the sum of numbers.
fn sum(row: &[&&i32]) -> i32 {
    let mut sum = 0i32;
    for number in row {
        sum = sum.wrapping_add(***number);
    }
    sum
}

fn inner_join_of_streams(alloc: Global) -> Answer {
    let a = Numbers::from_ranges(alloc, [(0..=9, 1), (10..=19, 2)])?;
    let b = Numbers::from_ranges(alloc, [(5..=14, 10)])?;
    let c = Numbers::from_ranges(alloc, [(0..=99, 100)])?;
    let streams = vec![in alloc; a.range_values(), b.range_values(), c.range_values()]?;
    let sums = streams.inner_join(alloc, |row| sum(row))?;
    Ok(gives(sums, &[(5..=9, Owned(111)), (10..=14, Owned(112))]))
}

/// Returns two words, with an empty one for an absent one.
fn two(row: &[Option<&&&'static str>]) -> [&'static str; 2] {
    match row {
        [first, second] => [
            first.map_or("", |word| **word),
            second.map_or("", |word| **word),
        ],
        _ => [""; 2],
    }
}

fn full_join_of_streams(alloc: Global) -> Answer {
    let a = Words::from_ranges(alloc, [(0..=9, "a")])?;
    let b = Words::from_ranges(alloc, [(5..=14, "b")])?;
    let streams = vec![in alloc; a.range_values(), b.range_values()]?;
    let names = streams.full_join(alloc, |row| two(row))?;
    let expected = [
        (0..=4, Owned(["a", ""])),
        (5..=9, Owned(["a", "b"])),
        (10..=14, Owned(["", "b"])),
    ];
    Ok(gives(names, &expected))
}

/// A map of letters.
type Letters = RangeMapBlaze<i32, char>;

fn sweep_of_streams(alloc: Global) -> Answer {
    let a = Letters::from_ranges(alloc, [(0..=9, 'a')])?;
    let b = Letters::from_ranges(alloc, [(5..=14, 'b')])?;
    let c = Letters::from_ranges(alloc, [(7..=8, 'c')])?;
    let streams = vec![in alloc; a.range_values(), b.range_values(), c.range_values()]?;
    let (mut depth, mut greatest) = (0u8, 0);
    for event in streams.sweep(alloc)? {
        depth = match event {
            SweepEvent::Start { .. } => depth.saturating_add(1),
            SweepEvent::End { .. } => depth.saturating_sub(1),
        };
        greatest = depth.max(greatest);
    }
    Ok(greatest == 3)
}

/// Judges the examples of this file.
pub fn all(rt: &HostRuntime, alloc: Global) -> bool {
    judge(
        rt,
        "many streams",
        &[
            ("union_of_streams", union_of_streams(alloc)),
            ("intersection_of_streams", intersection_of_streams(alloc)),
            (
                "symmetric_difference_of_streams",
                symmetric_difference_of_streams(alloc),
            ),
            ("inner_join_of_streams", inner_join_of_streams(alloc)),
            ("full_join_of_streams", full_join_of_streams(alloc)),
            ("sweep_of_streams", sweep_of_streams(alloc)),
        ],
    )
}
