//! Operations between many maps.
use crate::answers::{Answer, Numbers, Words, judge, prints};
use range_map_blaze::RangeMapBlaze;
use range_map_multi::{MultiwayRangeMapBlaze, MultiwayRangeMapBlazeRef};
use std::alloc::{AllocError, Global};

/// Three maps that overlap.
fn maps(alloc: Global) -> Result<[Words; 3], AllocError> {
    Ok([
        Words::from_ranges(alloc, [(2..=2, "a"), (6..=200, "a")])?,
        Words::from_ranges(alloc, [(2..=6, "b")])?,
        Words::from_ranges(alloc, [(1..=2, "c"), (5..=100, "c")])?,
    ])
}

fn union_of_maps(alloc: Global) -> Answer {
    let text = r#"(1..=2, "c"), (3..=4, "b"), (5..=100, "c"), (101..=200, "a")"#;
    prints(alloc, &maps(alloc)?.union(alloc)?, text)
}

fn intersection_of_maps(alloc: Global) -> Answer {
    let text = r#"(2..=2, "c"), (6..=6, "c")"#;
    prints(alloc, &maps(alloc)?.intersection(alloc)?, text)
}

fn symmetric_difference_of_maps(alloc: Global) -> Answer {
    let text = r#"(1..=2, "c"), (3..=4, "b"), (6..=6, "c"), (101..=200, "a")"#;
    prints(alloc, &maps(alloc)?.symmetric_difference(alloc)?, text)
}

fn symmetric_difference_of_others(alloc: Global) -> Answer {
    let a = Words::from_ranges(alloc, [(1..=2, "a"), (5..=100, "a")])?;
    let b = Words::from_ranges(alloc, [(2..=6, "b")])?;
    let c = Words::from_ranges(alloc, [(2..=2, "c"), (6..=200, "c")])?;
    let text = r#"(1..=1, "a"), (2..=2, "c"), (3..=4, "b"), (6..=6, "c"), (101..=200, "c")"#;
    prints(alloc, &[a, b, c].symmetric_difference(alloc)?, text)
}

/// A map of letters.
type Letters = RangeMapBlaze<i32, char>;

/// Returns three letters.
fn three(row: &[&char]) -> [char; 3] {
    match row {
        [first, second, third] => [**first, **second, **third],
        _ => [' '; 3],
    }
}

fn inner_join_of_maps(alloc: Global) -> Answer {
    let a = Letters::from_ranges(alloc, [(0..=9, 'x'), (10..=19, 'y')])?;
    let b = Letters::from_ranges(alloc, [(5..=14, 'p')])?;
    let c = Letters::from_ranges(alloc, [(0..=99, 'q')])?;
    let labels = [&a, &b, &c].inner_join(alloc, |row| three(row))?;
    prints(
        alloc,
        &labels,
        "(5..=9, ['x', 'p', 'q']), (10..=14, ['y', 'p', 'q'])",
    )
}

/// Returns the sum of the numbers that are there.
fn sum(row: &[Option<&i32>]) -> i32 {
    let mut sum = 0i32;
    for number in row.iter().flatten() {
        sum = sum.wrapping_add(**number);
    }
    sum
}

fn full_join_of_maps(alloc: Global) -> Answer {
    let a = Numbers::from_ranges(alloc, [(0..=9, 1)])?;
    let b = Numbers::from_ranges(alloc, [(5..=14, 10)])?;
    let sums = [&a, &b].full_join(alloc, |row| sum(row))?;
    prints(alloc, &sums, "(0..=4, 1), (5..=9, 11), (10..=14, 10)")
}

/// Judges the examples of this file.
pub fn all(rt: &HostRuntime, alloc: Global) -> bool {
    judge(
        rt,
        "many maps",
        &[
            ("union_of_maps", union_of_maps(alloc)),
            ("intersection_of_maps", intersection_of_maps(alloc)),
            (
                "symmetric_difference_of_maps",
                symmetric_difference_of_maps(alloc),
            ),
            (
                "symmetric_difference_of_others",
                symmetric_difference_of_others(alloc),
            ),
            ("inner_join_of_maps", inner_join_of_maps(alloc)),
            ("full_join_of_maps", full_join_of_maps(alloc)),
        ],
    )
}
