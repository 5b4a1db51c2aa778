//! The tour of all operations, and comparisons.
use crate::answers::{Answer, Words, judge, prints};
use range_map_blaze::{RangeMapBlaze, subtract_ranges};
use range_map_multi::MultiwayRangeMapBlazeRef;
use std::alloc::{AllocError, Global};
use std::cmp::Ordering;

/// The first of three maps.
fn first(alloc: Global) -> Result<Words, AllocError> {
    Words::from_ranges(alloc, [(2..=6, "a")])
}

/// The second.
fn second(alloc: Global) -> Result<Words, AllocError> {
    Words::from_ranges(alloc, [(1..=2, "b"), (5..=100, "b")])
}

/// The third.
fn third(alloc: Global) -> Result<Words, AllocError> {
    Words::from_ranges(alloc, [(2..=2, "z"), (6..=200, "z")])
}

fn union_of_two(alloc: Global) -> Answer {
    let either = (&first(alloc)? | &second(alloc)?)?;
    prints(
        alloc,
        &either,
        r#"(1..=2, "b"), (3..=4, "a"), (5..=100, "b")"#,
    )
}

fn intersection_of_two(alloc: Global) -> Answer {
    let both = (&first(alloc)? & &second(alloc)?)?;
    prints(alloc, &both, r#"(2..=2, "b"), (5..=6, "b")"#)
}

fn difference_of_two(alloc: Global) -> Answer {
    let alone = (&first(alloc)? - &second(alloc)?)?;
    prints(alloc, &alone, r#"(3..=4, "a")"#)
}

fn symmetric_difference_of_two(alloc: Global) -> Answer {
    let one = (&first(alloc)? ^ &second(alloc)?)?;
    prints(alloc, &one, r#"(1..=1, "b"), (3..=4, "a"), (7..=100, "b")"#)
}

fn complement_as_a_set(alloc: Global) -> Answer {
    let free = (!&second(alloc)?)?;
    prints(alloc, &free, "-2147483648..=0, 3..=4, 101..=2147483647")
}

fn complement_as_a_map(alloc: Global) -> Answer {
    let free = second(alloc)?.complement_with(&"z")?;
    let text = r#"(-2147483648..=0, "z"), (3..=4, "z"), (101..=2147483647, "z")"#;
    prints(alloc, &free, text)
}

fn union_of_three(alloc: Global) -> Answer {
    let (z, a, b) = (third(alloc)?, first(alloc)?, second(alloc)?);
    let text = r#"(1..=2, "b"), (3..=4, "a"), (5..=100, "b"), (101..=200, "z")"#;
    prints(alloc, &vec![in alloc; &z, &a, &b]?.union(alloc)?, text)
}

fn intersection_of_three(alloc: Global) -> Answer {
    let (z, a, b) = (third(alloc)?, first(alloc)?, second(alloc)?);
    let text = r#"(2..=2, "b"), (6..=6, "b")"#;
    let maps = vec![in alloc; &z, &a, &b]?;
    Ok(!maps.is_empty() && prints(alloc, &maps.intersection(alloc)?, text)?)
}

fn difference_with_a_union(alloc: Global) -> Answer {
    let either = (&third(alloc)? | &first(alloc)?)?;
    prints(alloc, &(&second(alloc)? - either)?, r#"(1..=1, "b")"#)
}

fn difference_of_streams(alloc: Global) -> Answer {
    let (z, a, b) = (third(alloc)?, first(alloc)?, second(alloc)?);
    let off_a = subtract_ranges(alloc, b.range_values(), a.ranges())?;
    let off_both = subtract_ranges(alloc, off_a, z.ranges())?;
    let map = RangeMapBlaze::from_sorted_disjoint_map(alloc, off_both)?;
    prints(alloc, &map, r#"(1..=1, "b")"#)
}

fn order_of_words(alloc: Global) -> Answer {
    let a = Words::from_ranges(alloc, [(1..=3, "a"), (5..=100, "a")])?;
    let b = Words::from_ranges(alloc, [(2..=2, "b")])?;
    let is_less = a < b && a <= b && a.cmp(&b) == Ordering::Less;
    Ok(is_less && b > a && b >= a)
}

fn equality_of_words(alloc: Global) -> Answer {
    let a = Words::from_ranges(alloc, [(1..=3, "a"), (5..=100, "a")])?;
    let b = Words::from_ranges(alloc, [(2..=2, "b")])?;
    Ok(a != b && a == a)
}

fn order_of_bits(alloc: Global) -> Answer {
    let (one, two, nan) = (0x3f80_0000u32, 0x4000_0000, 0x7fc0_0000);
    let a = RangeMapBlaze::from_ranges(alloc, [(2i32..=3, one), (5..=100, two)])?;
    let b = RangeMapBlaze::from_ranges(alloc, [(2i32..=2, nan)])?;
    Ok(a.partial_cmp(&b) == Some(Ordering::Less))
}

/// Judges the examples of this file.
pub fn all(rt: &HostRuntime, alloc: Global) -> bool {
    judge(
        rt,
        "the tour, and comparisons",
        &[
            ("union_of_two", union_of_two(alloc)),
            ("intersection_of_two", intersection_of_two(alloc)),
            ("difference_of_two", difference_of_two(alloc)),
            (
                "symmetric_difference_of_two",
                symmetric_difference_of_two(alloc),
            ),
            ("complement_as_a_set", complement_as_a_set(alloc)),
            ("complement_as_a_map", complement_as_a_map(alloc)),
            ("union_of_three", union_of_three(alloc)),
            ("intersection_of_three", intersection_of_three(alloc)),
            ("difference_with_a_union", difference_with_a_union(alloc)),
            ("difference_of_streams", difference_of_streams(alloc)),
            ("order_of_words", order_of_words(alloc)),
            ("equality_of_words", equality_of_words(alloc)),
            ("order_of_bits", order_of_bits(alloc)),
        ],
    )
}
