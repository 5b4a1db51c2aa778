//! Operators between two maps, and between a map and a set.
use crate::answers::{Answer, Words, judge, prints};
use range_map_blaze::{RangeMapBlaze, RangeSetBlaze};
use std::alloc::{AllocError, Global};

/// The left operand of most examples.
fn left(alloc: Global) -> Result<Words, AllocError> {
    Words::from_ranges(alloc, [(1..=2, "a"), (5..=100, "a")])
}

/// The right operand of most examples.
fn right(alloc: Global) -> Result<Words, AllocError> {
    Words::from_ranges(alloc, [(2..=6, "b")])
}

/// The text of their union.
const UNION: &str = r#"(1..=1, "a"), (2..=6, "b"), (7..=100, "a")"#;

fn union_of_owned(alloc: Global) -> Answer {
    prints(alloc, &(left(alloc)? | right(alloc)?)?, UNION)
}

fn union_of_owned_and_lent(alloc: Global) -> Answer {
    prints(alloc, &(left(alloc)? | &right(alloc)?)?, UNION)
}

fn union_of_lent_and_owned(alloc: Global) -> Answer {
    prints(alloc, &(&left(alloc)? | right(alloc)?)?, UNION)
}

fn union_of_lent(alloc: Global) -> Answer {
    prints(alloc, &(&left(alloc)? | &right(alloc)?)?, UNION)
}

fn intersection_of_lent(alloc: Global) -> Answer {
    let both = (&left(alloc)? & &right(alloc)?)?;
    prints(alloc, &both, r#"(2..=2, "b"), (5..=6, "b")"#)
}

fn symmetric_difference_of_lent(alloc: Global) -> Answer {
    let one = (&left(alloc)? ^ &right(alloc)?)?;
    prints(alloc, &one, r#"(1..=1, "a"), (3..=4, "b"), (7..=100, "a")"#)
}

fn difference_of_lent(alloc: Global) -> Answer {
    let alone = (&left(alloc)? - &right(alloc)?)?;
    prints(alloc, &alone, r#"(1..=1, "a"), (7..=100, "a")"#)
}

fn intersection_with_a_set(alloc: Global) -> Answer {
    let map = Words::from_ranges(alloc, [(1..=100, "a")])?;
    let set = RangeSetBlaze::from_ranges(alloc, [2..=6])?;
    prints(alloc, &(&map & &set)?, r#"(2..=6, "a")"#)
}

fn difference_with_a_set(alloc: Global) -> Answer {
    let map = Words::from_ranges(alloc, [(1..=100, "a")])?;
    let set = RangeSetBlaze::from_ranges(alloc, [2..=6])?;
    prints(alloc, &(&map - &set)?, r#"(1..=1, "a"), (7..=100, "a")"#)
}

fn complement_of_bytes(alloc: Global) -> Answer {
    let ranges = [(10u8..=20, "a"), (15..=25, "b"), (30..=40, "c")];
    let map = RangeMapBlaze::from_ranges(alloc, ranges)?;
    prints(alloc, &(!&map)?, "0..=9, 26..=29, 41..=255")
}

fn complement_with_a_word(alloc: Global) -> Answer {
    let ranges = [(10u16..=20, "a"), (15..=25, "b"), (30..=40, "c")];
    let map = RangeMapBlaze::from_ranges(alloc, ranges)?;
    let text = r#"(0..=9, "z"), (26..=29, "z"), (41..=65535, "z")"#;
    prints(alloc, &map.complement_with(&"z")?, text)
}

/// Judges the examples of this file.
pub fn all(rt: &HostRuntime, alloc: Global) -> bool {
    judge(
        rt,
        "operators",
        &[
            ("union_of_owned", union_of_owned(alloc)),
            ("union_of_owned_and_lent", union_of_owned_and_lent(alloc)),
            ("union_of_lent_and_owned", union_of_lent_and_owned(alloc)),
            ("union_of_lent", union_of_lent(alloc)),
            ("intersection_of_lent", intersection_of_lent(alloc)),
            (
                "symmetric_difference_of_lent",
                symmetric_difference_of_lent(alloc),
            ),
            ("difference_of_lent", difference_of_lent(alloc)),
            ("intersection_with_a_set", intersection_with_a_set(alloc)),
            ("difference_with_a_set", difference_with_a_set(alloc)),
            ("complement_of_bytes", complement_of_bytes(alloc)),
            ("complement_with_a_word", complement_with_a_word(alloc)),
        ],
    )
}
