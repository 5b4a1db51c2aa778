//! Maps that take in ranges and other maps.
use crate::answers::{Answer, Words, judge, prints};
use std::alloc::{AllocError, Global};

/// The text of the keys 1 to 4, with what most examples paint over them.
const PAINTED: &str = r#"(1..=2, "a"), (3..=4, "b"), (5..=5, "c")"#;

fn extend_simple_paints(alloc: Global) -> Answer {
    let mut map = Words::from_ranges(alloc, [(1..=4, "a")])?;
    map.extend_simple([(3..=5, "b"), (5..=5, "c")])?;
    prints(alloc, &map, PAINTED)
}

fn extend_ranges_paints(alloc: Global) -> Answer {
    let mut map = Words::from_ranges(alloc, [(1..=4, "a")])?;
    map.extend_ranges([(3..=5, "b"), (5..=5, "c")])?;
    prints(alloc, &map, PAINTED)
}

fn extend_from_paints(alloc: Global) -> Answer {
    let mut map = Words::from_ranges(alloc, [(1..=4, "a")])?;
    map.extend_from(Words::from_ranges(alloc, [(3..=4, "b"), (5..=5, "c")])?)?;
    prints(alloc, &map, PAINTED)
}

fn bitor_assign_paints(alloc: Global) -> Answer {
    let mut map = Words::from_ranges(alloc, [(1..=4, "a")])?;
    map.bitor_assign(Words::from_ranges(alloc, [(3..=5, "b"), (5..=5, "c")])?)?;
    prints(alloc, &map, PAINTED)
}

fn bitor_assign_hides(alloc: Global) -> Answer {
    let mut map = Words::from_ranges(alloc, [(3..=5, "b"), (5..=5, "c")])?;
    map.bitor_assign(Words::from_ranges(alloc, [(1..=4, "a")])?)?;
    prints(alloc, &map, r#"(1..=4, "a"), (5..=5, "c")"#)
}

/// Three keys, the last painted twice.
fn three(alloc: Global) -> Result<Words, AllocError> {
    Words::from_points(alloc, [(3, "a"), (4, "e"), (5, "f"), (5, "g")])
}

/// The text of these, with `b` painted over the keys 1 to 4.
const COVERED: &str = r#"(1..=4, "b"), (5..=5, "g")"#;

fn extend_ranges_covers(alloc: Global) -> Answer {
    let mut map = three(alloc)?;
    map.extend_ranges([(1..=4, "b")])?;
    prints(alloc, &map, COVERED)
}

fn bitor_assign_covers(alloc: Global) -> Answer {
    let mut map = three(alloc)?;
    map.bitor_assign(Words::from_ranges(alloc, [(1..=4, "b")])?)?;
    prints(alloc, &map, COVERED)
}

fn bitor_assign_ref_covers(alloc: Global) -> Answer {
    let mut map = three(alloc)?;
    map.bitor_assign_ref(&Words::from_ranges(alloc, [(1..=4, "b")])?)?;
    prints(alloc, &map, COVERED)
}

fn append_empties_the_other_map(alloc: Global) -> Answer {
    let mut map = Words::from_ranges(alloc, [(1..=3, "a")])?;
    let mut other = Words::from_ranges(alloc, [(3..=5, "b")])?;
    map.append(&mut other)?;
    let are_counted = map.len() == 5 && other.len() == 0;
    Ok(prints(alloc, &map, r#"(1..=2, "a"), (3..=5, "b")"#)? && are_counted)
}

/// Judges the examples of this file.
pub fn all(rt: &HostRuntime, alloc: Global) -> bool {
    judge(
        rt,
        "extensions",
        &[
            ("extend_simple_paints", extend_simple_paints(alloc)),
            ("extend_ranges_paints", extend_ranges_paints(alloc)),
            ("extend_from_paints", extend_from_paints(alloc)),
            ("bitor_assign_paints", bitor_assign_paints(alloc)),
            ("bitor_assign_hides", bitor_assign_hides(alloc)),
            ("extend_ranges_covers", extend_ranges_covers(alloc)),
            ("bitor_assign_covers", bitor_assign_covers(alloc)),
            ("bitor_assign_ref_covers", bitor_assign_ref_covers(alloc)),
            (
                "append_empties_the_other_map",
                append_empties_the_other_map(alloc),
            ),
        ],
    )
}
