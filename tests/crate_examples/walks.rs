//! Keys and values, one by one.
use crate::answers::{Answer, Words, gives, gives_in_turn, judge};
use std::alloc::Global;

fn iter_forward(alloc: Global) -> Answer {
    let map = Words::from_ranges(alloc, [(1..=3, "a")])?;
    Ok(gives(map.iter(), &[(1, &"a"), (2, &"a"), (3, &"a")]))
}

fn iter_from_both_ends(alloc: Global) -> Answer {
    let map = Words::from_points(alloc, [(3, "c"), (1, "a"), (2, "b")])?;
    Ok(gives_in_turn(map.iter(), &[(1, &"a"), (3, &"c"), (2, &"b")]))
}

fn keys_forward(alloc: Global) -> Answer {
    let map = Words::from_ranges(alloc, [(1..=3, "a")])?;
    Ok(gives(map.keys(), &[1, 2, 3]))
}

fn keys_from_both_ends(alloc: Global) -> Answer {
    let map = Words::from_points(alloc, [(3, "c"), (1, "a"), (2, "b")])?;
    Ok(gives_in_turn(map.keys(), &[1, 3, 2]))
}

fn into_keys_forward(alloc: Global) -> Answer {
    let map = Words::from_ranges(alloc, [(1..=3, "a")])?;
    Ok(gives(map.into_keys(), &[1, 2, 3]))
}

fn into_keys_from_both_ends(alloc: Global) -> Answer {
    let map = Words::from_ranges(alloc, [(1..=3, "a"), (5..=5, "b")])?;
    Ok(gives_in_turn(map.into_keys(), &[1, 5, 2, 3]))
}

fn values_forward(alloc: Global) -> Answer {
    let map = Words::from_points(alloc, [(3, "c"), (1, "a"), (2, "b")])?;
    Ok(gives(map.values(), &[&"a", &"b", &"c"]))
}

fn values_from_both_ends(alloc: Global) -> Answer {
    let map = Words::from_points(alloc, [(3, "c"), (1, "a"), (2, "b")])?;
    Ok(gives_in_turn(map.values(), &[&"a", &"c", &"b"]))
}

fn into_values_forward(alloc: Global) -> Answer {
    let map = Words::from_points(alloc, [(3, "c"), (1, "a"), (2, "b")])?;
    Ok(gives(map.into_values(), &[Ok("a"), Ok("b"), Ok("c")]))
}

fn into_values_from_both_ends(alloc: Global) -> Answer {
    let map = Words::from_ranges(alloc, [(1..=3, "a"), (5..=5, "b")])?;
    Ok(gives_in_turn(map.into_values(), &[Ok("a"), Ok("b"), Ok("a"), Ok("a")]))
}

/// Judges the examples of this file.
pub fn all(rt: &HostRuntime, alloc: Global) -> bool {
    judge(
        rt,
        "keys and values",
        &[
            ("iter_forward", iter_forward(alloc)),
            ("iter_from_both_ends", iter_from_both_ends(alloc)),
            ("keys_forward", keys_forward(alloc)),
            ("keys_from_both_ends", keys_from_both_ends(alloc)),
            ("into_keys_forward", into_keys_forward(alloc)),
            ("into_keys_from_both_ends", into_keys_from_both_ends(alloc)),
            ("values_forward", values_forward(alloc)),
            ("values_from_both_ends", values_from_both_ends(alloc)),
            ("into_values_forward", into_values_forward(alloc)),
            (
                "into_values_from_both_ends",
                into_values_from_both_ends(alloc),
            ),
        ],
    )
}
