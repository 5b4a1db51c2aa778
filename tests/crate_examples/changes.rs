//! Keys put in and taken out.
use crate::answers::{Answer, Numbers, Words, judge, prints};
use std::alloc::Global;
use std::ops::Bound::Included;

fn insert_returns_the_old_word(alloc: Global) -> Answer {
    let mut map = Words::new(alloc);
    let is_new = map.insert(37, "a")?.is_none() && !map.is_empty();
    let _ = map.insert(37, "b")?;
    let is_old = map.insert(37, "c")? == Some("b");
    Ok(is_new && is_old && map.contains_key(37) && map[37] == "c")
}

fn ranges_insert_tells_of_new_keys(alloc: Global) -> Answer {
    let mut map = Words::new(alloc);
    let first = map.ranges_insert(2..=5, "a")?;
    let second = map.ranges_insert(5..=6, "b")?;
    let third = map.ranges_insert(3..=4, "c")?;
    Ok(first && second && !third && map.len() == 5)
}

fn remove_returns_the_word(alloc: Global) -> Answer {
    let mut map = Words::new(alloc);
    let _ = map.insert(1, "a")?;
    let is_old = map.remove(1)? == Some("a");
    Ok(map.remove(1)?.is_none() && is_old)
}

fn clear_leaves_nothing(alloc: Global) -> Answer {
    let mut map = Words::new(alloc);
    let _ = map.insert(1, "a")?;
    map.clear();
    Ok(map.is_empty())
}

fn split_off_makes_two_maps(alloc: Global) -> Answer {
    let mut map = Words::from_points(alloc, [(1, "a"), (2, "b"), (3, "c"), (17, "d"), (41, "e")])?;
    let above = map.split_off(3)?;
    let text = r#"(3..=3, "c"), (17..=17, "d"), (41..=41, "e")"#;
    let is_above = prints(alloc, &above, text)?;
    Ok(prints(alloc, &map, r#"(1..=1, "a"), (2..=2, "b")"#)? && is_above)
}

fn range_of_bounds(alloc: Global) -> Answer {
    let map = Words::from_points(alloc, [(3, "a"), (5, "b"), (8, "c")])?;
    let mut pairs = map.range((Included(4), Included(8)))?;
    let is_second = pairs.next() == Some(Ok((5, "b")));
    let is_third = pairs.next() == Some(Ok((8, "c")));
    Ok(is_second && is_third && pairs.next().is_none())
}

fn range_of_a_start(alloc: Global) -> Answer {
    let map = Words::from_points(alloc, [(3, "a"), (5, "b"), (8, "c")])?;
    Ok(map.range(4..)?.next() == Some(Ok((5, "b"))))
}

fn pop_first_ascends(alloc: Global) -> Answer {
    let mut map = Words::from_points(alloc, [(1, "a"), (2, "b")])?;
    let is_first = map.pop_first()? == Some((1, "a"));
    let is_second = map.pop_first()? == Some((2, "b"));
    Ok(is_first && is_second && map.is_empty())
}

fn pop_last_descends(alloc: Global) -> Answer {
    let mut map = Words::from_points(alloc, [(1, "a"), (2, "b")])?;
    let is_second = map.pop_last()? == Some((2, "b"));
    let is_first = map.pop_last()? == Some((1, "a"));
    Ok(is_first && is_second && map.is_empty())
}

fn retain_keeps_even_keys(alloc: Global) -> Answer {
    let pairs = [
        (0, 0),
        (1, 10),
        (2, 20),
        (3, 30),
        (4, 40),
        (5, 50),
        (6, 60),
        (7, 70),
    ];
    let mut map = Numbers::from_points(alloc, pairs)?;
    map.retain(|key, _| *key % 2 == 0)?;
    prints(
        alloc,
        &map,
        "(0..=0, 0), (2..=2, 20), (4..=4, 40), (6..=6, 60)",
    )
}

fn ranges_retain_keeps_a_word(alloc: Global) -> Answer {
    let mut map = Words::from_ranges(alloc, [(0..=3, "low"), (4..=7, "high")])?;
    map.ranges_retain(|_, word| *word == "low");
    prints(alloc, &map, r#"(0..=3, "low")"#)
}

/// Judges the examples of this file.
pub fn all(rt: &HostRuntime, alloc: Global) -> bool {
    judge(
        rt,
        "changes",
        &[
            (
                "insert_returns_the_old_word",
                insert_returns_the_old_word(alloc),
            ),
            (
                "ranges_insert_tells_of_new_keys",
                ranges_insert_tells_of_new_keys(alloc),
            ),
            ("remove_returns_the_word", remove_returns_the_word(alloc)),
            ("clear_leaves_nothing", clear_leaves_nothing(alloc)),
            ("split_off_makes_two_maps", split_off_makes_two_maps(alloc)),
            ("range_of_bounds", range_of_bounds(alloc)),
            ("range_of_a_start", range_of_a_start(alloc)),
            ("pop_first_ascends", pop_first_ascends(alloc)),
            ("pop_last_descends", pop_last_descends(alloc)),
            ("retain_keeps_even_keys", retain_keeps_even_keys(alloc)),
            (
                "ranges_retain_keeps_a_word",
                ranges_retain_keeps_a_word(alloc),
            ),
        ],
    )
}
