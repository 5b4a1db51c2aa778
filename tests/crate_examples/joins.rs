//! Joins, other values and filled gaps.
use crate::answers::{Answer, Numbers, Words, gives, judge, prints};
use range_map_blaze::{Owned, intersection_of, transform};
use std::alloc::{AllocError, Global};

fn fill_gaps_at_all_keys(alloc: Global) -> Answer {
    let filled = Words::from_ranges(alloc, [(1..=3, "red"), (7..=10, "blue")])?.fill_gaps()?;
    let are_words = filled.get(2) == Some(&Some("red")) && filled.get(8) == Some(&Some("blue"));
    let are_ends = filled.get(i32::MIN) == Some(&None) && filled.get(i32::MAX) == Some(&None);
    Ok(are_words && are_ends && filled.get(5) == Some(&None))
}

fn inner_join_of_text(alloc: Global) -> Answer {
    let left = Words::from_ranges(alloc, [(1..=5, "a")])?;
    let right = Numbers::from_ranges(alloc, [(4..=8, 10)])?;
    let joined = left.try_inner_join(&right, |word, number| format!(in alloc; "{word}{number}"))?;
    prints(alloc, &joined, r#"(4..=5, "a10")"#)
}

fn full_join_of_sums(alloc: Global) -> Answer {
    let left = Numbers::from_ranges(alloc, [(1..=5, 1)])?;
    let right = Numbers::from_ranges(alloc, [(4..=8, 10)])?;
    let sums = left.full_join(&right, |one, other| {
        one.map_or(0i32, |one| *one)
            .wrapping_add(other.map_or(0, |other| *other))
    })?;
    prints(alloc, &sums, "(1..=3, 1), (4..=5, 11), (6..=8, 10)")
}

fn left_join_of_covered_ranges(alloc: Global) -> Answer {
    let left = Words::from_ranges(alloc, [(1..=5, "a")])?;
    let right = Words::from_ranges(alloc, [(4..=8, "b")])?;
    let covered = left.left_join(&right, |_, word| word.is_some())?;
    prints(alloc, &covered, "(1..=3, false), (4..=5, true)")
}

fn transform_values_to_parity(alloc: Global) -> Answer {
    let map = Numbers::from_ranges(alloc, [(1..=3, 10), (4..=6, 11), (8..=9, 20)])?;
    let parity = map.transform_values(|number| *number % 2)?;
    prints(alloc, &parity, "(1..=3, 0), (4..=6, 1), (8..=9, 0)")
}

fn transform_values_to_tens(alloc: Global) -> Answer {
    let map = Numbers::from_ranges(alloc, [(1..=3, 10), (4..=6, 11), (8..=9, 20)])?;
    let tens = map.transform_values(|number| *number / 10)?;
    Ok(prints(alloc, &tens, "(1..=6, 1), (8..=9, 2)")? && tens.len() == map.len())
}

/// Returns the place of a word among those seen so far. A new word is added to them.
fn place(seen: &mut Vec<&'static str>, word: &'static str) -> Result<usize, AllocError> {
    if let Some(place) = seen.iter().position(|known| *known == word) {
        return Ok(place);
    }
    seen.push(word)?;
    Ok(seen.len().saturating_sub(1))
}

fn transform_values_to_places(alloc: Global) -> Answer {
    let map = Words::from_ranges(alloc, [(0..=9, "red"), (10..=19, "blue"), (20..=29, "red")])?;
    let mut seen = Vec::new(alloc);
    let places = map.try_transform_values(|word| place(&mut seen, *word))?;
    prints(alloc, &places, "(0..=9, 0), (10..=19, 1), (20..=29, 0)")
}

fn transform_of_a_stream(alloc: Global) -> Answer {
    let map = Words::from_ranges(alloc, [(1..=3, "a"), (5..=6, "bb")])?;
    let lengths = transform(alloc, map.range_values(), |word| word.len())?;
    Ok(gives(lengths, &[(1..=3, Owned(1)), (5..=6, Owned(2))]))
}

fn intersection_of_lent_streams(alloc: Global) -> Answer {
    let a = Words::from_ranges(alloc, [(3..=10, "a")])?;
    let b = Words::from_ranges(alloc, [(2..=3, "b"), (5..=100, "b")])?;
    let both = intersection_of(alloc, b.range_values(), a.range_values())?;
    let both = both.map(|(range, word)| (range, *word));
    Ok(gives(both, &[(3..=3, "b"), (5..=10, "b")]))
}

fn intersection_of_owned_streams(alloc: Global) -> Answer {
    let a = Words::from_ranges(alloc, [(3..=10, "a")])?.into_range_values()?;
    let b = Words::from_ranges(alloc, [(2..=3, "b"), (5..=100, "b")])?.into_range_values()?;
    let both = intersection_of(alloc, b, a)?.map(|(range, word)| (range, *word));
    Ok(gives(both, &[(3..=3, "b"), (5..=10, "b")]))
}

/// Judges the examples of this file.
pub fn all(rt: &HostRuntime, alloc: Global) -> bool {
    judge(
        rt,
        "joins and streams",
        &[
            ("fill_gaps_at_all_keys", fill_gaps_at_all_keys(alloc)),
            ("inner_join_of_text", inner_join_of_text(alloc)),
            ("full_join_of_sums", full_join_of_sums(alloc)),
            (
                "left_join_of_covered_ranges",
                left_join_of_covered_ranges(alloc),
            ),
            (
                "transform_values_to_parity",
                transform_values_to_parity(alloc),
            ),
            ("transform_values_to_tens", transform_values_to_tens(alloc)),
            (
                "transform_values_to_places",
                transform_values_to_places(alloc),
            ),
            ("transform_of_a_stream", transform_of_a_stream(alloc)),
            (
                "intersection_of_lent_streams",
                intersection_of_lent_streams(alloc),
            ),
            (
                "intersection_of_owned_streams",
                intersection_of_owned_streams(alloc),
            ),
        ],
    )
}
