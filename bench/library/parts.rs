//! Works on the entries of a range.
use crate::draw::Draw;
use crate::prepared::{Work, even, mix, spread};
use range_map_blaze::names_a_key;
use std::alloc::AllocError;
use std::ops::RangeInclusive;

/// Calls `range` with the lower half of the keys of a map, repeatedly, and takes the first pair of each result.
pub fn within(work: Work) -> Result<u64, AllocError> {
    let map = even(work, 1)?;
    let lower = 0..=(spread(work.size) / 2).cast_signed();
    let mut sum = 0;
    if !names_a_key(&lower) {
        return Ok(sum);
    }
    for _ in 0..work.count {
        if let Some(Ok((key, value))) = map.range(lower.clone()?)?.next() {
            sum = mix(mix(sum, key.cast_unsigned()), value);
        }
    }
    Ok(sum)
}

/// Returns a range over about ten entries of a map of `size` entries, at a random key.
fn over_ten(draw: &mut Draw, size: u64) -> RangeInclusive<i64> {
    let lo = draw.key(spread(size));
    lo..=lo.wrapping_add(spread(10).cast_signed())
}

/// Calls `range` over about ten entries, repeatedly, and takes the first pair of each result.
pub fn first_pairs(work: Work) -> Result<u64, AllocError> {
    let map = even(work, 1)?;
    let mut draw = Draw::new(2);
    let mut sum = 0;
    for _ in 0..work.count {
        let range = over_ten(&mut draw, work.size);
        if names_a_key(&range) {
            if let Some(Ok((key, value))) = map.range(range)?.next() {
                sum = mix(mix(sum, key.cast_unsigned()), value);
            }
        }
    }
    Ok(sum)
}

/// Calls `overlapping` over about ten entries, repeatedly, and takes the first key of the range in the first entry of each
/// result.
pub fn first_entries(work: Work) -> Result<u64, AllocError> {
    let map = even(work, 1)?;
    let mut draw = Draw::new(2);
    let mut sum = 0;
    for _ in 0..work.count {
        let range = over_ten(&mut draw, work.size);
        let lo = *range.start();
        if let Some((entry, value)) = map.overlapping(range).next() {
            let key = lo.max(*entry.start());
            sum = mix(mix(sum, key.cast_unsigned()), *value);
        }
    }
    Ok(sum)
}
