//! Maps built from pairs.
use crate::draw::Draw;
use crate::prepared::{Map, Work, checksum, spread};
use std::alloc::AllocError;

/// Returns `size` ranges of 1 to 16 keys with values, ascending or at random keys.
fn pairs(work: Work, is_sorted: bool) -> Result<Vec<(i64, i64, u64)>, AllocError> {
    let mut draw = Draw::new(2);
    let mut pairs = Vec::new(work.alloc);
    let mut next = 0i64;
    for _ in 0..work.size {
        let start = if is_sorted {
            next
        } else {
            draw.key(spread(work.size))
        };
        let end = start.wrapping_add(draw.key(16));
        next = end.wrapping_add(1);
        pairs.push((start, end, draw.below(4)))?;
    }
    Ok(pairs)
}

/// Builds a map from all pairs at once, repeatedly.
pub fn make(work: Work, is_sorted: bool) -> Result<u64, AllocError> {
    let pairs = pairs(work, is_sorted)?;
    let mut sum = 0;
    for _ in 0..work.count {
        let items = pairs.iter().map(|pair| (pair.0..=pair.1, pair.2));
        sum = checksum(work.check, sum, &Map::from_ranges(work.alloc, items)?);
    }
    Ok(sum)
}

/// Builds a map by painting ranges at random keys one by one, repeatedly.
pub fn paint_one_by_one(work: Work) -> Result<u64, AllocError> {
    let pairs = pairs(work, false)?;
    let mut sum = 0;
    for _ in 0..work.count {
        let mut map = Map::new(work.alloc);
        for pair in pairs.as_slice() {
            let _ = map.ranges_insert(pair.0..=pair.1, pair.2)?;
        }
        sum = checksum(work.check, sum, &map);
    }
    Ok(sum)
}
