//! Works on single keys and small ranges.
use crate::draw::Draw;
use crate::prepared::{ENTRIES, Map, Work, checksum, copies, even, mix, prepared, spread};
use std::alloc::AllocError;

/// The calls at random keys.
#[derive(Clone, Copy, Debug)]
pub enum Change {
    Paint,
    Insert,
    Remove,
}

/// Changes maps of `size` entries at random keys. The changes are spread over several copies of the map, so that each
/// copy gets at most `size` of them.
pub fn change_maps(work: Work, change: Change) -> Result<u64, AllocError> {
    let map = even(work, 1)?;
    let count = if work.size == 0 {
        1
    } else {
        (100_000 / work.size).max(1)
    };
    let mut draw = Draw::new(2);
    let mut sum = 0;
    let mut left = work.count;
    for map in copies(work.alloc, &map, count)? {
        let mut map = map;
        let some = left.min(work.size);
        left = left.saturating_sub(some);
        let answers = change.make(&mut map, &mut draw, spread(work.size), some)?;
        sum = checksum(work.check, mix(sum, answers), &map);
    }
    Ok(sum)
}

impl Change {
    /// Makes `count` changes at keys below a limit, and returns a sum of the old values.
    fn make(
        self,
        map: &mut Map,
        draw: &mut Draw,
        limit: u64,
        count: u64,
    ) -> Result<u64, AllocError> {
        match self {
            Change::Paint => paint(map, draw, limit, count),
            Change::Insert => insert(map, draw, limit, count),
            Change::Remove => remove(map, draw, limit, count),
        }
    }
}

fn paint(map: &mut Map, draw: &mut Draw, limit: u64, count: u64) -> Result<u64, AllocError> {
    for _ in 0..count {
        let lo = draw.key(limit);
        let hi = lo.wrapping_add(draw.key(16));
        let _ = map.ranges_insert(lo..=hi, draw.below(4))?;
    }
    Ok(0)
}

fn insert(map: &mut Map, draw: &mut Draw, limit: u64, count: u64) -> Result<u64, AllocError> {
    let mut sum = 0u64;
    for _ in 0..count {
        let key = draw.key(limit);
        let old = map.insert(key, draw.below(4))?;
        sum = sum.wrapping_add(old.unwrap_or(7));
    }
    Ok(sum)
}

fn remove(map: &mut Map, draw: &mut Draw, limit: u64, count: u64) -> Result<u64, AllocError> {
    let mut sum = 0u64;
    for _ in 0..count {
        let old = map.remove(draw.key(limit))?;
        sum = sum.wrapping_add(old.unwrap_or(7));
    }
    Ok(sum)
}

/// Paints sixteen ranges at a time within the same 64 keys, then within the next 64.
pub fn clumps(work: Work) -> Result<u64, AllocError> {
    let mut draw = Draw::new(2);
    let mut map = Map::new(work.alloc);
    for place in 0..work.count {
        let clump = (place / 16).wrapping_mul(64).cast_signed();
        let lo = clump.wrapping_add(draw.key(64));
        let hi = lo.wrapping_add(draw.key(16));
        let _ = map.ranges_insert(lo..=hi, draw.below(4))?;
    }
    Ok(checksum(work.check, 0, &map))
}

/// Paints ranges over about ten entries each, from the least key up.
pub fn paint_over_ten(work: Work) -> Result<u64, AllocError> {
    let mut map = even(work, 1)?;
    let mut draw = Draw::new(2);
    let mut lo = 0i64;
    for _ in 0..work.count {
        let above = lo.wrapping_add(spread(10).cast_signed());
        let _ = map.ranges_insert(lo..above, draw.below(4))?;
        lo = above;
    }
    Ok(checksum(work.check, 0, &map))
}

/// Paints all keys of four maps, each in one call, with a value that no entry has.
pub fn paint_over_all(work: Work) -> Result<u64, AllocError> {
    let map = even(work, 1)?;
    let above = spread(work.size).saturating_mul(2).cast_signed();
    let mut sum = 0;
    let mut left = work.count;
    for map in copies(work.alloc, &map, 4)? {
        let mut map = map;
        if left > 0 {
            left -= 1;
            let _ = map.ranges_insert(0..above, 4)?;
        }
        sum = checksum(work.check, sum, &map);
    }
    Ok(sum)
}

/// Fills ranges with about `size` gaps each, from the least key up, in a map of `ENTRIES` entries.
pub fn fill(work: Work) -> Result<u64, AllocError> {
    let mut map = prepared(work.alloc, 1, ENTRIES, 16, 0)?;
    let mut draw = Draw::new(2);
    let mut key = 0i64;
    for _ in 0..work.count {
        let above = key.wrapping_add(spread(work.size).cast_signed());
        let _ = map.ranges_insert_absent(key..above, draw.below(4))?;
        key = above;
    }
    Ok(checksum(work.check, 0, &map))
}

/// Looks up random keys.
pub fn get(work: Work) -> Result<u64, AllocError> {
    let map = even(work, 1)?;
    let mut draw = Draw::new(2);
    let mut sum = 0u64;
    for _ in 0..work.count {
        let value = map.get(draw.key(spread(work.size))).copied();
        sum = sum.wrapping_add(value.unwrap_or(7));
    }
    Ok(sum)
}

/// Removes the least keys, one by one.
pub fn pop_first(work: Work) -> Result<u64, AllocError> {
    let mut map = even(work, 1)?;
    let mut sum = 0;
    for _ in 0..work.count {
        if let Some((key, value)) = map.pop_first()? {
            sum = mix(mix(sum, key.cast_unsigned()), value);
        }
    }
    Ok(checksum(work.check, sum, &map))
}

/// Removes the greatest keys, one by one.
pub fn pop_last(work: Work) -> Result<u64, AllocError> {
    let mut map = even(work, 1)?;
    let mut sum = 0;
    for _ in 0..work.count {
        if let Some((key, value)) = map.pop_last()? {
            sum = mix(mix(sum, key.cast_unsigned()), value);
        }
    }
    Ok(checksum(work.check, sum, &map))
}

/// Calls `retain` repeatedly and keeps all entries.
pub fn retain(work: Work) -> Result<u64, AllocError> {
    let mut map = even(work, 1)?;
    for _ in 0..work.count {
        map.ranges_retain(|range, value| 0 <= *range.start() || *value == 0);
    }
    Ok(checksum(work.check, 0, &map))
}

/// Keeps the entries of four maps whose value is below a limit.
pub fn retain_below(work: Work, limit: u64) -> Result<u64, AllocError> {
    let map = even(work, 1)?;
    let mut sum = 0;
    let mut left = work.count;
    for map in copies(work.alloc, &map, 4)? {
        let mut map = map;
        if left > 0 {
            left -= 1;
            map.ranges_retain(|_, value| *value < limit);
        }
        sum = checksum(work.check, sum, &map);
    }
    Ok(sum)
}
