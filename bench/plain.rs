//! The works of `driver.cpp` over the plain Rust map, as a static library.
mod bulk;
#[cfg(as_crate)]
mod by_keys;
mod draw;
mod ranges;

use draw::Draw;
use ranges::RangeMap;

type Map = RangeMap<u64>;

/// The average number of keys for each entry of a prepared map, including the gap before it.
const SPACING: u64 = 17;

/// Added to a work's number to include the final entries in the checksum.
const CHECKED: u32 = 200;

/// Returns a map of `size` entries of 1 to 16 keys, or of `keys` keys, after gaps of 1 to `gap` keys.
fn prepared(seed: u64, size: u64, gap: u64, keys: u64) -> Map {
    let mut draw = Draw(seed);
    let mut next = 0;
    let entries = (0..size).map(|_| {
        let start = next + draw.key(gap);
        let end = start + if keys == 0 { draw.key(16) } else { keys as i64 - 1 };
        next = end + 2;
        (start, end, draw.below(4))
    });
    Map::from_ascending(size as usize, entries)
}

/// Adds a part to a checksum.
fn mix(sum: u64, part: u64) -> u64 {
    sum.wrapping_mul(31).wrapping_add(part)
}

/// Adds a map to a checksum: the number of its keys, and its entries if they are checked.
fn checksum(check: bool, mut sum: u64, map: &Map) -> u64 {
    if check {
        for (start, end, value) in map.entries() {
            sum = mix(mix(mix(sum, start as u64), end as u64), *value);
        }
    }
    mix(sum, map.len() as u64)
}

/// Returns copies of a map, enough for each to get at most `size` of the operations.
fn copies(size: u64) -> Vec<Map> {
    let map = prepared(1, size, 16, 0);
    vec![map; (100_000 / size).max(1) as usize]
}

/// Makes `count` paints, insertions or removals at random keys of maps of `size` entries.
fn change(check: bool, size: u64, count: u64, operation: fn(&mut Map, &mut Draw, u64, u64) -> u64) -> u64 {
    let mut draw = Draw(2);
    let (mut sum, mut left) = (0, count);
    for mut map in copies(size) {
        let count = left.min(size);
        left -= count;
        sum = mix(sum, operation(&mut map, &mut draw, SPACING * size, count));
        sum = checksum(check, sum, &map);
    }
    sum
}

fn paint(map: &mut Map, draw: &mut Draw, limit: u64, count: u64) -> u64 {
    for _ in 0..count {
        let lo = draw.key(limit);
        let hi = lo + draw.key(16);
        map.paint(lo, hi, draw.below(4));
    }
    0
}

fn insert(map: &mut Map, draw: &mut Draw, limit: u64, count: u64) -> u64 {
    let mut sum = 0;
    for _ in 0..count {
        let key = draw.key(limit);
        sum += map.insert(key, draw.below(4)).unwrap_or(7);
    }
    sum
}

fn remove(map: &mut Map, draw: &mut Draw, limit: u64, count: u64) -> u64 {
    let mut sum = 0;
    for _ in 0..count {
        sum += map.remove(draw.key(limit)).unwrap_or(7);
    }
    sum
}

/// Fills ranges with about `gaps` gaps each, from the least key up, in a map of 100,000 entries. It looks up each gap and paints it.
fn fill(check: bool, gaps: u64, count: u64) -> u64 {
    let mut map = prepared(1, 100_000, 16, 0);
    let mut draw = Draw(2);
    let mut key = 0;
    for _ in 0..count {
        let value = draw.below(4);
        let above = key + (SPACING * gaps) as i64;
        while key < above {
            let (_, end, found) = map.range_or_gap_at(key);
            let end = end.min(above - 1);
            if found.is_none() {
                map.paint(key, end, value);
            }
            key = end + 1;
        }
    }
    checksum(check, 0, &map)
}

/// Paints sixteen ranges at a time within the same 64 keys, then within the next 64.
fn paint_clumps(check: bool, count: u64) -> u64 {
    let mut draw = Draw(2);
    let mut map = Map::default();
    for place in 0..count {
        let lo = (place / 16 * 64) as i64 + draw.key(64);
        let hi = lo + draw.key(16);
        map.paint(lo, hi, draw.below(4));
    }
    checksum(check, 0, &map)
}

fn get(size: u64, count: u64) -> u64 {
    let map = prepared(1, size, 16, 0);
    let mut draw = Draw(2);
    let mut sum = 0;
    for _ in 0..count {
        sum += map.get(draw.key(SPACING * size)).copied().unwrap_or(7);
    }
    sum
}

fn split_off(check: bool, size: u64, count: u64) -> u64 {
    let map = prepared(1, size, 16, 0);
    let mut sum = 0;
    for (place, mut map) in (0..).zip(vec![map; 16]) {
        if place < count {
            let upper = map.split_off((SPACING * size / 2) as i64);
            sum = checksum(check, sum, &upper);
        }
        sum = checksum(check, sum, &map);
    }
    sum
}

/// Builds the map of the lower half of the keys, repeatedly.
fn within(size: u64, count: u64) -> u64 {
    let map = prepared(1, size, 16, 0);
    let middle = (SPACING * size / 2) as i64;
    let mut sum = 0;
    for _ in 0..count {
        let lower = map.within(0, middle);
        if let Some((start, _, value)) = lower.entries().next() {
            sum = mix(mix(sum, start as u64), *value);
        }
    }
    sum
}

fn append(check: bool, size: u64, count: u64) -> u64 {
    let map = prepared(1, size, 16, 0);
    let other = prepared(3, size, 16, 0);
    let mut sum = 0;
    for (place, (mut map, mut other)) in (0..).zip(vec![(map, other); 4]) {
        if place < count {
            map.append(&mut other);
        }
        sum = checksum(check, sum, &map);
        sum = checksum(check, sum, &other);
    }
    sum
}

fn pop_first(check: bool, size: u64, count: u64) -> u64 {
    let mut map = prepared(1, size, 16, 0);
    let mut sum = 0;
    for _ in 0..count {
        if let Some((key, value)) = map.pop_first() {
            sum = mix(mix(sum, key as u64), value);
        }
    }
    checksum(check, sum, &map)
}

fn pop_last(check: bool, size: u64, count: u64) -> u64 {
    let mut map = prepared(1, size, 16, 0);
    let mut sum = 0;
    for _ in 0..count {
        if let Some((key, value)) = map.pop_last() {
            sum = mix(mix(sum, key as u64), value);
        }
    }
    checksum(check, sum, &map)
}

/// Calls `ranges_retain` repeatedly and keeps all entries.
fn retain(check: bool, size: u64, count: u64) -> u64 {
    let mut map = prepared(1, size, 16, 0);
    for _ in 0..count {
        map.ranges_retain(|range, value| 0 <= *range.start() || *value == 0);
    }
    checksum(check, 0, &map)
}

/// Keeps the entries of four maps whose value is below a limit.
fn retain_below(check: bool, size: u64, count: u64, limit: u64) -> u64 {
    let map = prepared(1, size, 16, 0);
    let mut sum = 0;
    for (place, mut map) in (0..).zip(vec![map; 4]) {
        if place < count {
            map.ranges_retain(|_, value| *value < limit);
        }
        sum = checksum(check, sum, &map);
    }
    sum
}

/// Combines two borrowed maps, repeatedly.
fn combine(check: bool, size: u64, other: u64, count: u64, operation: fn(&Map, &Map) -> Map) -> u64 {
    let map = prepared(1, size, 16, 0);
    let other = prepared(3, other, 16 * (size / other), 0);
    let mut sum = 0;
    for _ in 0..count {
        sum = checksum(check, sum, &operation(&map, &other));
    }
    sum
}

/// Combines a borrowed map with a wide map, repeatedly. The wide map has one entry for each sixteen of the other's, and they cover
/// nearly all keys of the other.
fn combine_wide(check: bool, size: u64, count: u64, operation: fn(&Map, &Map) -> Map) -> u64 {
    let map = prepared(1, size, 16, 0);
    let other = prepared(3, size / 16, 0, 16 * SPACING);
    let mut sum = 0;
    for _ in 0..count {
        sum = checksum(check, sum, &operation(&map, &other));
    }
    sum
}

/// Combines each of four owned maps with an owned map that is as wide.
fn combine_wide_owned(check: bool, size: u64, count: u64, operation: fn(Map, Map) -> Map) -> u64 {
    let map = prepared(1, size, 16, 0);
    let other = prepared(3, size / 16, 0, 16 * SPACING);
    let mut sum = 0;
    for (place, (map, other)) in (0..).zip(vec![(map, other); 4]) {
        let left = if place < count { operation(map, other) } else { map };
        sum = checksum(check, sum, &left);
    }
    sum
}

/// Combines an owned map with small owned maps, one after another.
fn combine_owned(check: bool, size: u64, count: u64, operation: fn(Map, Map) -> Map) -> u64 {
    let mut map = prepared(1, size, 16, 0);
    let others: Vec<Map> = (3..1003).map(|seed| prepared(seed, 100, 16 * (size / 100), 0)).collect();
    for other in others.into_iter().take(count as usize) {
        map = operation(map, other);
    }
    checksum(check, 0, &map)
}

/// Iterates over the keys with their values, repeatedly. Each entry has `keys` keys.
fn walk(size: u64, keys: u64, count: u64) -> u64 {
    let map = prepared(1, size, 16, keys);
    let mut sum = 0u64;
    for _ in 0..count {
        for (start, end, value) in map.entries() {
            // (faster than a loop over `start..=end`)
            let mut key = start;
            while key <= end {
                sum = (sum ^ key as u64).wrapping_add(*value);
                key += 1;
            }
        }
    }
    sum
}

/// Returns `size` ranges of 1 to 16 keys with values, ascending or at random keys.
fn pairs(is_sorted: bool, size: u64) -> Vec<(i64, i64, u64)> {
    let mut draw = Draw(2);
    let mut next = 0;
    (0..size)
        .map(|_| {
            let start = if is_sorted { next } else { draw.key(SPACING * size) };
            let end = start + draw.key(16);
            next = end + 1;
            (start, end, draw.below(4))
        })
        .collect()
}

/// Builds a map by painting ranges at random keys one by one, repeatedly.
fn paint_all(check: bool, size: u64, count: u64) -> u64 {
    let pairs = pairs(false, size);
    let mut sum = 0;
    for _ in 0..count {
        let mut map = Map::default();
        for (start, end, value) in &pairs {
            map.paint(*start, *end, *value);
        }
        sum = checksum(check, sum, &map);
    }
    sum
}

/// Builds a map from ascending ranges, repeatedly. It joins them in a list, from which std builds the tree.
fn copy_sorted(check: bool, size: u64, count: u64) -> u64 {
    let pairs = pairs(true, size);
    let mut sum = 0;
    for _ in 0..count {
        let mut joined: Vec<(i64, i64, u64)> = Vec::new();
        for (start, end, value) in &pairs {
            match joined.last_mut() {
                Some(last) if last.1 + 1 == *start && last.2 == *value => last.1 = *end,
                _ => joined.push((*start, *end, *value)),
            }
        }
        sum = checksum(check, sum, &Map::from_ascending(joined.len(), joined.into_iter()));
    }
    sum
}

/// Builds the union of `maps` borrowed maps of 100,000 entries in all, two at a time in rounds, repeatedly.
fn union_of_many(check: bool, maps: u64, count: u64) -> u64 {
    let maps: Vec<Map> = (1..=maps).map(|seed| prepared(seed, 100_000 / maps, 16 * maps, 0)).collect();
    let mut sum = 0;
    for _ in 0..count {
        let mut round: Vec<Map> = maps.chunks(2).map(|pair| pair[0].union(&pair[pair.len() - 1])).collect();
        while round.len() > 1 {
            let mut left = round.into_iter();
            round = Vec::new();
            while let Some(map) = left.next() {
                round.push(match left.next() {
                    Some(other) => map.union_owned(other),
                    None => map,
                });
            }
        }
        sum = checksum(check, sum, &round[0]);
    }
    sum
}

/// Runs a work and returns a checksum, which is not 0. It returns 0 if no work has the number.
#[cfg_attr(planned, unsafe(export_name = "planned_run"))]
#[cfg_attr(as_crate, unsafe(export_name = "as_crate_run"))]
#[cfg_attr(not(any(planned, as_crate)), unsafe(no_mangle))]
pub extern "C" fn plain_run(work: u32, size: u64, count: u64) -> u64 {
    let check = work >= CHECKED;
    // (only the works that the Rust crate does in another way)
    if cfg!(as_crate) && !matches!(work % CHECKED, 0..=3 | 6..=11 | 19 | 26 | 27 | 37 | 38 | 42..=50) {
        return 0;
    }
    let sum = match work % CHECKED {
        0 => change(check, size, count, paint),
        1 => change(check, size, count, insert),
        2 => change(check, size, count, remove),
        3 => paint_clumps(check, count),
        4 => get(size, count),
        5 => split_off(check, size, count),
        6 => append(check, size, count),
        7 => pop_first(check, size, count),
        8 => combine(check, size, size, count, Map::union),
        9 => combine(check, size, size / 10, count, Map::union),
        10 => combine(check, size, 100, count, Map::union),
        11 => combine_owned(check, size, count, Map::union_owned),
        12 => combine(check, size, size, count, Map::intersection),
        13 => combine(check, size, size, count, Map::difference),
        14 => combine(check, size, size, count, Map::symmetric_difference),
        15 => walk(size, 100, count),
        16 => walk(size, 1, count),
        17 | 19 => paint_all(check, size, count),
        18 => copy_sorted(check, size, count),
        20 => union_of_many(check, size, count),
        21 => combine(check, size, 100, count, |map, few| few.intersection(map)),
        22 => combine(check, size, 100, count, Map::difference),
        23 => combine_owned(check, size, count, |map, other| map.difference_owned(&other)),
        28 => combine(check, size, 100, count, Map::symmetric_difference),
        29 => combine_owned(check, size, count, |map, other| map.symmetric_difference(&other)),
        24 => within(size, count),
        25 => fill(check, size, count),
        26 => pop_last(check, size, count),
        27 => retain(check, size, count),
        35 => combine_wide(check, size, count, Map::union),
        37 => retain_below(check, size, count, 2),
        38 => retain_below(check, size, count, 0),
        39 => combine_wide(check, size, count, Map::difference),
        40 => combine_wide_owned(check, size, count, |map, other| map.difference_owned(&other)),
        41 => combine_wide(check, size, count, Map::symmetric_difference),
        #[cfg(as_crate)]
        number @ 42..=47 => by_keys::walk(number - 42, size, count),
        #[cfg(as_crate)]
        48 => by_keys::walk_owned(size, count),
        49 => bulk::paint_over_ten(check, size, count),
        50 => bulk::paint_over_all(check, size, count),
        51 => bulk::halve_values(check, size, count),
        53 => bulk::combine_three(check, size, count, |a, map, b| a.union(map).union_owned(b.clone())),
        54 => bulk::combine_three(check, size, count, |a, map, b| a.symmetric_difference(map).symmetric_difference(b)),
        _ => return 0,
    };
    sum | 1
}
