//! Plain maps with a pair for each key, and choices that look random.

use range_map::{Entry, OutOfMemory, RangeMap};
use std::collections::hash_map::DefaultHasher;
use std::collections::BTreeMap;
use std::hash::{Hash, Hasher};
use std::ops::RangeInclusive;

pub const KEYS: i64 = 24;

pub type Plain = BTreeMap<i64, u64>;
pub type Outcome = Result<(), OutOfMemory>;

/// Numbers that look random.
pub struct Choice(pub u64);

impl Choice {
    pub fn below(&mut self, count: i64) -> i64 {
        self.0 = self
            .0
            .wrapping_mul(6364136223846793005)
            .wrapping_add(1442695040888963407);
        ((self.0 >> 33) % count as u64) as i64
    }
}

/// The entries of a plain map.
pub fn entries_of(plain: &Plain) -> Vec<Entry> {
    let mut entries: Vec<Entry> = Vec::new();
    for (&key, &value) in plain {
        match entries.last_mut() {
            Some((range, last)) if *last == value && *range.end() == key - 1 => {
                *range = *range.start()..=key
            }
            _ => entries.push((key..=key, value)),
        }
    }
    entries
}

/// The longest ranges of the keys that `is_in` accepts.
pub fn runs(keys: RangeInclusive<i64>, is_in: impl Fn(i64) -> bool) -> Vec<RangeInclusive<i64>> {
    let kept: Plain = keys.filter(|&key| is_in(key)).map(|key| (key, 0)).collect();
    entries_of(&kept)
        .into_iter()
        .map(|(range, _)| range)
        .collect()
}

pub fn filtered(plain: &Plain, keeps: impl Fn(i64) -> bool) -> Plain {
    let pairs = plain.iter().filter(|(&key, _)| keeps(key));
    pairs.map(|(&key, &value)| (key, value)).collect()
}

pub fn hash_of(map: &RangeMap) -> u64 {
    let mut hasher = DefaultHasher::new();
    map.hash(&mut hasher);
    hasher.finish()
}
