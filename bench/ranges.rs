//! A map from ranges of integers to values in plain Rust, over std's `BTreeMap`. It stores its number of keys.
#[cfg_attr(planned, path = "planned.rs")]
#[cfg_attr(as_crate, path = "as_crate.rs")]
#[cfg_attr(not(any(planned, as_crate)), path = "one_pass.rs")]
mod splice;
#[cfg(as_crate)]
#[path = "pairs.rs"]
mod pairs;
#[cfg_attr(as_crate, path = "streamed.rs")]
#[cfg_attr(not(as_crate), path = "unite.rs")]
mod unite;

use splice::{Held, give, held, hold};
use std::collections::BTreeMap;
use std::mem::{replace, take};
use std::ops::Bound::{Excluded, Unbounded};
use std::ops::RangeInclusive;

/// A map from ranges to values. The tree has the last key and the value of each entry, by its first key.
#[derive(Clone)]
pub struct RangeMap<V> {
    tree: BTreeMap<i64, (i64, Held<V>)>,
    len: u128,
}

impl<V> Default for RangeMap<V> {
    fn default() -> Self {
        RangeMap { tree: BTreeMap::new(), len: 0 }
    }
}

/// Returns the number of keys from `start` up to `end`.
fn length(start: i64, end: i64) -> u128 {
    (i128::from(end) - i128::from(start) + 1) as u128
}

impl<V: Eq + Clone> RangeMap<V> {
    /// Returns the map of ascending entries. Touching entries with equal values become one entry.
    pub fn from_ascending(capacity: usize, entries: impl Iterator<Item = (i64, i64, V)>) -> Self {
        let mut gathered = Gathered::with_capacity(capacity);
        for (start, end, value) in entries {
            gathered.push(start, end, value);
        }
        gathered.build()
    }

    /// Returns the number of keys.
    pub fn len(&self) -> u128 {
        self.len
    }

    /// Returns an iterator over the entries, ascending.
    pub fn entries(&self) -> impl Iterator<Item = (i64, i64, &V)> {
        self.tree.iter().map(|(start, (end, value))| (*start, *end, held(value)))
    }

    /// Sets the value of a key, and returns its old value.
    pub fn insert(&mut self, key: i64, value: V) -> Option<V> {
        let old = self.get(key).cloned();
        self.paint(key, key, value);
        old
    }

    /// Removes the greatest key, and returns it with its value.
    pub fn pop_last(&mut self) -> Option<(i64, V)> {
        let mut last = self.tree.last_entry()?;
        let (start, end) = (*last.key(), last.get().0);
        self.len -= 1;
        if start < end {
            last.get_mut().0 = end - 1;
            return Some((end, held(&last.get().1).clone()));
        }
        Some((end, give(last.remove().1)))
    }

    /// Keeps the entries for which a closure returns `true`.
    pub fn ranges_retain(&mut self, mut keeps: impl FnMut(&RangeInclusive<i64>, &V) -> bool) {
        let len = &mut self.len;
        self.tree.retain(|start, (end, value)| {
            let keeps = keeps(&(*start..=*end), held(value));
            if !keeps {
                *len -= length(*start, *end);
            }
            keeps
        });
    }

    /// Returns the value at a key.
    pub fn get(&self, key: i64) -> Option<&V> {
        let (_, (end, value)) = self.tree.range(..=key).next_back()?;
        if key <= *end { Some(held(value)) } else { None }
    }

    /// Returns the map of the keys from `lo` up to `hi`.
    pub fn within(&self, lo: i64, hi: i64) -> Self {
        let first = match self.tree.range(..=lo).next_back() {
            Some((start, (end, _))) if *end >= lo => *start,
            _ => lo,
        };
        let entries = self.tree.range(first..=hi);
        let pieces = entries.map(|(start, (end, value))| (lo.max(*start), hi.min(*end), held(value).clone()));
        Self::from_ascending(0, pieces)
    }

    /// Keeps the keys below `key`, and returns the map of the others.
    pub fn split_off(&mut self, key: i64) -> Self {
        let mut tree = self.tree.split_off(&key);
        if let Some((_, entry)) = self.tree.range_mut(..key).next_back()
            && entry.0 >= key
        {
            tree.insert(key, (entry.0, entry.1.clone()));
            entry.0 = key - 1;
        }
        let len = tree.iter().map(|(start, (end, _))| length(*start, *end)).sum();
        self.len -= len;
        RangeMap { tree, len }
    }

    /// Moves the entries of `other` to this map. At keys that both maps have, the value is that of `other`.
    pub fn append(&mut self, other: &mut Self) {
        let other = take(other);
        if cfg!(as_crate) {
            self.paint_all(&other);
        } else {
            *self = take(self).union_owned(other);
        }
    }

    /// Returns the union. At keys that both maps have, the value is that of `other`.
    pub fn union(&self, other: &Self) -> Self {
        if are_few(other.tree.len(), self.tree.len()) {
            let mut map = self.clone();
            map.paint_all(other);
            return map;
        }
        let mut gathered = Gathered::with_capacity(self.tree.len() + other.tree.len());
        let left = self.entries().map(|(start, end, value)| (start, end, value.clone()));
        let right = other.entries().map(|(start, end, value)| (start, end, value.clone()));
        gathered.unite(left, right);
        gathered.build()
    }

    /// Returns the union of two owned maps. At keys that both maps have, the value is that of `other`.
    pub fn union_owned(mut self, other: Self) -> Self {
        if are_few(other.tree.len(), self.tree.len()) {
            self.paint_all(&other);
            return self;
        }
        let mut gathered = Gathered::with_capacity(self.tree.len() + other.tree.len());
        let left = self.tree.into_iter().map(|(start, (end, value))| (start, end, give(value)));
        let right = other.tree.into_iter().map(|(start, (end, value))| (start, end, give(value)));
        gathered.unite(left, right);
        gathered.build()
    }

    fn paint_all(&mut self, other: &Self) {
        for (start, end, value) in other.entries() {
            self.paint(start, end, value.clone());
        }
    }

    /// Returns the keys that both maps have, with the values of `other`.
    pub fn intersection(&self, other: &Self) -> Self {
        let mut gathered = Gathered::with_capacity(self.tree.len().max(other.tree.len()));
        let (mut left, mut right) = (self.entries(), other.entries());
        let (mut a, mut b) = (left.next(), right.next());
        while let (Some((a_start, a_end, _)), Some((b_start, b_end, value))) = (a, b) {
            let (start, end) = (a_start.max(b_start), a_end.min(b_end));
            if start <= end {
                gathered.push(start, end, value.clone());
            }
            if a_end <= b_end {
                a = left.next();
            } else {
                b = right.next();
            }
        }
        gathered.build()
    }

    /// Removes the keys from `lo` up to `hi`. An entry that extends past them keeps its other keys.
    fn cut(&mut self, lo: i64, hi: i64) {
        if let Some((_, entry)) = self.tree.range_mut(..lo).next_back()
            && entry.0 >= lo
        {
            let end = replace(&mut entry.0, lo - 1);
            self.len -= length(lo, end.min(hi));
            if end > hi {
                let rest = (end, entry.1.clone());
                self.tree.insert(hi + 1, rest);
                return;
            }
        }
        while let Some((&start, _)) = self.tree.range(lo..=hi).next()
            && let Some(entry) = self.tree.remove(&start)
        {
            self.len -= length(start, entry.0.min(hi));
            if entry.0 > hi {
                self.tree.insert(hi + 1, entry);
                return;
            }
        }
    }

    /// Returns the keys of an owned map that `other` does not have, with their values.
    pub fn difference_owned(mut self, other: &Self) -> Self {
        if cfg!(as_crate) || !are_few(other.tree.len(), self.tree.len()) {
            return self.difference(other);
        }
        for (start, end, _) in other.entries() {
            self.cut(start, end);
        }
        self
    }

    /// Returns the keys that `other` does not have, with their values.
    pub fn difference(&self, other: &Self) -> Self {
        if !cfg!(as_crate) && are_few(other.tree.len(), self.tree.len()) {
            return self.clone().difference_owned(other);
        }
        let mut gathered = Gathered::with_capacity(self.tree.len());
        let mut right = other.entries();
        let mut b = right.next();
        for (start, a_end, value) in self.entries() {
            let mut next = Some(start);
            while let (Some(first), Some((b_start, b_end, _))) = (next, b) {
                if b_end < first {
                    b = right.next();
                } else if b_start > a_end {
                    break;
                } else {
                    if first < b_start {
                        gathered.push(first, b_start - 1, value.clone());
                    }
                    next = if b_end < a_end { Some(b_end + 1) } else { None };
                }
            }
            if let Some(first) = next {
                gathered.push(first, a_end, value.clone());
            }
        }
        gathered.build()
    }

    /// Returns the keys that exactly one of the two maps has, with their values.
    pub fn symmetric_difference(&self, other: &Self) -> Self {
        let mut gathered = Gathered::with_capacity(self.tree.len() + other.tree.len());
        let (mut left, mut right) = (self.entries(), other.entries());
        let (mut a, mut b) = (left.next(), right.next());
        loop {
            match (a, b) {
                (Some((a_start, a_end, a_value)), Some((b_start, b_end, b_value))) => {
                    if a_start < b_start {
                        let end = a_end.min(b_start - 1);
                        gathered.push(a_start, end, a_value.clone());
                        a = if end < a_end { Some((b_start, a_end, a_value)) } else { left.next() };
                    } else if b_start < a_start {
                        let end = b_end.min(a_start - 1);
                        gathered.push(b_start, end, b_value.clone());
                        b = if end < b_end { Some((a_start, b_end, b_value)) } else { right.next() };
                    } else {
                        let end = a_end.min(b_end);
                        a = if end < a_end { Some((end + 1, a_end, a_value)) } else { left.next() };
                        b = if end < b_end { Some((end + 1, b_end, b_value)) } else { right.next() };
                    }
                }
                (Some((start, end, value)), None) => {
                    gathered.push(start, end, value.clone());
                    a = left.next();
                }
                (None, Some((start, end, value))) => {
                    gathered.push(start, end, value.clone());
                    b = right.next();
                }
                (None, None) => return gathered.build(),
            }
        }
    }

    /// Returns the map with the same keys, each with the result of a closure at its entry's value. Touching entries with equal
    /// results become one entry.
    pub fn transform_values<W: Eq + Clone>(&self, mut f: impl FnMut(&V) -> W) -> RangeMap<W> {
        let entries = self.entries().map(|(start, end, value)| (start, end, f(value)));
        RangeMap::from_ascending(self.tree.len(), entries)
    }

    /// Returns the entry that contains a key: its first key, last key and value. If there is none, it returns the gap around
    /// the key.
    pub fn range_or_gap_at(&self, key: i64) -> (i64, i64, Option<&V>) {
        let mut first = i64::MIN;
        if let Some((start, (end, value))) = self.tree.range(..=key).next_back() {
            if key <= *end {
                return (*start, *end, Some(held(value)));
            }
            first = end + 1;
        }
        let next = self.tree.range((Excluded(key), Unbounded)).next();
        let last = next.map_or(i64::MAX, |(start, _)| start - 1);
        (first, last, None)
    }
}

/// Returns whether to paint `few` entries into a map of `len` entries, rather than to make one pass over both.
fn are_few(few: usize, len: usize) -> bool {
    if cfg!(as_crate) {
        // (the crate's rule)
        let descent = len.checked_ilog2().unwrap_or(0) as usize + 1;
        return few * descent < 10 * len + few;
    }
    few * 16 < len
}

/// A list of ascending entries, to build a map from.
struct Gathered<V> {
    entries: Vec<(i64, (i64, Held<V>))>,
    len: u128,
}

impl<V: Eq> Gathered<V> {
    fn with_capacity(capacity: usize) -> Self {
        Gathered { entries: Vec::with_capacity(capacity), len: 0 }
    }

    /// Appends an entry. If it touches the last entry and has an equal value, it extends that entry instead.
    fn push(&mut self, start: i64, end: i64, value: V) {
        self.len += length(start, end);
        if let Some((_, last)) = self.entries.last_mut()
            && last.0 == start.wrapping_sub(1)
            && *held(&last.1) == value
        {
            last.0 = end;
        } else {
            self.entries.push((start, (end, hold(value))));
        }
    }

    /// Builds the map of the entries in one pass.
    fn build(self) -> RangeMap<V> {
        RangeMap { tree: BTreeMap::from_iter(self.entries), len: self.len }
    }
}

#[cfg(test)]
mod tests {
    use super::*;
    use crate::draw::Draw;

    const KEYS: i64 = 40;

    /// The value of each of a few keys, or `None`.
    type Model = Vec<Option<u64>>;

    fn listed(model: &Model) -> Vec<(i64, i64, u64)> {
        let mut list: Vec<(i64, i64, u64)> = Vec::new();
        for (key, value) in (0i64..).zip(model) {
            let Some(value) = *value else { continue };
            match list.last_mut() {
                Some((_, end, last)) if *end == key - 1 && *last == value => *end = key,
                _ => list.push((key, key, value)),
            }
        }
        list
    }

    fn assert_same(map: &RangeMap<u64>, model: &Model) {
        let list: Vec<_> = map.entries().map(|(start, end, value)| (start, end, *value)).collect();
        assert_eq!(list, listed(model));
        assert_eq!(map.len(), model.iter().flatten().count() as u128);
    }

    fn chosen(a: &Model, b: &Model, choose: fn(Option<u64>, Option<u64>) -> Option<u64>) -> Model {
        a.iter().zip(b).map(|(a, b)| choose(*a, *b)).collect()
    }

    fn painted(draw: &mut Draw, count: u64) -> (RangeMap<u64>, Model) {
        let mut map = RangeMap::default();
        let mut model: Model = vec![None; KEYS as usize];
        for _ in 0..count {
            step(draw, &mut map, &mut model);
            assert_same(&map, &model);
        }
        (map, model)
    }

    fn step(draw: &mut Draw, map: &mut RangeMap<u64>, model: &mut Model) {
        let key = draw.key(KEYS as u64);
        let place = key as usize;
        match draw.below(8) {
            0 => assert_eq!(map.remove(key), model[place].take()),
            1 => {
                let value = draw.below(3);
                assert_eq!(map.insert(key, value), model[place].replace(value));
            }
            2 => assert_eq!(map.get(key).copied(), model[place]),
            3 => {
                let (start, end, value) = map.range_or_gap_at(key);
                assert_eq!(value.copied(), model[place]);
                assert!(start <= key && key <= end);
                let same = |key: i64| model.get(key as usize).is_some_and(|v| *v == model[place]);
                assert!((start.max(0)..=end.min(KEYS - 1)).all(same));
                assert!(value.is_some() || start == i64::MIN || !same(start - 1));
                assert!(value.is_some() || end == i64::MAX || !same(end + 1));
            }
            4 if draw.below(4) == 0 => {
                let first = model.iter().position(Option::is_some);
                let wanted = first.and_then(|key| Some((key as i64, model[key].take()?)));
                assert_eq!(map.pop_first(), wanted);
            }
            _ => {
                let hi = (key + draw.key(9)).min(KEYS - 1);
                let value = draw.below(3);
                let keys = place..=hi as usize;
                let changed = model[keys.clone()].contains(&None);
                assert_eq!(map.paint(key, hi, value), changed);
                model[keys].fill(Some(value));
            }
        }
    }

    #[test]
    fn paints_and_removals() {
        let mut draw = Draw(1);
        for _ in 0..2000 {
            painted(&mut draw, 100);
        }
    }

    #[test]
    fn two_maps() {
        let mut draw = Draw(2);
        for _ in 0..20000 {
            let (few, more) = (draw.below(30), draw.below(30));
            let (mut a, first) = painted(&mut draw, few);
            let (mut b, second) = painted(&mut draw, more);
            let either = chosen(&first, &second, |a, b| b.or(a));
            assert_same(&a.union(&b), &either);
            assert_same(&a.clone().union_owned(b.clone()), &either);
            assert_same(&a.intersection(&b), &chosen(&first, &second, |a, b| a.and(b)));
            let rest = chosen(&first, &second, |a, b| if b.is_none() { a } else { None });
            assert_same(&a.difference(&b), &rest);
            assert_same(&a.clone().difference_owned(&b), &rest);
            assert_same(&a.symmetric_difference(&b), &chosen(&first, &second, |a, b| a.xor(b)));
            let halves: Model = first.iter().map(|value| value.map(|value| value / 2)).collect();
            assert_same(&a.transform_values(|value| value / 2), &halves);
            let key = draw.below(KEYS as u64) as usize;
            let upper = a.clone().split_off(key as i64);
            let (mut below, mut above) = (first.clone(), first.clone());
            below[key..].fill(None);
            above[..key].fill(None);
            assert_same(&upper, &above);
            let mut lower = a.clone();
            lower.split_off(key as i64);
            assert_same(&lower, &below);
            a.append(&mut b);
            assert_same(&a, &either);
            assert_same(&b, &vec![None; KEYS as usize]);
        }
    }

    #[test]
    fn keys_at_both_ends_of_the_type() {
        let mut map = RangeMap::default();
        assert!(map.paint(i64::MIN, i64::MAX, 1));
        assert!(!map.paint(i64::MAX, i64::MAX, 2));
        assert!(!map.paint(i64::MIN, i64::MIN, 2));
        assert_eq!(map.len(), 1 << 64);
        assert_eq!(map.entries().count(), 3);
        assert!(!map.paint(i64::MIN, i64::MAX, 1));
        assert_eq!(map.entries().count(), 1);
    }
}
