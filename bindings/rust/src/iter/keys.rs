//! The iterators over keys, and over values.

use super::walk::{Row, Walk};
use super::RangeValues;
use crate::bounds::ends;
use crate::RangeMap;
use std::fmt;
use std::iter::FusedIterator;

/// Key by key, and value by value
impl RangeMap {
    /// Returns an iterator over each key that has a value, ascending, from both ends.
    ///
    /// [`RangeMap::ranges`] returns the keys as ranges. Creating the iterator is O(1). A key is O(1), and
    /// O(log n) for each 32 entries. `nth` is O(1) for each entry that it passes.
    ///
    /// ```
    /// # use range_map::RangeMap;
    /// let map = RangeMap::from([(10..=12, 1), (20..=21, 2)]);
    /// assert!(map.keys().eq([10, 11, 12, 20, 21]));
    /// assert_eq!(map.keys().nth(3), Some(20));
    /// ```
    pub fn keys(&self) -> Keys<'_> {
        Keys(self.key_values())
    }

    /// Returns an iterator over each key that has a value, and its value, ascending, from both ends.
    /// `iter` of a `BTreeMap` with the same keys returns such pairs.
    ///
    /// Creating the iterator is O(1). A key is O(1), and O(log n) for each 32 entries. `nth` is O(1) for
    /// each entry that it passes.
    ///
    /// ```
    /// # use range_map::RangeMap;
    /// let map = RangeMap::from([(10..=11, 1), (20..=20, 2)]);
    /// assert!(map.key_values().eq([(10, 1), (11, 1), (20, 2)]));
    /// ```
    pub fn key_values(&self) -> KeyValues<'_> {
        KeyValues {
            walk: Walk::new(ends(..)),
            front: None,
            back: None,
            remaining: self.len(),
            map: self,
        }
    }

    /// Returns an iterator over the value of each key that has one, ascending by key, from both ends.
    /// [`RangeMap::values_by_range`] returns the value of an entry once.
    ///
    /// Creating the iterator is O(1). A value is O(1), and O(log n) for each 32 entries. `nth` is O(1)
    /// for each entry that it passes.
    ///
    /// ```
    /// # use range_map::RangeMap;
    /// let map = RangeMap::from([(10..=11, 1), (20..=20, 2)]);
    /// assert!(map.values_by_key().eq([1, 1, 2]));
    /// ```
    #[doc(alias = "values")]
    pub fn values_by_key(&self) -> ValuesByKey<'_> {
        ValuesByKey(self.key_values())
    }

    /// Returns an iterator over the value of each entry, ascending by key, from both ends.
    /// [`RangeMap::values_by_key`] returns it for each key.
    ///
    /// Creating the iterator is O(1). A value is O(1), and O(log n) for each 32 entries.
    ///
    /// ```
    /// # use range_map::RangeMap;
    /// let map = RangeMap::from([(10..=11, 1), (20..=20, 2)]);
    /// assert!(map.values_by_range().eq([1, 2]));
    /// ```
    #[doc(alias = "values")]
    pub fn values_by_range(&self) -> ValuesByRange<'_> {
        ValuesByRange(self.range_values())
    }
}

/// Each key of a map, and its value. [`RangeMap::key_values`] returns it.
///
/// Its [`Debug`](fmt::Debug) writes the keys that were not returned as entries, because a map may have
/// 2^64 keys.
///
/// ```
/// # use range_map::RangeMap;
/// let map = RangeMap::from([(10..=19, 1), (20..=20, 2)]);
/// let mut pairs = map.key_values();
/// assert_eq!(pairs.next(), Some((10, 1)));
/// assert_eq!(pairs.next_back(), Some((20, 2)));
/// assert_eq!(pairs.size_hint(), (9, Some(9)));
/// assert_eq!(format!("{pairs:?}"), "[(11..=19, 1)]");
/// ```
#[derive(Clone)]
#[must_use = "iterators do nothing until they are used"]
pub struct KeyValues<'a> {
    map: &'a RangeMap,
    walk: Walk,
    /// What each end has not yet returned of an entry that it has read.
    front: Option<Row>,
    back: Option<Row>,
    /// How many keys are not yet returned.
    remaining: u128,
}

impl KeyValues<'_> {
    #[inline]
    fn row(&mut self) -> Option<Row> {
        let front = self.front.take().or_else(|| self.walk.next(self.map));
        front.or_else(|| self.back.take())
    }

    #[inline]
    fn row_back(&mut self) -> Option<Row> {
        let back = self.back.take().or_else(|| self.walk.next_back(self.map));
        back.or_else(|| self.front.take())
    }
}

/// The number of keys of an entry.
fn length((lo, hi, _): Row) -> u128 {
    u128::from(hi.abs_diff(lo)) + 1
}

impl Iterator for KeyValues<'_> {
    type Item = (i64, u64);

    #[inline]
    fn next(&mut self) -> Option<(i64, u64)> {
        let (lo, hi, value) = self.row()?;
        if lo < hi {
            self.front = Some((lo + 1, hi, value));
        }
        self.remaining -= 1;
        Some((lo, value))
    }

    fn size_hint(&self) -> (usize, Option<usize>) {
        let remaining = usize::try_from(self.remaining).ok();
        (remaining.unwrap_or(usize::MAX), remaining)
    }

    fn nth(&mut self, n: usize) -> Option<(i64, u64)> {
        let mut n = n as u128;
        while let Some(row) = self.row() {
            if n < length(row) {
                let (lo, hi, value) = row;
                // (modulo 2^64, because the offset may be above i64::MAX)
                self.front = Some((lo.wrapping_add(n as i64), hi, value));
                self.remaining -= n;
                return self.next();
            }
            n -= length(row);
            self.remaining -= length(row);
        }
        None
    }
}

impl DoubleEndedIterator for KeyValues<'_> {
    #[inline]
    fn next_back(&mut self) -> Option<(i64, u64)> {
        let (lo, hi, value) = self.row_back()?;
        if lo < hi {
            self.back = Some((lo, hi - 1, value));
        }
        self.remaining -= 1;
        Some((hi, value))
    }

    fn nth_back(&mut self, n: usize) -> Option<(i64, u64)> {
        let mut n = n as u128;
        while let Some(row) = self.row_back() {
            if n < length(row) {
                let (lo, hi, value) = row;
                self.back = Some((lo, hi.wrapping_sub(n as i64), value));
                self.remaining -= n;
                return self.next_back();
            }
            n -= length(row);
            self.remaining -= length(row);
        }
        None
    }
}

impl FusedIterator for KeyValues<'_> {}

impl fmt::Debug for KeyValues<'_> {
    fn fmt(&self, f: &mut fmt::Formatter<'_>) -> fmt::Result {
        let mut copy = self.clone();
        let entries = std::iter::from_fn(|| copy.row());
        let entries = entries.map(|(lo, hi, value)| (lo..=hi, value));
        f.debug_list().entries(entries).finish()
    }
}

/// Defines an iterator that returns a part of what another one returns.
macro_rules! part {
    ($(#[doc = $doc:literal])* $name:ident: $item:ty, of $whole:ident, $part:expr) => {
        $(#[doc = $doc])*
        #[derive(Clone, Debug)]
        #[must_use = "iterators do nothing until they are used"]
        pub struct $name<'a>($whole<'a>);

        impl Iterator for $name<'_> {
            type Item = $item;

            #[inline]
            fn next(&mut self) -> Option<$item> {
                self.0.next().map($part)
            }

            fn size_hint(&self) -> (usize, Option<usize>) {
                self.0.size_hint()
            }

            fn nth(&mut self, n: usize) -> Option<$item> {
                self.0.nth(n).map($part)
            }
        }

        impl DoubleEndedIterator for $name<'_> {
            #[inline]
            fn next_back(&mut self) -> Option<$item> {
                self.0.next_back().map($part)
            }

            fn nth_back(&mut self, n: usize) -> Option<$item> {
                self.0.nth_back(n).map($part)
            }
        }

        impl FusedIterator for $name<'_> {}
    };
}

part!(
    /// Each key of a map. [`RangeMap::keys`] returns it.
    ///
    /// ```
    /// # use range_map::RangeMap;
    /// let map = RangeMap::from([(10..=12, 1), (20..=21, 2)]);
    /// assert!(map.keys().rev().eq([21, 20, 12, 11, 10]));
    /// ```
    Keys: i64, of KeyValues, |(key, _)| key
);

part!(
    /// The value of each key of a map. [`RangeMap::values_by_key`] returns it.
    ///
    /// ```
    /// # use range_map::RangeMap;
    /// let map = RangeMap::from([(10..=12, 1), (20..=21, 2)]);
    /// assert_eq!(map.values_by_key().sum::<u64>(), 7);
    /// ```
    ValuesByKey: u64, of KeyValues, |(_, value)| value
);

part!(
    /// The value of each entry of a map. [`RangeMap::values_by_range`] returns it.
    ///
    /// ```
    /// # use range_map::RangeMap;
    /// let map = RangeMap::from([(10..=12, 1), (20..=21, 2)]);
    /// assert_eq!(map.values_by_range().len(), 2);
    /// assert_eq!(map.values_by_range().max(), Some(2));
    /// ```
    ValuesByRange: u64, of RangeValues, |(_, value)| value
);

impl ExactSizeIterator for ValuesByRange<'_> {}
