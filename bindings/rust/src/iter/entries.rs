//! The iterators over entries.

use super::walk::{Row, Walk};
use crate::bounds::ends;
use crate::{Entry, RangeMap};
use std::fmt;
use std::iter::FusedIterator;
use std::ops::RangeBounds;

impl RangeMap {
    /// Returns an iterator over the entries, ascending, from both ends.
    ///
    /// Creating the iterator is O(1). An entry is O(1), and O(log n) for each 32 entries.
    ///
    /// ```
    /// # use range_map::RangeMap;
    /// let map = RangeMap::from_iter([(10..=19, 1), (20..=29, 2)]);
    /// assert!(map.range_values().eq([(10..=19, 1), (20..=29, 2)]));
    /// assert!(map.range_values().rev().eq([(20..=29, 2), (10..=19, 1)]));
    /// ```
    pub fn range_values(&self) -> RangeValues<'_> {
        RangeValues {
            remaining: self.ranges_len(),
            walk: Walk::new(ends(..)),
            map: self,
        }
    }

    /// Returns an iterator over the entries, ascending, from both ends, as
    /// [`RangeMap::range_values`] does. [`RangeMap::key_values`] visits each key.
    ///
    /// Creating the iterator is O(1). An entry is O(1), and O(log n) for each 32 entries.
    ///
    /// ```
    /// # use range_map::RangeMap;
    /// let map = RangeMap::from([(10..=19, 1), (20..=29, 2)]);
    /// let longest = map.iter().max_by_key(|(range, _)| range.end() - range.start());
    /// assert_eq!(longest, Some((20..=29, 2))); // of equal lengths, the last
    /// ```
    pub fn iter(&self) -> RangeValues<'_> {
        self.range_values()
    }

    /// Returns an iterator over the entries, ascending, from both ends, that owns the map.
    ///
    /// Creating the iterator is O(1). An entry is O(1), and O(log n) for each 32 entries.
    ///
    /// ```
    /// # use range_map::RangeMap;
    /// let map = RangeMap::from_iter([(10..=19, 1), (20..=29, 2)]);
    /// assert!(map.into_range_values().eq([(10..=19, 1), (20..=29, 2)]));
    /// ```
    pub fn into_range_values(self) -> IntoRangeValues {
        IntoRangeValues {
            remaining: self.ranges_len(),
            walk: Walk::new(ends(..)),
            map: self,
        }
    }

    /// Returns an iterator over the entries that share a key with the range, ascending, from both
    /// ends. The entries are whole: the first and the last may extend past the range.
    /// [`RangeMap::range`] cuts them off at the ends of the range.
    ///
    /// Creating the iterator is O(1). An entry is O(1), and O(log n) for each 32 entries.
    ///
    /// ```
    /// # use range_map::RangeMap;
    /// let map = RangeMap::from_iter([(10..=19, 1), (20..=29, 2), (40..=49, 3)]);
    /// assert!(map.overlapping(25..40).eq([(20..=29, 2)]));
    /// assert!(map.overlapping(..20).eq([(10..=19, 1)]));
    /// ```
    pub fn overlapping(&self, range: impl RangeBounds<i64>) -> Overlapping<'_> {
        self.overlapping_keys(ends(range))
    }

    pub(super) fn overlapping_keys(&self, keys: Option<(i64, i64)>) -> Overlapping<'_> {
        Overlapping {
            walk: Walk::new(keys),
            map: self,
        }
    }
}

/// Iterates over the entries, ascending: see [`RangeMap::range_values`].
impl<'a> IntoIterator for &'a RangeMap {
    type Item = Entry;
    type IntoIter = RangeValues<'a>;

    fn into_iter(self) -> RangeValues<'a> {
        self.range_values()
    }
}

/// Iterates over the entries, ascending: see [`RangeMap::into_range_values`].
impl IntoIterator for RangeMap {
    type Item = Entry;
    type IntoIter = IntoRangeValues;

    fn into_iter(self) -> IntoRangeValues {
        self.into_range_values()
    }
}

/// The entries of a map. [`RangeMap::range_values`] returns it.
///
/// ```
/// # use range_map::RangeMap;
/// let map = RangeMap::from_iter([(10..=19, 1), (20..=29, 2)]);
/// let mut entries = map.range_values();
/// assert_eq!(entries.len(), 2);
/// assert_eq!(entries.next(), Some((10..=19, 1)));
/// assert_eq!(entries.next_back(), Some((20..=29, 2)));
/// assert_eq!(entries.next(), None);
/// ```
#[derive(Clone)]
#[must_use = "iterators do nothing until they are used"]
pub struct RangeValues<'a> {
    map: &'a RangeMap,
    walk: Walk,
    /// How many entries are not yet returned.
    remaining: usize,
}

impl Iterator for RangeValues<'_> {
    type Item = Entry;

    #[inline]
    fn next(&mut self) -> Option<Entry> {
        let row = self.walk.next(self.map)?;
        self.remaining -= 1;
        Some(entry(row))
    }

    fn size_hint(&self) -> (usize, Option<usize>) {
        (self.remaining, Some(self.remaining))
    }
}

impl DoubleEndedIterator for RangeValues<'_> {
    #[inline]
    fn next_back(&mut self) -> Option<Entry> {
        let row = self.walk.next_back(self.map)?;
        self.remaining -= 1;
        Some(entry(row))
    }
}

impl ExactSizeIterator for RangeValues<'_> {}
impl FusedIterator for RangeValues<'_> {}

impl fmt::Debug for RangeValues<'_> {
    fn fmt(&self, f: &mut fmt::Formatter<'_>) -> fmt::Result {
        f.debug_list().entries(self.clone()).finish()
    }
}

/// The entries of a map that the iterator owns. [`RangeMap::into_range_values`] returns it.
///
/// ```
/// # use range_map::RangeMap;
/// let entries = RangeMap::from_iter([(10..=19, 1), (20..=29, 2)]).into_range_values();
/// assert_eq!(entries.map(|(_, value)| value).sum::<u64>(), 3);
/// ```
#[must_use = "iterators do nothing until they are used"]
pub struct IntoRangeValues {
    map: RangeMap,
    walk: Walk,
    /// How many entries are not yet returned.
    remaining: usize,
}

impl Iterator for IntoRangeValues {
    type Item = Entry;

    #[inline]
    fn next(&mut self) -> Option<Entry> {
        let row = self.walk.next(&self.map)?;
        self.remaining -= 1;
        Some(entry(row))
    }

    fn size_hint(&self) -> (usize, Option<usize>) {
        (self.remaining, Some(self.remaining))
    }
}

impl DoubleEndedIterator for IntoRangeValues {
    #[inline]
    fn next_back(&mut self) -> Option<Entry> {
        let row = self.walk.next_back(&self.map)?;
        self.remaining -= 1;
        Some(entry(row))
    }
}

impl ExactSizeIterator for IntoRangeValues {}
impl FusedIterator for IntoRangeValues {}

impl fmt::Debug for IntoRangeValues {
    fn fmt(&self, f: &mut fmt::Formatter<'_>) -> fmt::Result {
        let entries = RangeValues {
            map: &self.map,
            walk: self.walk.clone(),
            remaining: self.remaining,
        };
        fmt::Debug::fmt(&entries, f)
    }
}

/// The entries of a map that share a key with a range. [`RangeMap::overlapping`] returns it.
///
/// ```
/// # use range_map::RangeMap;
/// let map = RangeMap::from_iter([(10..=19, 1), (20..=29, 2), (40..=49, 3)]);
/// let mut entries = map.overlapping(15..=30);
/// assert_eq!(entries.next_back(), Some((20..=29, 2)));
/// assert_eq!(entries.next_back(), Some((10..=19, 1)));
/// assert_eq!(entries.next_back(), None);
/// ```
#[derive(Clone)]
#[must_use = "iterators do nothing until they are used"]
pub struct Overlapping<'a> {
    map: &'a RangeMap,
    walk: Walk,
}

impl Iterator for Overlapping<'_> {
    type Item = Entry;

    #[inline]
    fn next(&mut self) -> Option<Entry> {
        self.walk.next(self.map).map(entry)
    }
}

impl DoubleEndedIterator for Overlapping<'_> {
    #[inline]
    fn next_back(&mut self) -> Option<Entry> {
        self.walk.next_back(self.map).map(entry)
    }
}

impl FusedIterator for Overlapping<'_> {}

impl fmt::Debug for Overlapping<'_> {
    fn fmt(&self, f: &mut fmt::Formatter<'_>) -> fmt::Result {
        f.debug_list().entries(self.clone()).finish()
    }
}

fn entry((lo, hi, value): Row) -> Entry {
    (lo..=hi, value)
}
