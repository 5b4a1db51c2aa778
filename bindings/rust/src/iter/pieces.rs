//! The iterator over the entries within a range, cut off at its ends.

use super::Overlapping;
use crate::bounds::ends;
use crate::{Entry, RangeMap};
use std::fmt;
use std::iter::FusedIterator;
use std::ops::RangeBounds;

impl RangeMap {
    /// Returns an iterator over the entries within the range, ascending, from both ends. The first and
    /// the last entry are cut off at the ends of the range.
    ///
    /// [`RangeMap::overlapping`] returns whole entries. Creating the iterator is O(1). An entry is O(1),
    /// and O(log n) for each 32 entries.
    ///
    /// ```
    /// # use range_map::RangeMap;
    /// let map = RangeMap::from([(10..=19, 1), (20..=29, 2), (40..=49, 3)]);
    /// assert!(map.range(15..45).eq([(15..=19, 1), (20..=29, 2), (40..=44, 3)]));
    /// assert!(map.range(30..40).next().is_none());
    /// ```
    #[doc(alias = "within")]
    pub fn range(&self, range: impl RangeBounds<i64>) -> Pieces<'_> {
        let keys = ends(range);
        let (first, last) = keys.unwrap_or((0, 0)); // without keys, there is no entry to cut
        Pieces {
            entries: self.overlapping_keys(keys),
            first,
            last,
        }
    }
}

/// The entries within a range, cut off at its ends. [`RangeMap::range`] returns it.
///
/// ```
/// # use range_map::RangeMap;
/// let map = RangeMap::from([(10..=19, 1), (20..=29, 2)]);
/// let mut pieces = map.range(..=25);
/// assert_eq!(pieces.next_back(), Some((20..=25, 2)));
/// assert_eq!(pieces.next_back(), Some((10..=19, 1)));
/// assert_eq!(pieces.next_back(), None);
/// ```
#[derive(Clone)]
#[must_use = "iterators do nothing until they are used"]
pub struct Pieces<'a> {
    entries: Overlapping<'a>,
    /// The first and the last key of the range.
    first: i64,
    last: i64,
}

impl Pieces<'_> {
    fn cut(&self, (range, value): Entry) -> Entry {
        let lo = *range.start().max(&self.first);
        let hi = *range.end().min(&self.last);
        (lo..=hi, value)
    }
}

impl Iterator for Pieces<'_> {
    type Item = Entry;

    #[inline]
    fn next(&mut self) -> Option<Entry> {
        let entry = self.entries.next()?;
        Some(self.cut(entry))
    }
}

impl DoubleEndedIterator for Pieces<'_> {
    #[inline]
    fn next_back(&mut self) -> Option<Entry> {
        let entry = self.entries.next_back()?;
        Some(self.cut(entry))
    }
}

impl FusedIterator for Pieces<'_> {}

impl fmt::Debug for Pieces<'_> {
    fn fmt(&self, f: &mut fmt::Formatter<'_>) -> fmt::Result {
        f.debug_list().entries(self.clone()).finish()
    }
}
