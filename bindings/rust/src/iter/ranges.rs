//! The iterators over ranges and gaps.

use super::walk::Walk;
use crate::bounds::ends;
use crate::RangeMap;
use std::fmt;
use std::iter::FusedIterator;
use std::ops::{RangeBounds, RangeInclusive};

impl RangeMap {
    /// Returns an iterator over the longest ranges in which every key has a value, ascending, from
    /// both ends. Adjacent entries with different values are one such range.
    ///
    /// Creating the iterator is O(1). A range is O(1) for each of its entries, and O(log n) for each
    /// 32 entries.
    ///
    /// ```
    /// # use range_map::RangeMap;
    /// let map = RangeMap::from_iter([(10..=19, 1), (20..=29, 2), (40..=49, 3)]);
    /// assert!(map.ranges().eq([10..=29, 40..=49]));
    /// ```
    pub fn ranges(&self) -> Ranges<'_> {
        Ranges {
            walk: Walk::new(ends(..)),
            front: None,
            back: None,
            map: self,
        }
    }

    /// Returns an iterator over the longest ranges in which no key has a value, ascending, from both
    /// ends. Each is cut off at the ends of `range`.
    ///
    /// Creating the iterator is O(1). A gap is O(1) for each entry before it, and O(log n) for each
    /// 32 entries.
    ///
    /// ```
    /// # use range_map::RangeMap;
    /// let map = RangeMap::from_iter([(10..=19, 1), (20..=29, 2), (40..=49, 3)]);
    /// assert!(map.gaps(0..=60).eq([0..=9, 30..=39, 50..=60]));
    /// assert!(map.gaps(35..).rev().eq([50..=i64::MAX, 35..=39]));
    /// ```
    pub fn gaps(&self, range: impl RangeBounds<i64>) -> Gaps<'_> {
        let keys = ends(range);
        Gaps {
            keys,
            walk: Walk::new(keys),
            map: self,
        }
    }
}

/// The longest ranges in which every key has a value. [`RangeMap::ranges`] returns it.
///
/// ```
/// # use range_map::RangeMap;
/// let map = RangeMap::from_iter([(10..=19, 1), (20..=29, 2), (40..=49, 3)]);
/// assert!(map.ranges().rev().eq([40..=49, 10..=29]));
/// ```
#[derive(Clone)]
#[must_use = "iterators do nothing until they are used"]
pub struct Ranges<'a> {
    map: &'a RangeMap,
    walk: Walk,
    /// The entry that each end of the iteration has read and not yet returned.
    front: Option<(i64, i64)>,
    back: Option<(i64, i64)>,
}

impl Ranges<'_> {
    #[inline]
    fn entry(&mut self) -> Option<(i64, i64)> {
        let front = self.front.take();
        let front = front.or_else(|| self.walk.next(self.map).map(|(lo, hi, _)| (lo, hi)));
        front.or_else(|| self.back.take())
    }

    #[inline]
    fn entry_back(&mut self) -> Option<(i64, i64)> {
        let back = self.back.take();
        let back = back.or_else(|| self.walk.next_back(self.map).map(|(lo, hi, _)| (lo, hi)));
        back.or_else(|| self.front.take())
    }
}

impl Iterator for Ranges<'_> {
    type Item = RangeInclusive<i64>;

    #[inline]
    fn next(&mut self) -> Option<RangeInclusive<i64>> {
        let (lo, mut hi) = self.entry()?;
        while let Some((next_lo, next_hi)) = self.entry() {
            if next_lo - 1 != hi {
                self.front = Some((next_lo, next_hi));
                break;
            }
            hi = next_hi;
        }
        Some(lo..=hi)
    }
}

impl DoubleEndedIterator for Ranges<'_> {
    #[inline]
    fn next_back(&mut self) -> Option<RangeInclusive<i64>> {
        let (mut lo, hi) = self.entry_back()?;
        while let Some((next_lo, next_hi)) = self.entry_back() {
            if next_hi + 1 != lo {
                self.back = Some((next_lo, next_hi));
                break;
            }
            lo = next_lo;
        }
        Some(lo..=hi)
    }
}

impl FusedIterator for Ranges<'_> {}

impl fmt::Debug for Ranges<'_> {
    fn fmt(&self, f: &mut fmt::Formatter<'_>) -> fmt::Result {
        f.debug_list().entries(self.clone()).finish()
    }
}

/// The longest ranges in which no key has a value. [`RangeMap::gaps`] returns it.
///
/// ```
/// # use range_map::RangeMap;
/// let map = RangeMap::from_iter([(10..=19, 1)]);
/// let mut gaps = map.gaps(..);
/// assert_eq!(gaps.next_back(), Some(20..=i64::MAX));
/// assert_eq!(gaps.next_back(), Some(i64::MIN..=9));
/// assert_eq!(gaps.next_back(), None);
/// ```
#[derive(Clone)]
#[must_use = "iterators do nothing until they are used"]
pub struct Gaps<'a> {
    map: &'a RangeMap,
    walk: Walk,
    /// The first and the last key of the part of the range that neither end has passed.
    keys: Option<(i64, i64)>,
}

impl Iterator for Gaps<'_> {
    type Item = RangeInclusive<i64>;

    #[inline]
    fn next(&mut self) -> Option<RangeInclusive<i64>> {
        while let Some((from, to)) = self.keys.take() {
            let (lo, hi, _) = match self.walk.next(self.map) {
                Some(row) => row,
                None => return Some(from..=to),
            };
            if hi < to {
                self.keys = Some((hi + 1, to));
            }
            if lo > from {
                return Some(from..=lo - 1);
            }
        }
        None
    }
}

impl DoubleEndedIterator for Gaps<'_> {
    #[inline]
    fn next_back(&mut self) -> Option<RangeInclusive<i64>> {
        while let Some((from, to)) = self.keys.take() {
            let (lo, hi, _) = match self.walk.next_back(self.map) {
                Some(row) => row,
                None => return Some(from..=to),
            };
            if lo > from {
                self.keys = Some((from, lo - 1));
            }
            if hi < to {
                return Some(hi + 1..=to);
            }
        }
        None
    }
}

impl FusedIterator for Gaps<'_> {}

impl fmt::Debug for Gaps<'_> {
    fn fmt(&self, f: &mut fmt::Formatter<'_>) -> fmt::Result {
        f.debug_list().entries(self.clone()).finish()
    }
}
