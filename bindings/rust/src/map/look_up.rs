//! Lookups in a map.

use super::RangeMap;
use crate::bounds::ends;
use crate::{ffi, Entry};
use std::ops::{RangeBounds, RangeInclusive};

/// Look up
impl RangeMap {
    /// Returns whether no key has a value. Does not allocate. O(1).
    ///
    /// ```
    /// # use range_map::RangeMap;
    /// assert!(RangeMap::new().is_empty());
    /// assert!(!RangeMap::from_iter([(7, 1)]).is_empty());
    /// ```
    #[must_use]
    pub fn is_empty(&self) -> bool {
        // SAFETY: the pointer is valid.
        unsafe { ffi::range_map_is_empty_unchecked(&mut self.handle()) }
    }

    /// Returns how many keys have a value, at most 2^64. Does not allocate. O(1).
    ///
    /// ```
    /// # use range_map::RangeMap;
    /// assert_eq!(RangeMap::from_iter([(10..=49, 1)]).len(), 40);
    /// assert_eq!(RangeMap::from_iter([(i64::MIN..=i64::MAX, 1)]).len(), 1 << 64);
    /// ```
    #[must_use]
    pub fn len(&self) -> u128 {
        let (mut low, mut high) = (0, 0);
        // SAFETY: the pointers are valid and different.
        unsafe { ffi::range_map_count_unchecked(&mut self.handle(), &mut low, &mut high) };
        u128::from(high) << 64 | u128::from(low)
    }

    /// Returns how many keys in the range have a value. Does not allocate. O(log n), and O(1) for
    /// each entry in the range.
    ///
    /// ```
    /// # use range_map::RangeMap;
    /// let map = RangeMap::from_iter([(10..=49, 1)]);
    /// assert_eq!(map.len_within(..20), 10);
    /// ```
    #[must_use]
    pub fn len_within(&self, range: impl RangeBounds<i64>) -> u128 {
        let (lo, hi) = match ends(range) {
            Some(ends) => ends,
            None => return 0,
        };
        let (mut low, mut high) = (0, 0);
        // SAFETY: the pointers are valid and different.
        unsafe {
            ffi::range_map_count_within_unchecked(&mut self.handle(), lo, hi, &mut low, &mut high)
        };
        u128::from(high) << 64 | u128::from(low)
    }

    /// Returns the number of entries. Does not allocate. O(1).
    ///
    /// ```
    /// # use range_map::RangeMap;
    /// let map = RangeMap::from_iter([(10..=19, 1), (20..=29, 1), (30..=39, 2)]);
    /// assert_eq!(map.ranges_len(), 2); // (10..=29, 1), (30..=39, 2)
    /// ```
    #[must_use]
    pub fn ranges_len(&self) -> usize {
        // SAFETY: the pointer is valid. The entries are in memory, so `usize` can count them.
        unsafe { ffi::range_map_entries_unchecked(&mut self.handle()) as usize }
    }

    /// Returns the value at the key. Does not allocate. O(log n).
    ///
    /// ```
    /// # use range_map::RangeMap;
    /// let map = RangeMap::from_iter([(10..=49, 1)]);
    /// assert_eq!(map.get(20), Some(1));
    /// assert_eq!(map.get(50), None);
    /// ```
    #[must_use]
    pub fn get(&self, key: i64) -> Option<u64> {
        let mut value = 0;
        // SAFETY: the pointers are valid and different.
        let has_value =
            unsafe { ffi::range_map_get_unchecked(&mut self.handle(), key, &mut value) };
        has_value.then_some(value)
    }

    /// Returns whether the key has a value. Does not allocate. O(log n).
    ///
    /// ```
    /// # use range_map::RangeMap;
    /// let map = RangeMap::from_iter([(10..=49, 1)]);
    /// assert!(map.contains_key(20));
    /// assert!(!map.contains_key(50));
    /// ```
    #[must_use]
    pub fn contains_key(&self, key: i64) -> bool {
        self.get(key).is_some()
    }

    /// Returns the entry that contains the key. Does not allocate. O(log n).
    ///
    /// ```
    /// # use range_map::RangeMap;
    /// let map = RangeMap::from_iter([(10..=49, 1)]);
    /// assert_eq!(map.range_at(20), Some((10..=49, 1)));
    /// assert_eq!(map.range_at(50), None);
    /// ```
    #[doc(alias = "get_key_value")]
    #[must_use]
    pub fn range_at(&self, key: i64) -> Option<Entry> {
        let (range, value) = self.range_or_gap_at(key);
        value.map(|value| (range, value))
    }

    /// Returns the range of the entry that contains the key, and its value. If the key has no
    /// value, returns the longest range around it in which no key has a value, and `None`.
    ///
    /// Does not allocate. O(log n).
    ///
    /// ```
    /// # use range_map::RangeMap;
    /// let map = RangeMap::from_iter([(10..=49, 1)]);
    /// assert_eq!(map.range_or_gap_at(20), (10..=49, Some(1)));
    /// assert_eq!(map.range_or_gap_at(50), (50..=i64::MAX, None));
    /// ```
    #[must_use]
    pub fn range_or_gap_at(&self, key: i64) -> (RangeInclusive<i64>, Option<u64>) {
        let (mut lo, mut hi, mut value) = (0, 0, 0);
        // SAFETY: the pointers are valid and different.
        let is_entry = unsafe {
            ffi::range_map_entry_or_gap_at_unchecked(
                &mut self.handle(),
                key,
                &mut lo,
                &mut hi,
                &mut value,
            )
        };
        (lo..=hi, is_entry.then_some(value))
    }

    /// Returns the first entry that ends at the key or above it. Does not allocate. O(log n).
    ///
    /// ```
    /// # use range_map::RangeMap;
    /// let map = RangeMap::from_iter([(10..=19, 1), (30..=39, 2)]);
    /// assert_eq!(map.range_at_or_above(15), Some((10..=19, 1)));
    /// assert_eq!(map.range_at_or_above(20), Some((30..=39, 2)));
    /// assert_eq!(map.range_at_or_above(40), None);
    /// ```
    #[must_use]
    pub fn range_at_or_above(&self, key: i64) -> Option<Entry> {
        let (mut lo, mut hi, mut value) = (0, 0, 0);
        // SAFETY: the pointers are valid and different.
        let has_entry = unsafe {
            ffi::range_map_next_unchecked(&mut self.handle(), key, &mut lo, &mut hi, &mut value)
        };
        has_entry.then_some((lo..=hi, value))
    }

    /// Returns the last entry that starts at the key or below it. Does not allocate. O(log n).
    ///
    /// ```
    /// # use range_map::RangeMap;
    /// let map = RangeMap::from_iter([(10..=19, 1), (30..=39, 2)]);
    /// assert_eq!(map.range_at_or_below(35), Some((30..=39, 2)));
    /// assert_eq!(map.range_at_or_below(29), Some((10..=19, 1)));
    /// assert_eq!(map.range_at_or_below(9), None);
    /// ```
    #[must_use]
    pub fn range_at_or_below(&self, key: i64) -> Option<Entry> {
        let (mut lo, mut hi, mut value) = (0, 0, 0);
        // SAFETY: the pointers are valid and different.
        let has_entry = unsafe {
            ffi::range_map_previous_unchecked(&mut self.handle(), key, &mut lo, &mut hi, &mut value)
        };
        has_entry.then_some((lo..=hi, value))
    }

    /// Returns the least key that has a value, and its value. Does not allocate. O(log n).
    ///
    /// ```
    /// # use range_map::RangeMap;
    /// let map = RangeMap::from_iter([(10..=49, 1)]);
    /// assert_eq!(map.first_key_value(), Some((10, 1)));
    /// ```
    #[must_use]
    pub fn first_key_value(&self) -> Option<(i64, u64)> {
        let (mut key, mut value) = (0, 0);
        // SAFETY: the pointers are valid and different.
        let has_key =
            unsafe { ffi::range_map_first_unchecked(&mut self.handle(), &mut key, &mut value) };
        has_key.then_some((key, value))
    }

    /// Returns the greatest key that has a value, and its value. Does not allocate. O(log n).
    ///
    /// ```
    /// # use range_map::RangeMap;
    /// let map = RangeMap::from_iter([(10..=49, 1)]);
    /// assert_eq!(map.last_key_value(), Some((49, 1)));
    /// ```
    #[must_use]
    pub fn last_key_value(&self) -> Option<(i64, u64)> {
        let (mut key, mut value) = (0, 0);
        // SAFETY: the pointers are valid and different.
        let has_key =
            unsafe { ffi::range_map_last_unchecked(&mut self.handle(), &mut key, &mut value) };
        has_key.then_some((key, value))
    }

    /// Returns whether a key in the range has a value; `false` if the range has no key. Does not
    /// allocate. O(log n).
    ///
    /// ```
    /// # use range_map::RangeMap;
    /// let map = RangeMap::from_iter([(10..=49, 1)]);
    /// assert!(map.has_any(0..=10));
    /// assert!(!map.has_any(0..10));
    /// ```
    #[doc(alias = "overlaps")]
    #[must_use]
    pub fn has_any(&self, range: impl RangeBounds<i64>) -> bool {
        match ends(range) {
            // SAFETY: the pointer is valid.
            Some((lo, hi)) => unsafe { ffi::range_map_any_unchecked(&mut self.handle(), lo, hi) },
            None => false,
        }
    }

    /// Returns whether every key in the range has a value; `true` if the range has no key. Does not
    /// allocate. O(log n), and O(1) for each entry up to the first gap.
    ///
    /// ```
    /// # use range_map::RangeMap;
    /// let map = RangeMap::from_iter([(10..=49, 1)]);
    /// assert!(map.has_all(10..50));
    /// assert!(!map.has_all(10..=50));
    /// ```
    #[must_use]
    pub fn has_all(&self, range: impl RangeBounds<i64>) -> bool {
        match ends(range) {
            // SAFETY: the pointer is valid.
            Some((lo, hi)) => unsafe { ffi::range_map_all_unchecked(&mut self.handle(), lo, hi) },
            None => true,
        }
    }

    /// Returns the least key of the range at which `length` keys without a value start, all within
    /// the range. Returns `None` if there is none, or `length` is 0.
    ///
    /// Does not allocate. O(log n), and O(1) for each entry up to the result.
    ///
    /// ```
    /// # use range_map::RangeMap;
    /// let map = RangeMap::from_iter([(10..=19, 1), (30..=39, 2)]);
    /// assert_eq!(map.find_gap(10..=99, 10), Some(20)); // 20..=29
    /// assert_eq!(map.find_gap(10..=99, 11), Some(40)); // 40..=50
    /// assert_eq!(map.find_gap(10..=39, 11), None);
    /// ```
    #[must_use]
    pub fn find_gap(&self, range: impl RangeBounds<i64>, length: u64) -> Option<i64> {
        let (from, to) = ends(range)?;
        let mut lo = 0;
        // SAFETY: the pointers are valid and different.
        let has_gap = unsafe {
            ffi::range_map_find_gap_unchecked(&mut self.handle(), from, to, length, &mut lo)
        };
        has_gap.then_some(lo)
    }

    /// Returns the greatest key of the range at which `length` keys without a value start, all
    /// within the range. Returns `None` if there is none, or `length` is 0.
    ///
    /// Does not allocate. O(log n), and O(1) for each entry down to the result.
    ///
    /// ```
    /// # use range_map::RangeMap;
    /// let map = RangeMap::from_iter([(10..=19, 1), (30..=39, 2)]);
    /// assert_eq!(map.find_last_gap(0..=39, 5), Some(25)); // 25..=29
    /// assert_eq!(map.find_last_gap(0..=39, 11), None);
    /// ```
    #[must_use]
    pub fn find_last_gap(&self, range: impl RangeBounds<i64>, length: u64) -> Option<i64> {
        let (from, to) = ends(range)?;
        let mut lo = 0;
        // SAFETY: the pointers are valid and different.
        let has_gap = unsafe {
            ffi::range_map_find_last_gap_unchecked(&mut self.handle(), from, to, length, &mut lo)
        };
        has_gap.then_some(lo)
    }
}
