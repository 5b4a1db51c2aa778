//! Lookups in a table.

use super::Table;
use crate::bounds::ends;
use crate::{ffi, Entry};
use std::ops::{RangeBounds, RangeInclusive};

/// Look up
impl Table<'_> {
    /// Returns the value at the key. Does not allocate. O(log n).
    ///
    /// ```
    /// # use range_map::{InvalidTable, Table};
    /// # fn main() -> Result<(), InvalidTable> {
    /// let table = Table::new(&[10, 30], &[19, 39], &[1, 2])?;
    /// assert_eq!(table.get(15), Some(1));
    /// assert_eq!(table.get(20), None);
    /// # Ok(())
    /// # }
    /// ```
    #[must_use]
    pub fn get(&self, key: i64) -> Option<u64> {
        let n = self.lo.len();
        let mut value = 0;
        // SAFETY: the slices have n elements each, n is not 0, and the rows are in order.
        let has_value = n != 0
            && unsafe {
                ffi::range_table_get_unchecked(
                    self.lo.as_ptr(),
                    n,
                    self.hi.as_ptr(),
                    n,
                    self.value.as_ptr(),
                    n,
                    key,
                    &mut value,
                )
            };
        has_value.then_some(value)
    }

    /// Returns whether the key has a value. Does not allocate. O(log n).
    ///
    /// ```
    /// # use range_map::{InvalidTable, Table};
    /// # fn main() -> Result<(), InvalidTable> {
    /// let table = Table::new(&[10, 30], &[19, 39], &[1, 2])?;
    /// assert!(table.contains_key(15));
    /// assert!(!table.contains_key(20));
    /// # Ok(())
    /// # }
    /// ```
    #[must_use]
    pub fn contains_key(&self, key: i64) -> bool {
        self.get(key).is_some()
    }

    /// Returns the row that contains the key. Does not allocate. O(log n).
    ///
    /// ```
    /// # use range_map::{InvalidTable, Table};
    /// # fn main() -> Result<(), InvalidTable> {
    /// let table = Table::new(&[10, 30], &[19, 39], &[1, 2])?;
    /// assert_eq!(table.range_at(15), Some((10..=19, 1)));
    /// assert_eq!(table.range_at(20), None);
    /// # Ok(())
    /// # }
    /// ```
    #[must_use]
    pub fn range_at(&self, key: i64) -> Option<Entry> {
        let (range, value) = self.range_or_gap_at(key);
        value.map(|value| (range, value))
    }

    /// Returns the range of the row that contains the key, and its value. If the key has no value,
    /// returns the longest range around it in which no key has a value, and `None`.
    ///
    /// Does not allocate. O(log n).
    ///
    /// ```
    /// # use range_map::{InvalidTable, Table};
    /// # fn main() -> Result<(), InvalidTable> {
    /// let table = Table::new(&[10, 30], &[19, 39], &[1, 2])?;
    /// assert_eq!(table.range_or_gap_at(15), (10..=19, Some(1)));
    /// assert_eq!(table.range_or_gap_at(20), (20..=29, None));
    /// assert_eq!(table.range_or_gap_at(40), (40..=i64::MAX, None));
    /// # Ok(())
    /// # }
    /// ```
    #[must_use]
    pub fn range_or_gap_at(&self, key: i64) -> (RangeInclusive<i64>, Option<u64>) {
        let n = self.lo.len();
        let (mut lo, mut hi, mut value) = (i64::MIN, i64::MAX, 0);
        // SAFETY: the slices have n elements each, n is not 0, and the rows are in order.
        let is_row = n != 0
            && unsafe {
                ffi::range_table_entry_or_gap_at_unchecked(
                    self.lo.as_ptr(),
                    n,
                    self.hi.as_ptr(),
                    n,
                    self.value.as_ptr(),
                    n,
                    key,
                    &mut lo,
                    &mut hi,
                    &mut value,
                )
            };
        (lo..=hi, is_row.then_some(value))
    }

    /// Returns the first row that ends at the key or above it. Does not allocate. O(log n).
    ///
    /// ```
    /// # use range_map::{InvalidTable, Table};
    /// # fn main() -> Result<(), InvalidTable> {
    /// let table = Table::new(&[10, 30], &[19, 39], &[1, 2])?;
    /// assert_eq!(table.range_at_or_above(20), Some((30..=39, 2)));
    /// assert_eq!(table.range_at_or_above(40), None);
    /// # Ok(())
    /// # }
    /// ```
    #[must_use]
    pub fn range_at_or_above(&self, key: i64) -> Option<Entry> {
        self.neighbour(key, ffi::range_table_next_unchecked)
    }

    /// Returns the last row that starts at the key or below it. Does not allocate. O(log n).
    ///
    /// ```
    /// # use range_map::{InvalidTable, Table};
    /// # fn main() -> Result<(), InvalidTable> {
    /// let table = Table::new(&[10, 30], &[19, 39], &[1, 2])?;
    /// assert_eq!(table.range_at_or_below(29), Some((10..=19, 1)));
    /// assert_eq!(table.range_at_or_below(9), None);
    /// # Ok(())
    /// # }
    /// ```
    #[must_use]
    pub fn range_at_or_below(&self, key: i64) -> Option<Entry> {
        self.neighbour(key, ffi::range_table_previous_unchecked)
    }

    fn neighbour(&self, key: i64, find: ffi::FindRow) -> Option<Entry> {
        let n = self.lo.len();
        let (mut lo, mut hi, mut value) = (0, 0, 0);
        // SAFETY: the slices have n elements each, n is not 0, and the rows are in order.
        let has_row = n != 0
            && unsafe {
                find(
                    self.lo.as_ptr(),
                    n,
                    self.hi.as_ptr(),
                    n,
                    self.value.as_ptr(),
                    n,
                    key,
                    &mut lo,
                    &mut hi,
                    &mut value,
                )
            };
        has_row.then_some((lo..=hi, value))
    }

    /// Returns how many keys in the range have a value. Does not allocate. O(log n), and O(1) for
    /// each row in the range.
    ///
    /// ```
    /// # use range_map::{InvalidTable, Table};
    /// # fn main() -> Result<(), InvalidTable> {
    /// let table = Table::new(&[10, 30], &[19, 39], &[1, 2])?;
    /// assert_eq!(table.len_within(15..35), 10);
    /// # Ok(())
    /// # }
    /// ```
    #[must_use]
    pub fn len_within(&self, range: impl RangeBounds<i64>) -> u128 {
        let n = self.lo.len();
        let (mut low, mut high) = (0, 0);
        if let (Some((first, last)), true) = (ends(range), n != 0) {
            // SAFETY: the slices have n elements each, n is not 0, and the rows are in order.
            unsafe {
                ffi::range_table_count_within_unchecked(
                    self.lo.as_ptr(),
                    n,
                    self.hi.as_ptr(),
                    n,
                    self.value.as_ptr(),
                    n,
                    first,
                    last,
                    &mut low,
                    &mut high,
                )
            }
        }
        u128::from(high) << 64 | u128::from(low)
    }
}
