//! Changes of a map.

use super::RangeMap;
use crate::bounds::ends;
use crate::ffi;
use crate::out_of_memory::{checked, OutOfMemory};
use std::ops::RangeBounds;

/// Change
impl RangeMap {
    /// Sets the value of every key in the range, and returns whether the number of keys with a
    /// value changed.
    ///
    /// Returns `Ok(false)` if the range has no key. May allocate; if an allocation fails, the map
    /// is unchanged. O(log n) for each entry that the range touches.
    ///
    /// ```
    /// # use range_map::{OutOfMemory, RangeMap};
    /// # fn main() -> Result<(), OutOfMemory> {
    /// let mut map = RangeMap::new();
    /// assert!(map.ranges_insert(2..=5, 1)?);
    /// assert!(map.ranges_insert(5..=6, 2)?);
    /// assert!(!map.ranges_insert(3..=4, 3)?); // both keys had a value
    /// assert_eq!(map.to_string(), "(2..=2, 1), (3..=4, 3), (5..=6, 2)");
    /// # Ok(())
    /// # }
    /// ```
    pub fn ranges_insert(
        &mut self,
        range: impl RangeBounds<i64>,
        value: u64,
    ) -> Result<bool, OutOfMemory> {
        let (lo, hi) = match ends(range) {
            Some(ends) => ends,
            None => return Ok(false),
        };
        let mut changed = false;
        // SAFETY: the pointers are valid and different.
        checked(unsafe {
            ffi::range_map_paint_unchecked(&mut self.raw, lo, hi, value, &mut changed)
        })?;
        Ok(changed)
    }

    /// Sets the value of every key in the range that has none, and returns whether there was such a
    /// key.
    ///
    /// May allocate; if an allocation fails, the map is unchanged. O(log n) for each gap in the
    /// range, and O(1) for each entry.
    ///
    /// ```
    /// # use range_map::{OutOfMemory, RangeMap};
    /// # fn main() -> Result<(), OutOfMemory> {
    /// let mut map = RangeMap::from_iter([(3..=4, 1)]);
    /// assert!(map.ranges_insert_absent(2..=5, 2)?);
    /// assert_eq!(map.to_string(), "(2..=2, 2), (3..=4, 1), (5..=5, 2)");
    /// assert!(!map.ranges_insert_absent(2..=5, 3)?);
    /// # Ok(())
    /// # }
    /// ```
    pub fn ranges_insert_absent(
        &mut self,
        range: impl RangeBounds<i64>,
        value: u64,
    ) -> Result<bool, OutOfMemory> {
        let (lo, hi) = match ends(range) {
            Some(ends) => ends,
            None => return Ok(false),
        };
        let mut changed = false;
        // SAFETY: the pointers are valid and different.
        checked(unsafe {
            ffi::range_map_fill_unchecked(&mut self.raw, lo, hi, value, &mut changed)
        })?;
        Ok(changed)
    }

    /// Sets the value of every key in the range if none of them has a value, and returns whether
    /// that is so. Otherwise the map is unchanged.
    ///
    /// Returns `Ok(true)` if the range has no key. May allocate; if an allocation fails, the map is
    /// unchanged. O(log n).
    ///
    /// ```
    /// # use range_map::{OutOfMemory, RangeMap};
    /// # fn main() -> Result<(), OutOfMemory> {
    /// let mut map = RangeMap::new();
    /// assert!(map.fill_if_free(10..=19, 1)?);
    /// assert!(!map.fill_if_free(19..=20, 2)?); // 19 has a value
    /// assert_eq!(map.to_string(), "(10..=19, 1)");
    /// # Ok(())
    /// # }
    /// ```
    pub fn fill_if_free(
        &mut self,
        range: impl RangeBounds<i64>,
        value: u64,
    ) -> Result<bool, OutOfMemory> {
        let (lo, hi) = match ends(range) {
            Some(ends) => ends,
            None => return Ok(true),
        };
        // SAFETY: the pointer is valid.
        let status = unsafe { ffi::range_map_fill_if_free(&mut self.raw, lo, hi, value) };
        if status == ffi::TAKEN {
            return Ok(false);
        }
        checked(status)?;
        Ok(true)
    }

    /// Sets the value of one key, and returns the value that it had.
    ///
    /// May allocate; if an allocation fails, the map is unchanged. O(log n).
    ///
    /// ```
    /// # use range_map::{OutOfMemory, RangeMap};
    /// # fn main() -> Result<(), OutOfMemory> {
    /// let mut map = RangeMap::new();
    /// assert_eq!(map.insert(5, 1)?, None);
    /// assert_eq!(map.insert(5, 2)?, Some(1));
    /// # Ok(())
    /// # }
    /// ```
    pub fn insert(&mut self, key: i64, value: u64) -> Result<Option<u64>, OutOfMemory> {
        let (mut had, mut old) = (false, 0);
        // SAFETY: the pointers are valid and different.
        checked(unsafe {
            ffi::range_map_insert_unchecked(&mut self.raw, key, value, &mut had, &mut old)
        })?;
        Ok(had.then_some(old))
    }

    /// Removes every key in the range, and returns whether one of them had a value.
    ///
    /// May allocate, to split an entry; if an allocation fails, the map is unchanged. O(log n) for
    /// each entry that the range touches.
    ///
    /// ```
    /// # use range_map::{OutOfMemory, RangeMap};
    /// # fn main() -> Result<(), OutOfMemory> {
    /// let mut map = RangeMap::from_iter([(10..=49, 1)]);
    /// assert!(map.ranges_remove(20..30)?);
    /// assert!(!map.ranges_remove(20..30)?);
    /// assert_eq!(map.to_string(), "(10..=19, 1), (30..=49, 1)");
    /// # Ok(())
    /// # }
    /// ```
    pub fn ranges_remove(&mut self, range: impl RangeBounds<i64>) -> Result<bool, OutOfMemory> {
        let (lo, hi) = match ends(range) {
            Some(ends) => ends,
            None => return Ok(false),
        };
        let mut changed = false;
        // SAFETY: the pointers are valid and different.
        checked(unsafe {
            ffi::range_map_remove_range_unchecked(&mut self.raw, lo, hi, &mut changed)
        })?;
        Ok(changed)
    }

    /// Removes one key, and returns the value that it had.
    ///
    /// May allocate, to split an entry; if an allocation fails, the map is unchanged. O(log n).
    ///
    /// ```
    /// # use range_map::{OutOfMemory, RangeMap};
    /// # fn main() -> Result<(), OutOfMemory> {
    /// let mut map = RangeMap::from_iter([(10..=12, 1)]);
    /// assert_eq!(map.remove(11)?, Some(1));
    /// assert_eq!(map.remove(11)?, None);
    /// assert_eq!(map.to_string(), "(10..=10, 1), (12..=12, 1)");
    /// # Ok(())
    /// # }
    /// ```
    pub fn remove(&mut self, key: i64) -> Result<Option<u64>, OutOfMemory> {
        let (mut had, mut old) = (false, 0);
        // SAFETY: the pointers are valid and different.
        checked(unsafe {
            ffi::range_map_remove_unchecked(&mut self.raw, key, &mut had, &mut old)
        })?;
        Ok(had.then_some(old))
    }

    /// Removes the least key that has a value, and returns the key and its value.
    ///
    /// May allocate; if an allocation fails, the map is unchanged. O(log n).
    ///
    /// ```
    /// # use range_map::{OutOfMemory, RangeMap};
    /// # fn main() -> Result<(), OutOfMemory> {
    /// let mut map = RangeMap::from_iter([(10..=11, 1)]);
    /// assert_eq!(map.pop_first()?, Some((10, 1)));
    /// assert_eq!(map.pop_first()?, Some((11, 1)));
    /// assert_eq!(map.pop_first()?, None);
    /// # Ok(())
    /// # }
    /// ```
    pub fn pop_first(&mut self) -> Result<Option<(i64, u64)>, OutOfMemory> {
        let (mut had, mut key, mut value) = (false, 0, 0);
        // SAFETY: the pointers are valid and different.
        checked(unsafe {
            ffi::range_map_pop_first_unchecked(&mut self.raw, &mut had, &mut key, &mut value)
        })?;
        Ok(had.then_some((key, value)))
    }

    /// Removes the greatest key that has a value, and returns the key and its value.
    ///
    /// May allocate; if an allocation fails, the map is unchanged. O(log n).
    ///
    /// ```
    /// # use range_map::{OutOfMemory, RangeMap};
    /// # fn main() -> Result<(), OutOfMemory> {
    /// let mut map = RangeMap::from_iter([(10..=11, 1)]);
    /// assert_eq!(map.pop_last()?, Some((11, 1)));
    /// assert_eq!(map.pop_last()?, Some((10, 1)));
    /// assert_eq!(map.pop_last()?, None);
    /// # Ok(())
    /// # }
    /// ```
    pub fn pop_last(&mut self) -> Result<Option<(i64, u64)>, OutOfMemory> {
        let (mut had, mut key, mut value) = (false, 0, 0);
        // SAFETY: the pointers are valid and different.
        checked(unsafe {
            ffi::range_map_pop_last_unchecked(&mut self.raw, &mut had, &mut key, &mut value)
        })?;
        Ok(had.then_some((key, value)))
    }

    /// Removes all keys and frees the memory of the map. Does not allocate. O(n).
    ///
    /// ```
    /// # use range_map::RangeMap;
    /// let mut map = RangeMap::from_iter([(10..=49, 1)]);
    /// map.clear();
    /// assert!(map.is_empty());
    /// ```
    pub fn clear(&mut self) {
        // SAFETY: the pointer is valid.
        unsafe { ffi::range_map_clear(&mut self.raw) }
    }

    /// Removes the keys from `key` on, and returns them as a map.
    ///
    /// May allocate; if an allocation fails, the map is unchanged. O(log n), and O(1) for each entry
    /// of the smaller part.
    ///
    /// ```
    /// # use range_map::{OutOfMemory, RangeMap};
    /// # fn main() -> Result<(), OutOfMemory> {
    /// let mut map = RangeMap::from_iter([(10..=49, 1)]);
    /// let upper = map.split_off(30)?;
    /// assert_eq!(map.to_string(), "(10..=29, 1)");
    /// assert_eq!(upper.to_string(), "(30..=49, 1)");
    /// # Ok(())
    /// # }
    /// ```
    pub fn split_off(&mut self, key: i64) -> Result<Self, OutOfMemory> {
        let mut upper = Self::new();
        // SAFETY: the maps are different.
        checked(unsafe { ffi::range_map_split_off_unchecked(&mut self.raw, key, upper.raw()) })?;
        Ok(upper)
    }
}
