//! Many ranges in one call.

use crate::bounds::ends;
use crate::ffi;
use crate::out_of_memory::{checked, OutOfMemory};
use crate::RangeMap;
use std::ops::{Range, RangeBounds, RangeInclusive};

/// The least number of ranges in a batch that is not the last one.
const LEAST_BATCH: usize = 1024;

/// Ranges to insert in one call of the library.
#[derive(Default)]
pub(crate) struct Batch {
    lo: Vec<i64>,
    hi: Vec<i64>,
    value: Vec<u64>,
}

impl Batch {
    /// Adds a range. A range that continues the last one with the same value extends it.
    pub(crate) fn push(&mut self, lo: i64, hi: i64, value: u64) -> Result<(), OutOfMemory> {
        if let (Some(last_hi), Some(last_value)) = (self.hi.last_mut(), self.value.last()) {
            if *last_value == value && last_hi.checked_add(1) == Some(lo) {
                *last_hi = hi;
                return Ok(());
            }
        }
        self.lo.try_reserve(1).map_err(|_| OutOfMemory)?;
        self.hi.try_reserve(1).map_err(|_| OutOfMemory)?;
        self.value.try_reserve(1).map_err(|_| OutOfMemory)?;
        self.lo.push(lo);
        self.hi.push(hi);
        self.value.push(value);
        Ok(())
    }

    /// Inserts the ranges into the map, in order, and empties the batch.
    pub(crate) fn apply(&mut self, map: &mut RangeMap) -> Result<(), OutOfMemory> {
        let count = self.lo.len();
        if count == 0 {
            return Ok(());
        }
        // SAFETY: the arrays have `count` elements each.
        checked(unsafe {
            ffi::range_map_paint_many_unchecked(
                map.raw(),
                self.lo.as_ptr(),
                count,
                self.hi.as_ptr(),
                count,
                self.value.as_ptr(),
                count,
            )
        })?;
        self.lo.clear();
        self.hi.clear();
        self.value.clear();
        Ok(())
    }
}

impl RangeMap {
    /// Sets the values of ranges, in order: a later value replaces an earlier one.
    ///
    /// The ranges are inserted in batches. A batch has at most as many ranges as the map has entries,
    /// or 1,024 if that is more. Allocates, for a batch too. If an allocation fails, the map has a
    /// first part of the ranges, perhaps none.
    ///
    /// O(n + k log k) for k ranges, O(n + k) if they ascend, or O(k log n) if k is at most n / 16.
    ///
    /// ```
    /// # use range_map::{OutOfMemory, RangeMap};
    /// # fn main() -> Result<(), OutOfMemory> {
    /// let mut map = RangeMap::new();
    /// map.try_extend([(10..50, 1), (20..30, 2)])?;
    /// assert_eq!(map.to_string(), "(10..=19, 1), (20..=29, 2), (30..=49, 1)");
    /// # Ok(())
    /// # }
    /// ```
    pub fn try_extend<R, I>(&mut self, ranges: I) -> Result<(), OutOfMemory>
    where
        R: RangeBounds<i64>,
        I: IntoIterator<Item = (R, u64)>,
    {
        let mut batch = Batch::default();
        let mut room = self.ranges_len().max(LEAST_BATCH);
        for (range, value) in ranges {
            if let Some((lo, hi)) = ends(range) {
                if batch.lo.len() == room {
                    batch.apply(self)?;
                    room = self.ranges_len().max(LEAST_BATCH);
                }
                batch.push(lo, hi, value)?;
            }
        }
        batch.apply(self)
    }
}

/// Implements the traits of std for many ranges, or for many keys.
macro_rules! many {
    (
        $keys:ty,
        as_range: $as_range:expr,
        $(#[doc = $extend:literal])*
        refs: $(#[doc = $refs:literal])*
        pairs: $(#[doc = $pairs:literal])*
        from_iter: $(#[doc = $from_iter:literal])*
        from: $(#[doc = $from:literal])*
    ) => {
        /// Sets the values, in order, as [`RangeMap::try_extend`] does. Calls
        /// [`handle_alloc_error`](std::alloc::handle_alloc_error) if an allocation fails.
        ///
        $(#[doc = $extend])*
        impl Extend<($keys, u64)> for RangeMap {
            fn extend<I: IntoIterator<Item = ($keys, u64)>>(&mut self, items: I) {
                let as_range: fn($keys) -> _ = $as_range;
                let items = items.into_iter().map(|(keys, value)| (as_range(keys), value));
                self.try_extend(items).unwrap_or_else(|error| error.abort());
            }
        }

        /// Sets the values, in order, as [`RangeMap::try_extend`] does. Calls
        /// [`handle_alloc_error`](std::alloc::handle_alloc_error) if an allocation fails.
        ///
        $(#[doc = $refs])*
        impl<'a> Extend<&'a ($keys, u64)> for RangeMap {
            fn extend<I: IntoIterator<Item = &'a ($keys, u64)>>(&mut self, items: I) {
                self.extend(items.into_iter().cloned());
            }
        }

        /// Sets the values, in order, as [`RangeMap::try_extend`] does. Calls
        /// [`handle_alloc_error`](std::alloc::handle_alloc_error) if an allocation fails.
        ///
        $(#[doc = $pairs])*
        impl<'a> Extend<(&'a $keys, &'a u64)> for RangeMap {
            fn extend<I: IntoIterator<Item = (&'a $keys, &'a u64)>>(&mut self, items: I) {
                self.extend(items.into_iter().map(|(keys, value)| (keys.clone(), *value)));
            }
        }

        /// A later value replaces an earlier one. Calls
        /// [`handle_alloc_error`](std::alloc::handle_alloc_error) if an allocation fails. O(k log k) for
        /// k items, or O(k) if they ascend.
        ///
        $(#[doc = $from_iter])*
        impl FromIterator<($keys, u64)> for RangeMap {
            fn from_iter<I: IntoIterator<Item = ($keys, u64)>>(items: I) -> Self {
                let mut map = Self::new();
                map.extend(items);
                map
            }
        }

        /// A later value replaces an earlier one. Calls
        /// [`handle_alloc_error`](std::alloc::handle_alloc_error) if an allocation fails. O(N log N), or
        /// O(N) if the items ascend.
        ///
        $(#[doc = $from])*
        impl<const N: usize> From<[($keys, u64); N]> for RangeMap {
            fn from(items: [($keys, u64); N]) -> Self {
                items.into_iter().collect()
            }
        }
    };
}

many!(
    RangeInclusive<i64>,
    as_range: |range| range,
    /// ```
    /// # use range_map::RangeMap;
    /// let mut map = RangeMap::new();
    /// map.extend([(10..=49, 1), (20..=29, 2)]);
    /// assert_eq!(map.to_string(), "(10..=19, 1), (20..=29, 2), (30..=49, 1)");
    /// ```
    refs:
    /// ```
    /// # use range_map::{Entry, RangeMap};
    /// let entries: Vec<Entry> = vec![(10..=49, 1), (20..=29, 2)];
    /// let mut map = RangeMap::new();
    /// map.extend(&entries);
    /// assert_eq!(map.to_string(), "(10..=19, 1), (20..=29, 2), (30..=49, 1)");
    /// ```
    pairs:
    /// ```
    /// # use range_map::RangeMap;
    /// let values = [1, 2];
    /// let mut map = RangeMap::new();
    /// map.extend([10..=49, 20..=29].iter().zip(&values));
    /// assert_eq!(map.to_string(), "(10..=19, 1), (20..=29, 2), (30..=49, 1)");
    /// ```
    from_iter:
    /// ```
    /// # use range_map::RangeMap;
    /// let map = RangeMap::from_iter([(10..=49, 1), (20..=29, 2)]);
    /// assert_eq!(map.to_string(), "(10..=19, 1), (20..=29, 2), (30..=49, 1)");
    /// ```
    from:
    /// ```
    /// # use range_map::RangeMap;
    /// let map = RangeMap::from([(10..=49, 1), (20..=29, 2)]);
    /// assert_eq!(map.to_string(), "(10..=19, 1), (20..=29, 2), (30..=49, 1)");
    /// ```
);

many!(
    Range<i64>,
    as_range: |range| range,
    /// ```
    /// # use range_map::RangeMap;
    /// let mut map = RangeMap::new();
    /// map.extend([(10..50, 1), (20..30, 2), (60..60, 3)]); // 60..60 has no key
    /// assert_eq!(map.to_string(), "(10..=19, 1), (20..=29, 2), (30..=49, 1)");
    /// ```
    refs:
    /// ```
    /// # use range_map::RangeMap;
    /// let ranges = vec![(10..50, 1), (20..30, 2)];
    /// let mut map = RangeMap::new();
    /// map.extend(&ranges);
    /// assert_eq!(map.to_string(), "(10..=19, 1), (20..=29, 2), (30..=49, 1)");
    /// ```
    pairs:
    /// The map of the crate `rangemap` iterates over such pairs.
    ///
    /// ```
    /// # use range_map::RangeMap;
    /// let values = [1, 2];
    /// let mut map = RangeMap::new();
    /// map.extend([10..50, 20..30].iter().zip(&values));
    /// assert_eq!(map.to_string(), "(10..=19, 1), (20..=29, 2), (30..=49, 1)");
    /// ```
    from_iter:
    /// ```
    /// # use range_map::RangeMap;
    /// let map: RangeMap = [(10..50, 1), (20..30, 2)].into_iter().collect();
    /// assert_eq!(map.to_string(), "(10..=19, 1), (20..=29, 2), (30..=49, 1)");
    /// ```
    from:
    /// ```
    /// # use range_map::RangeMap;
    /// let map = RangeMap::from([(10..50, 1), (20..30, 2)]);
    /// assert_eq!(map.to_string(), "(10..=19, 1), (20..=29, 2), (30..=49, 1)");
    /// ```
);

many!(
    i64,
    as_range: |key| key..=key,
    /// ```
    /// # use range_map::RangeMap;
    /// let mut map = RangeMap::new();
    /// map.extend([(10, 1), (11, 1), (12, 2)]);
    /// assert_eq!(map.to_string(), "(10..=11, 1), (12..=12, 2)");
    /// ```
    refs:
    /// ```
    /// # use range_map::RangeMap;
    /// let pairs = vec![(10, 1), (11, 1), (12, 2)];
    /// let mut map = RangeMap::new();
    /// map.extend(&pairs);
    /// assert_eq!(map.to_string(), "(10..=11, 1), (12..=12, 2)");
    /// ```
    pairs:
    /// ```
    /// # use range_map::RangeMap;
    /// # use std::collections::BTreeMap;
    /// let pairs = BTreeMap::from([(10, 1), (11, 1), (12, 2)]);
    /// let mut map = RangeMap::new();
    /// map.extend(&pairs);
    /// assert_eq!(map.to_string(), "(10..=11, 1), (12..=12, 2)");
    /// ```
    from_iter:
    /// ```
    /// # use range_map::RangeMap;
    /// let map: RangeMap = "aab".bytes().map(u64::from).zip(0..).map(|(v, k)| (k, v)).collect();
    /// assert_eq!(map.to_string(), "(0..=1, 97), (2..=2, 98)");
    /// ```
    from:
    /// ```
    /// # use range_map::RangeMap;
    /// let map = RangeMap::from([(10, 1), (11, 1), (12, 2)]);
    /// assert_eq!(map.to_string(), "(10..=11, 1), (12..=12, 2)");
    /// ```
);
