//! Changes of a map by another map, and maps of several.

use super::RangeMap;
use crate::ffi;
use crate::out_of_memory::{checked, OutOfMemory};
use std::mem;
use std::ptr;

/// Change by another map
impl RangeMap {
    /// Inserts the entries of `other`, ascending. A key that has a value in both maps gets that of
    /// `other`.
    ///
    /// May allocate. If an allocation fails, the map has a first part of the entries of `other`,
    /// perhaps none. O(n + m), or O(m log n) if m is at most n / 16.
    ///
    /// ```
    /// # use range_map::{OutOfMemory, RangeMap};
    /// # fn main() -> Result<(), OutOfMemory> {
    /// let mut map = RangeMap::from_iter([(10..=49, 1)]);
    /// map.extend_with(&RangeMap::from_iter([(40..=59, 2)]))?;
    /// assert_eq!(map.to_string(), "(10..=39, 1), (40..=59, 2)");
    /// # Ok(())
    /// # }
    /// ```
    pub fn extend_with(&mut self, other: &Self) -> Result<(), OutOfMemory> {
        self.change_by(other, ffi::range_map_extend_unchecked)
    }

    /// Moves all entries of `other` into this map, and leaves `other` empty. A key that has a value
    /// in both maps gets that of `other`.
    ///
    /// May allocate. If an allocation fails, this map has a first part of the entries of `other`,
    /// perhaps none, and `other` is unchanged. O(1) if this map is empty; otherwise O(n + m), or
    /// O(m log n) if m is at most n / 16.
    ///
    /// ```
    /// # use range_map::{OutOfMemory, RangeMap};
    /// # fn main() -> Result<(), OutOfMemory> {
    /// let mut map = RangeMap::from_iter([(10..=49, 1)]);
    /// let mut other = RangeMap::from_iter([(40..=59, 2)]);
    /// map.append(&mut other)?;
    /// assert_eq!(map.to_string(), "(10..=39, 1), (40..=59, 2)");
    /// assert!(other.is_empty());
    /// # Ok(())
    /// # }
    /// ```
    pub fn append(&mut self, other: &mut Self) -> Result<(), OutOfMemory> {
        if self.is_empty() {
            mem::swap(self, other);
        } else {
            self.extend_with(other)?;
        }
        other.clear();
        Ok(())
    }

    /// Keeps the keys that have a value in `other` too, with the value of `other`.
    ///
    /// May allocate; if an allocation fails, the map is unchanged. O(n + m) at most.
    ///
    /// ```
    /// # use range_map::{OutOfMemory, RangeMap};
    /// # fn main() -> Result<(), OutOfMemory> {
    /// let mut map = RangeMap::from_iter([(10..=49, 1)]);
    /// map.intersect_with(&RangeMap::from_iter([(40..=59, 2)]))?;
    /// assert_eq!(map.to_string(), "(40..=49, 2)");
    /// # Ok(())
    /// # }
    /// ```
    pub fn intersect_with(&mut self, other: &Self) -> Result<(), OutOfMemory> {
        self.change_by(other, ffi::range_map_intersect_unchecked)
    }

    /// Removes the keys that have a value in `other`.
    ///
    /// May allocate; if an allocation fails, the map is unchanged. O(n + m) at most.
    ///
    /// ```
    /// # use range_map::{OutOfMemory, RangeMap};
    /// # fn main() -> Result<(), OutOfMemory> {
    /// let mut map = RangeMap::from_iter([(10..=49, 1)]);
    /// map.subtract(&RangeMap::from_iter([(40..=59, 2)]))?;
    /// assert_eq!(map.to_string(), "(10..=39, 1)");
    /// # Ok(())
    /// # }
    /// ```
    pub fn subtract(&mut self, other: &Self) -> Result<(), OutOfMemory> {
        self.change_by(other, ffi::range_map_subtract_unchecked)
    }

    /// Returns the union of maps. A key that has a value in several maps gets that of the last of them.
    ///
    /// Returns the empty map if there are no maps. May allocate. O(s log k) for k maps with s entries in
    /// all.
    ///
    /// ```
    /// # use range_map::{OutOfMemory, RangeMap};
    /// # fn main() -> Result<(), OutOfMemory> {
    /// let maps = [RangeMap::from([(0..=9, 1)]), RangeMap::from([(5..=6, 2), (8..=20, 3)])];
    /// assert_eq!(RangeMap::union_of(&maps)?.to_string(), "(0..=4, 1), (5..=6, 2), (7..=7, 1), (8..=20, 3)");
    /// # Ok(())
    /// # }
    /// ```
    pub fn union_of<'a>(maps: impl IntoIterator<Item = &'a RangeMap>) -> Result<Self, OutOfMemory> {
        let mut list = Vec::new();
        for map in maps {
            list.try_reserve(1).map_err(|_| OutOfMemory)?;
            list.push(map);
        }
        Self::union_of_list(&list)
    }

    fn union_of_list(maps: &[&RangeMap]) -> Result<Self, OutOfMemory> {
        match maps {
            [] => Ok(Self::new()),
            [map] => map.try_clone(),
            [left, right] => *left | *right,
            _ => {
                let (lower, upper) = maps.split_at(maps.len() / 2);
                Self::union_of_list(lower)? | Self::union_of_list(upper)?
            }
        }
    }

    fn change_by(&mut self, other: &Self, change: ffi::Change) -> Result<(), OutOfMemory> {
        // SAFETY: the maps are different, because this one is borrowed exclusively.
        checked(unsafe { change(&mut self.raw, &mut other.handle()) })
    }

    /// The result of a call for two different maps.
    pub(crate) fn combined(
        &self,
        other: &Self,
        combine: ffi::Combine,
    ) -> Result<Self, OutOfMemory> {
        debug_assert!(!ptr::eq(self, other));
        let mut out = Self::new();
        // SAFETY: the maps are different.
        checked(unsafe { combine(&mut self.handle(), &mut other.handle(), out.raw()) })?;
        Ok(out)
    }
}
