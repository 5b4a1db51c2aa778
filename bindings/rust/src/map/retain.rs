//! The entries that a closure accepts.

use super::RangeMap;
use crate::collect::Batch;
use crate::out_of_memory::OutOfMemory;
use std::ops::RangeInclusive;

impl RangeMap {
    /// Keeps the entries for which the closure returns `true`, and removes the others.
    ///
    /// Calls the closure once for each entry, ascending, before the map changes. If the closure panics,
    /// the map is unchanged.
    ///
    /// May allocate, for a list of the removed ranges; if an allocation fails, the map is unchanged.
    /// O(n).
    ///
    /// ```
    /// # use range_map::{OutOfMemory, RangeMap};
    /// # fn main() -> Result<(), OutOfMemory> {
    /// let mut map = RangeMap::from([(10..=19, 1), (20..=29, 2), (40..=49, 1)]);
    /// map.retain(|range, value| value == 2 || range.contains(&45))?;
    /// assert_eq!(map.to_string(), "(20..=29, 2), (40..=49, 1)");
    /// # Ok(())
    /// # }
    /// ```
    pub fn retain(
        &mut self,
        mut is_kept: impl FnMut(RangeInclusive<i64>, u64) -> bool,
    ) -> Result<(), OutOfMemory> {
        let mut removed = Batch::default();
        for (range, value) in &*self {
            let (lo, hi) = (*range.start(), *range.end());
            if !is_kept(range, value) {
                removed.push(lo, hi, 0)?;
            }
        }
        let mut other = RangeMap::new();
        removed.apply(&mut other)?;
        if other.is_empty() {
            return Ok(());
        }
        self.subtract(&other)
    }
}
