//! The values of a range, combined with one value.

use crate::bounds::ends;
use crate::ffi;
use crate::out_of_memory::{checked, OutOfMemory};
use crate::RangeMap;
use std::ops::RangeBounds;

/// What [`RangeMap::combine`] makes of the value of a key and the given value.
///
/// ```
/// use range_map::{Op, OutOfMemory, Place, RangeMap};
///
/// # fn main() -> Result<(), OutOfMemory> {
/// let mut map = RangeMap::from_iter([(0..=9, 12)]);
/// map.combine(0..=9, 10, Op::BitXor, Place::Mapped)?;
/// assert_eq!(map.get(0), Some(6));
/// # Ok(())
/// # }
/// ```
#[derive(Clone, Copy, Debug, PartialEq, Eq, Hash)]
pub enum Op {
    /// The sum, modulo 2^64.
    Add = 0,
    /// The lesser of the two.
    Min = 1,
    /// The greater of the two.
    Max = 2,
    /// The bits that both have.
    BitAnd = 3,
    /// The bits that one of them has, or both.
    BitOr = 4,
    /// The bits that exactly one of them has.
    BitXor = 5,
    /// The value of the key.
    KeepOld = 6,
}

/// Which keys of its range [`RangeMap::combine`] changes.
///
/// ```
/// use range_map::{Op, OutOfMemory, Place, RangeMap};
///
/// # fn main() -> Result<(), OutOfMemory> {
/// let mut map = RangeMap::from_iter([(3..=4, 1)]);
/// map.combine(2..=5, 1, Op::Add, Place::Mapped)?;
/// assert_eq!(map.to_string(), "(3..=4, 2)");
/// map.combine(2..=5, 1, Op::Add, Place::All)?;
/// assert_eq!(map.to_string(), "(2..=2, 1), (3..=4, 3), (5..=5, 1)");
/// # Ok(())
/// # }
/// ```
#[derive(Clone, Copy, Debug, PartialEq, Eq, Hash)]
pub enum Place {
    /// All keys. One without a value gets the given value.
    All = 0,
    /// The keys that have a value.
    Mapped = 1,
}

/// Combine
impl RangeMap {
    /// Sets the value of each key in the range that has a value to `op` of that value and `value`.
    /// With [`Place::All`], a key without a value gets `value`; with [`Place::Mapped`], it stays
    /// without a value.
    ///
    /// May allocate; if an allocation fails, a first part of the entries and gaps in the range may be
    /// changed. O(log n), O(1) for each entry and each gap in the range, and O(log n) for each of them
    /// that changes.
    ///
    /// ```
    /// # use range_map::{Op, OutOfMemory, Place, RangeMap};
    /// # fn main() -> Result<(), OutOfMemory> {
    /// let mut depth = RangeMap::new();
    /// for booking in [9..12, 10..11, 10..17] {
    ///     depth.combine(booking, 1, Op::Add, Place::All)?;
    /// }
    /// assert_eq!(depth.to_string(), "(9..=9, 1), (10..=10, 3), (11..=11, 2), (12..=16, 1)");
    /// # Ok(())
    /// # }
    /// ```
    pub fn combine(
        &mut self,
        range: impl RangeBounds<i64>,
        value: u64,
        op: Op,
        place: Place,
    ) -> Result<(), OutOfMemory> {
        let (lo, hi) = match ends(range) {
            Some(ends) => ends,
            None => return Ok(()),
        };
        // SAFETY: the pointer is valid.
        checked(unsafe {
            ffi::range_map_combine_unchecked(self.raw(), lo, hi, value, op as u32, place as u32)
        })
    }
}
