//! The map, and what makes it. The modules `map::*` have its other methods.

mod change;
mod look_up;
mod merge;
mod relate;
mod retain;

use crate::ffi::{self, Raw};
use crate::out_of_memory::{checked, OutOfMemory};
use std::ptr;

/// A map from `i64` keys to `u64` values, stored as entries: ranges of keys with one value each.
///
/// The [crate documentation](crate) says what all methods have in common. [Threads](crate#threads)
/// says how threads use a map.
///
/// ```
/// use range_map::{OutOfMemory, RangeMap};
///
/// # fn main() -> Result<(), OutOfMemory> {
/// let mut map = RangeMap::new();
/// map.ranges_insert(10..=49, 1)?;
/// map.ranges_insert(20..=29, 2)?;
/// for (range, value) in &map {
///     println!("{range:?}: {value}"); // 10..=19: 1, 20..=29: 2, 30..=49: 1
/// }
/// # Ok(())
/// # }
/// ```
pub struct RangeMap {
    /// No other map has this handle. Only the copies that `handle` makes for one call are equal.
    raw: Raw,
}

// SAFETY: The struct of the library is `Send`, which is proved:
// crates/range_map_c/proofs/handle/RangeMap/TheSendSync/Send.antt. A thread that gets it may change
// and free its map, if the calls of the two threads are ordered. Safe Rust moves no value without
// such an order. `Raw` is that struct, and no other `RangeMap` has its pointer. `Raw` is not `Send` by
// itself, because its pointer is not.
unsafe impl Send for RangeMap {}

// SAFETY: That several threads may look up in one map is tested, not proved. The header allows it, and
// allows threads to read a map as a constant operand, as long as no call changes the map meanwhile.
// The calls that change or free a map need `&mut self` or the map itself. So none of them runs while
// a thread has a `&RangeMap`.
//
// This holds for callers that do what the header does: copy the handle, which is one word, to
// the stack, and pass the address of the copy. A look-up may write to the struct at that address. It
// does not write to the memory of the map. `handle` makes the copy, and every method with `&self`
// passes the address of such a copy. So these methods only read `self.raw`.
unsafe impl Sync for RangeMap {}

/// Make and free
impl RangeMap {
    /// Returns the empty map. Does not allocate. O(1).
    ///
    /// ```
    /// use range_map::RangeMap;
    ///
    /// static NONE: RangeMap = RangeMap::new();
    /// assert!(NONE.is_empty());
    /// ```
    #[must_use]
    pub const fn new() -> Self {
        let raw = Raw {
            at: ptr::null_mut(),
        };
        RangeMap { raw }
    }

    /// A copy of the handle, for one call that only reads the map.
    pub(crate) fn handle(&self) -> Raw {
        Raw { at: self.raw.at }
    }

    /// The handle itself, for calls that change the map.
    pub(crate) fn raw(&mut self) -> &mut Raw {
        &mut self.raw
    }

    /// Returns a copy of the map. Allocates. O(n).
    ///
    /// ```
    /// # use range_map::{OutOfMemory, RangeMap};
    /// # fn main() -> Result<(), OutOfMemory> {
    /// let map = RangeMap::from_iter([(10..=49, 1)]);
    /// let mut copy = map.try_clone()?;
    /// copy.remove(20)?;
    /// assert_eq!((map.len(), copy.len()), (40, 39));
    /// # Ok(())
    /// # }
    /// ```
    pub fn try_clone(&self) -> Result<Self, OutOfMemory> {
        let mut copy = Self::new();
        // SAFETY: the maps are different.
        checked(unsafe { ffi::range_map_copy_unchecked(&mut self.handle(), copy.raw()) })?;
        Ok(copy)
    }
}

impl Drop for RangeMap {
    /// O(n).
    fn drop(&mut self) {
        // SAFETY: this map owns its memory, and nothing uses it later.
        unsafe { ffi::range_map_free_unchecked(&mut self.raw) }
    }
}

/// New maps
impl RangeMap {
    /// Returns the map that gives the value to every key that has none in this map. Allocates.
    /// O(n).
    ///
    /// ```
    /// # use range_map::{OutOfMemory, RangeMap};
    /// # fn main() -> Result<(), OutOfMemory> {
    /// let map = RangeMap::from_iter([(10..=49, 1)]);
    /// let complement = map.complement_with(2)?;
    /// assert!(complement.range_values().eq([(i64::MIN..=9, 2), (50..=i64::MAX, 2)]));
    /// # Ok(())
    /// # }
    /// ```
    pub fn complement_with(&self, value: u64) -> Result<Self, OutOfMemory> {
        let mut complement = Self::new();
        // SAFETY: the maps are different.
        checked(unsafe {
            ffi::range_map_complement_unchecked(&mut self.handle(), value, complement.raw())
        })?;
        Ok(complement)
    }
}
