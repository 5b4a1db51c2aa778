//! The operators for two maps.

use crate::{ffi, OutOfMemory, RangeMap};
use std::ops::{BitAnd, BitAndAssign, BitOr, BitOrAssign, BitXor, BitXorAssign, Sub, SubAssign};
use std::ptr;

impl RangeMap {
    /// Replaces the map by its symmetric difference with `other`.
    fn toggle(&mut self, other: &Self) -> Result<(), OutOfMemory> {
        if !other.is_empty() {
            *self = (&*self ^ other)?;
        }
        Ok(())
    }
}

/// Implements an operator for owned and borrowed maps, and its assignment.
macro_rules! operator {
    (
        $(#[doc = $doc:literal])*
        example: $(#[doc = $example:literal])*
        $operator:ident::$method:ident,
        $assignment:ident::$assign:ident,
        both: $combine:path,
        same: $same:expr,
        in_place: $in_place:path
    ) => {
        $(#[doc = $doc])*
        $(#[doc = $example])*
        impl $operator<&RangeMap> for &RangeMap {
            type Output = Result<RangeMap, OutOfMemory>;

            fn $method(self, other: &RangeMap) -> Self::Output {
                if ptr::eq(self, other) {
                    let same: fn(&RangeMap) -> Self::Output = $same;
                    same(self)
                } else {
                    self.combined(other, $combine)
                }
            }
        }

        $(#[doc = $doc])*
        impl $operator<RangeMap> for &RangeMap {
            type Output = Result<RangeMap, OutOfMemory>;

            fn $method(self, other: RangeMap) -> Self::Output {
                self.combined(&other, $combine)
            }
        }

        $(#[doc = $doc])*
        ///
        /// The memory of the left map is used for the result where that is possible.
        impl $operator<&RangeMap> for RangeMap {
            type Output = Result<RangeMap, OutOfMemory>;

            fn $method(mut self, other: &RangeMap) -> Self::Output {
                $in_place(&mut self, other)?;
                Ok(self)
            }
        }

        $(#[doc = $doc])*
        ///
        /// The memory of the left map is used for the result where that is possible.
        impl $operator<RangeMap> for RangeMap {
            type Output = Result<RangeMap, OutOfMemory>;

            fn $method(mut self, other: RangeMap) -> Self::Output {
                $in_place(&mut self, &other)?;
                Ok(self)
            }
        }

        $(#[doc = $doc])*
        ///
        /// The left map becomes the result. Calls
        /// [`handle_alloc_error`](std::alloc::handle_alloc_error) if an allocation fails.
        impl $assignment<&RangeMap> for RangeMap {
            fn $assign(&mut self, other: &RangeMap) {
                $in_place(self, other).unwrap_or_else(|error| error.abort());
            }
        }

        $(#[doc = $doc])*
        ///
        /// The left map becomes the result. Calls
        /// [`handle_alloc_error`](std::alloc::handle_alloc_error) if an allocation fails.
        impl $assignment<RangeMap> for RangeMap {
            fn $assign(&mut self, other: RangeMap) {
                $in_place(self, &other).unwrap_or_else(|error| error.abort());
            }
        }
    };
}

operator!(
    /// Union: the keys of both maps, with the value of the right map where both have one.
    ///
    /// O(n + m). If m is at most n / 16, O(m log n) for an owned left map, and a copy more for a
    /// borrowed one.
    example:
    ///
    /// ```
    /// # use range_map::{OutOfMemory, RangeMap};
    /// # fn main() -> Result<(), OutOfMemory> {
    /// let mut a = RangeMap::from_iter([(10..=49, 1)]);
    /// let b = RangeMap::from_iter([(40..=59, 2)]);
    /// assert_eq!((&a | &b)?.to_string(), "(10..=39, 1), (40..=59, 2)");
    /// a |= b;
    /// assert_eq!(a.to_string(), "(10..=39, 1), (40..=59, 2)");
    /// # Ok(())
    /// # }
    /// ```
    BitOr::bitor,
    BitOrAssign::bitor_assign,
    both: ffi::range_map_union_unchecked,
    same: RangeMap::try_clone,
    in_place: RangeMap::extend_with
);

operator!(
    /// Intersection: the keys that have a value in both maps, with the value of the right map.
    /// O(n + m) at most.
    example:
    ///
    /// ```
    /// # use range_map::{OutOfMemory, RangeMap};
    /// # fn main() -> Result<(), OutOfMemory> {
    /// let mut a = RangeMap::from_iter([(10..=49, 1)]);
    /// let b = RangeMap::from_iter([(40..=59, 2)]);
    /// assert_eq!((&a & &b)?.to_string(), "(40..=49, 2)");
    /// a &= b;
    /// assert_eq!(a.to_string(), "(40..=49, 2)");
    /// # Ok(())
    /// # }
    /// ```
    BitAnd::bitand,
    BitAndAssign::bitand_assign,
    both: ffi::range_map_intersection_unchecked,
    same: RangeMap::try_clone,
    in_place: RangeMap::intersect_with
);

operator!(
    /// Difference: the keys of the left map that have no value in the right map, with their values.
    /// O(n + m) at most.
    example:
    ///
    /// ```
    /// # use range_map::{OutOfMemory, RangeMap};
    /// # fn main() -> Result<(), OutOfMemory> {
    /// let mut a = RangeMap::from_iter([(10..=49, 1)]);
    /// let b = RangeMap::from_iter([(40..=59, 2)]);
    /// assert_eq!((&a - &b)?.to_string(), "(10..=39, 1)");
    /// a -= b;
    /// assert_eq!(a.to_string(), "(10..=39, 1)");
    /// # Ok(())
    /// # }
    /// ```
    Sub::sub,
    SubAssign::sub_assign,
    both: ffi::range_map_difference_unchecked,
    same: |_| Ok(RangeMap::new()),
    in_place: RangeMap::subtract
);

operator!(
    /// Symmetric difference: the keys that have a value in exactly one of the maps, with that
    /// value. O(n + m) at most.
    example:
    ///
    /// ```
    /// # use range_map::{OutOfMemory, RangeMap};
    /// # fn main() -> Result<(), OutOfMemory> {
    /// let mut a = RangeMap::from_iter([(10..=49, 1)]);
    /// let b = RangeMap::from_iter([(40..=59, 2)]);
    /// assert_eq!((&a ^ &b)?.to_string(), "(10..=39, 1), (50..=59, 2)");
    /// a ^= b;
    /// assert_eq!(a.to_string(), "(10..=39, 1), (50..=59, 2)");
    /// # Ok(())
    /// # }
    /// ```
    BitXor::bitxor,
    BitXorAssign::bitxor_assign,
    both: ffi::range_map_symmetric_difference_unchecked,
    same: |_| Ok(RangeMap::new()),
    in_place: RangeMap::toggle
);
