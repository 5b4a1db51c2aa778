//! What the standard library compares, copies, hashes and prints.

use crate::{ffi, RangeMap};
use std::cmp::Ordering;
use std::fmt;
use std::hash::{Hash, Hasher};
use std::ptr;

/// The empty map. Does not allocate. O(1).
impl Default for RangeMap {
    fn default() -> Self {
        Self::new()
    }
}

/// Allocates, and calls [`handle_alloc_error`](std::alloc::handle_alloc_error) if an allocation
/// fails. O(n).
impl Clone for RangeMap {
    fn clone(&self) -> Self {
        self.try_clone().unwrap_or_else(|error| error.abort())
    }
}

/// Maps are equal if the same keys have the same values. Does not allocate. O(n), or O(1) if the
/// numbers of entries differ.
///
/// ```
/// # use range_map::RangeMap;
/// let map = RangeMap::from_iter([(10..=49, 1)]);
/// assert_eq!(map, RangeMap::from_iter([(10..=19, 1), (20..=49, 1)]));
/// assert_ne!(map, RangeMap::from_iter([(10..=49, 2)]));
/// ```
impl PartialEq for RangeMap {
    fn eq(&self, other: &Self) -> bool {
        // SAFETY: the maps of the call are different.
        ptr::eq(self, other)
            || unsafe { ffi::range_map_equal_unchecked(&mut self.handle(), &mut other.handle()) }
    }
}

impl Eq for RangeMap {}

/// Maps are ordered as their lists of (key, value) pairs: by key, then by value, and a list is
/// greater than each of its prefixes. This is the order of a `BTreeMap` with the same keys and
/// values. Does not allocate. O(n + m).
///
/// ```
/// # use range_map::RangeMap;
/// let map = RangeMap::from_iter([(10..=49, 1)]);
/// assert!(map > RangeMap::from_iter([(10..=20, 1)])); // a prefix
/// assert!(map < RangeMap::from_iter([(10..=20, 2)])); // at key 10, 1 is less than 2
/// assert!(map < RangeMap::from_iter([(11..=49, 1)])); // the key 10 is less than 11
/// ```
impl Ord for RangeMap {
    fn cmp(&self, other: &Self) -> Ordering {
        if ptr::eq(self, other) {
            return Ordering::Equal;
        }
        // SAFETY: the maps are different.
        let order =
            unsafe { ffi::range_map_compare_unchecked(&mut self.handle(), &mut other.handle()) };
        order.cmp(&0)
    }
}

/// As [`Ord`].
impl PartialOrd for RangeMap {
    fn partial_cmp(&self, other: &Self) -> Option<Ordering> {
        Some(self.cmp(other))
    }
}

/// Hashes the number of entries, and each entry. Needs no memory, as an [iterator](crate#memory).
/// O(n).
///
/// ```
/// # use range_map::RangeMap;
/// let maps = std::collections::HashSet::from([RangeMap::from_iter([(10..=49, 1)])]);
/// assert!(maps.contains(&RangeMap::from_iter([(10..=19, 1), (20..=49, 1)])));
/// ```
impl Hash for RangeMap {
    fn hash<H: Hasher>(&self, state: &mut H) {
        self.ranges_len().hash(state);
        for entry in self {
            entry.hash(state);
        }
    }
}

/// Writes `(lo..=hi, value)` for each entry, separated by a comma and a space. O(n).
///
/// ```
/// # use range_map::RangeMap;
/// let map = RangeMap::from_iter([(10..=19, 1), (20..=29, 2)]);
/// assert_eq!(map.to_string(), "(10..=19, 1), (20..=29, 2)");
/// ```
impl fmt::Display for RangeMap {
    fn fmt(&self, f: &mut fmt::Formatter<'_>) -> fmt::Result {
        let mut separator = "";
        for (range, value) in self {
            write!(f, "{}({:?}, {})", separator, range, value)?;
            separator = ", ";
        }
        Ok(())
    }
}

/// Writes the entries as those of a map of the standard library. O(n).
///
/// ```
/// # use range_map::RangeMap;
/// let map = RangeMap::from_iter([(10..=19, 1), (20..=29, 2)]);
/// assert_eq!(format!("{map:?}"), "{10..=19: 1, 20..=29: 2}");
/// ```
impl fmt::Debug for RangeMap {
    fn fmt(&self, f: &mut fmt::Formatter<'_>) -> fmt::Result {
        f.debug_map().entries(self).finish()
    }
}
