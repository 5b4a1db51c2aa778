//! A map from `i64` keys to `u64` values, stored as entries: ranges of keys with one value each.
//!
//! ```
//! use range_map::{OutOfMemory, RangeMap};
//!
//! # fn main() -> Result<(), OutOfMemory> {
//! let mut map = RangeMap::new();
//! map.ranges_insert(10..=49, 1)?;
//! map.ranges_insert(20..30, 2)?; // a later value replaces an earlier one
//!
//! assert_eq!(map.get(25), Some(2));
//! assert_eq!(map.to_string(), "(10..=19, 1), (20..=29, 2), (30..=49, 1)");
//! assert!(map.gaps(0..=60).eq([0..=9, 50..=60]));
//! # Ok(())
//! # }
//! ```
//!
//! The crate calls the library `librange_map.a`. Every function of the library that it calls was
//! proved to do what its contract says. The Rust code of this crate was tested, not proved.
//!
//! The methods have the names of `RangeMapBlaze` in the crate `range-set-blaze` where they do the
//! same. Two things differ: a method that may allocate returns a [`Result`], and `iter`, `retain` and
//! `range` visit entries, not keys:
//!
//! | each | all | within a range |
//! |---|---|---|
//! | entry | [`iter`](RangeMap::iter), [`range_values`](RangeMap::range_values) | whole: [`overlapping`](RangeMap::overlapping); cut off at its ends: [`range`](RangeMap::range) |
//! | range of keys, whatever their values | [`ranges`](RangeMap::ranges) | |
//! | range without a value | `gaps(..)` | [`gaps`](RangeMap::gaps) |
//! | key | [`keys`](RangeMap::keys) | |
//! | key and its value | [`key_values`](RangeMap::key_values) | |
//! | value | of entries: [`values_by_range`](RangeMap::values_by_range); of keys: [`values_by_key`](RangeMap::values_by_key) | |
//!
//! These calls of other maps have another name here:
//!
//! | [`BTreeMap`](std::collections::BTreeMap) | `rangemap` | here |
//! |---|---|---|
//! | | `insert(range, value)` | [`ranges_insert`](RangeMap::ranges_insert) |
//! | `entry(key).or_insert(value)` | | `ranges_insert_absent(key..=key, value)` |
//! | | `remove(range)` | [`ranges_remove`](RangeMap::ranges_remove) |
//! | `get_key_value` | `get_key_value` | [`range_at`](RangeMap::range_at) |
//! | | `overlaps` | [`has_any`](RangeMap::has_any) |
//! | `iter` | | [`key_values`](RangeMap::key_values) |
//! | `values` | | [`values_by_key`](RangeMap::values_by_key) |
//! | `len` of type `usize` | | [`len`](RangeMap::len) of type `u128` |
//!
//! # Entries
//!
//! An entry is a range of keys and their value. Adjacent ranges with equal values are one entry, so
//! a map never has more entries than it needs. In the costs of this documentation, n is the number
//! of entries of the map, and m that of the other map.
//!
//! # Ranges
//!
//! A method that takes a range accepts all forms of [`RangeBounds<i64>`](std::ops::RangeBounds), as
//! `2..5`, `2..=4` and `..`. A range without a key is not an error: nothing happens to its keys.
//! `5..5` and `6..=2` are such ranges. So is a [`RangeInclusive`] that was iterated to its
//! end:
//!
//! ```
//! # use range_map::{OutOfMemory, RangeMap};
//! # fn main() -> Result<(), OutOfMemory> {
//! let mut map = RangeMap::new();
//! let mut range = 1..=3;
//! assert_eq!(range.by_ref().count(), 3);
//! map.ranges_insert(range, 7)?;
//! assert!(map.is_empty());
//! # Ok(())
//! # }
//! ```
//!
//! # Memory
//!
//! A call that may allocate returns `Result<_, OutOfMemory>`. So do the operators `|`, `&`, `-` and
//! `^`. If an allocation fails, the map is unchanged, except by four calls. [`RangeMap::extend_with`],
//! [`RangeMap::append`] and [`RangeMap::try_extend`] take many entries, and may have applied a first
//! part of them. [`RangeMap::combine`] may have changed a first part of its range. A change that has no
//! effect does not allocate, except by `try_extend`, which collects its input in batches first.
//!
//! Some traits of the standard library cannot return an error. Their implementations call
//! [`handle_alloc_error`](std::alloc::handle_alloc_error) if an allocation fails, as the collections
//! of the standard library do:
//!
//! | call | call that returns a `Result` |
//! |---|---|
//! | `clone` | [`RangeMap::try_clone`] |
//! | `collect`, `from_iter`, `from`, `extend` | [`RangeMap::try_extend`] |
//! | <code>a \|= b</code> | [`RangeMap::extend_with`] |
//! | `a &= b` | [`RangeMap::intersect_with`] |
//! | `a -= b` | [`RangeMap::subtract`] |
//! | `a ^= b` | `a = (&a ^ &b)?` |
//!
//! An iterator needs no memory. Each of its ends looks up two entries. Then it allocates one block of
//! 768 bytes, to read up to 32 entries in one call of the library. If this allocation fails, it looks
//! up each entry, which is slower: O(log n) for an entry.
//!
//! The library allocates with the `malloc` of C, so a `#[global_allocator]` does not see its
//! requests. It sees those for the blocks of iterators and the batches of `try_extend`.
//!
//! # Threads
//!
//! All types of this crate are [`Send`] and [`Sync`].
//!
//! A [`RangeMap`] is [`Send`]: a thread may change or drop a map that another thread made. This was
//! proved for the struct of the library that a map is. A thread can take a map, and return it:
//!
//! ```
//! # use range_map::RangeMap;
//! # use std::thread;
//! let mut map = RangeMap::from_iter([(10..=19, 1)]);
//! let other = thread::spawn(move || map.ranges_insert(15..=24, 2).map(|_| map));
//! assert_eq!(other.join().unwrap().unwrap().to_string(), "(10..=14, 1), (15..=24, 2)");
//! ```
//!
//! Several threads can change one map, one after another, under a lock. [`RangeMap::new`] is `const`, so
//! that a `static` may hold the lock:
//!
//! ```
//! # use range_map::RangeMap;
//! # use std::sync::Mutex;
//! # use std::thread;
//! static MAP: Mutex<RangeMap> = Mutex::new(RangeMap::new());
//! thread::scope(|scope| {
//!     for value in 1..=4 {
//!         scope.spawn(move || MAP.lock().unwrap().insert(value as i64, value));
//!     }
//! });
//! assert_eq!(MAP.lock().unwrap().to_string(), "(1..=1, 1), (2..=2, 2), (3..=3, 3), (4..=4, 4)");
//! ```
//!
//! A map is [`Sync`]: several threads may look up in one map at the same time, while none changes it.
//! This was tested, not proved. The threads of a [`thread::scope`](std::thread::scope) can borrow a map:
//!
//! ```
//! # use range_map::RangeMap;
//! # use std::thread;
//! let map = RangeMap::from_iter([(10..=19, 1)]);
//! thread::scope(|scope| {
//!     scope.spawn(|| assert_eq!(map.get(12), Some(1)));
//!     scope.spawn(|| assert_eq!(map.get(20), None));
//! });
//! ```
//!
//! Do not call the library from a signal handler, or from a forked child of a process with threads.
//!
//! # No `Index`, no `!`
//!
//! [`Index`](std::ops::Index) returns a reference to the value, but the library returns a copy of
//! it. Call [`RangeMap::get`] instead of writing `map[key]`.
//!
//! [`Not`](std::ops::Not) would be the map of the keys without a value, but a map needs a value for
//! them. [`RangeMap::complement_with`] takes that value. [`RangeMap::gaps`] returns these keys alone.
//!
//! # Build
//!
//! The build script of this crate links `librange_map.a`, which is for x86-64 Linux with glibc. It
//! rejects any other target, and an archive for another processor. It uses the first of these folders:
//!
//! 1. the folder that the environment variable `RANGE_MAP_LIB_DIR` names, as an absolute path;
//! 2. `../out` beside the crate, where `bindings/build.sh` of the repository puts the library;
//! 3. the folder that `pkg-config --variable=libdir range_map` prints.

#![deny(missing_docs)]
#![warn(unsafe_op_in_unsafe_fn)]

mod bounds;
mod collect;
mod combine;
mod ffi;
mod iter;
mod map;
mod operators;
mod out_of_memory;
mod table;
mod traits;

/// The example of README.md is tested with those of this documentation.
#[cfg(doctest)]
#[doc = include_str!("../README.md")]
struct Readme;

use std::ops::RangeInclusive;

pub use combine::{Op, Place};
pub use iter::{
    Gaps, IntoRangeValues, KeyValues, Keys, Overlapping, Pieces, RangeValues, Ranges, ValuesByKey,
    ValuesByRange,
};
pub use map::RangeMap;
pub use out_of_memory::OutOfMemory;
pub use table::{InvalidTable, Table, TableBuf};

/// A range of keys, and the value of each of them.
///
/// ```
/// let entry: range_map::Entry = (10..=19, 1);
/// assert_eq!(range_map::RangeMap::from_iter([entry]).len(), 10);
/// ```
pub type Entry = (RangeInclusive<i64>, u64);

/// Returns the version of the library, as 10,000 * major + 100 * minor + patch. O(1).
///
/// ```
/// assert!(range_map::library_version() >= 100); // 0.1.0
/// ```
pub fn library_version() -> u32 {
    // SAFETY: the function has no conditions.
    unsafe { ffi::range_map_version() }
}
