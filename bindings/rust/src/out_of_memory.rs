//! The error of a failed allocation.

use crate::ffi;
use std::alloc::{handle_alloc_error, Layout};
use std::error::Error;
use std::fmt;

/// An allocation failed. The map is unchanged, except by calls that say otherwise.
///
/// ```
/// use range_map::OutOfMemory;
///
/// assert_eq!(OutOfMemory.to_string(), "out of memory");
/// ```
#[derive(Clone, Copy, Debug, PartialEq, Eq, Hash)]
pub struct OutOfMemory;

impl OutOfMemory {
    /// Ends the program as a failed allocation of a standard collection does. The library does not
    /// say how much it asked for, so the layout is that of a pointer.
    pub(crate) fn abort(self) -> ! {
        handle_alloc_error(Layout::new::<ffi::Raw>())
    }
}

impl fmt::Display for OutOfMemory {
    fn fmt(&self, f: &mut fmt::Formatter<'_>) -> fmt::Result {
        f.write_str("out of memory")
    }
}

impl Error for OutOfMemory {}

/// The result for a status of the library. The callers rule out all statuses but these two.
pub(crate) fn checked(status: i32) -> Result<(), OutOfMemory> {
    debug_assert!(status == ffi::DONE || status == ffi::NO_MEMORY);
    if status == ffi::DONE {
        Ok(())
    } else {
        Err(OutOfMemory)
    }
}
