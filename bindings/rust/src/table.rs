//! Tables: entries in slices, for files, and for lookups without a map.

mod buffer;
mod look_up;

use crate::{ffi, Entry};
use std::error::Error;
use std::fmt;

pub use buffer::TableBuf;

/// A table in three slices: row i gives the keys `lo[i]` to `hi[i]` the value `value[i]`.
///
/// A table is a borrowed view. It looks up without a map and without an allocation, and the slices
/// may come from a mapped file. In the costs, n is the number of rows.
///
/// ```
/// use range_map::{InvalidTable, Table};
///
/// # fn main() -> Result<(), InvalidTable> {
/// let table = Table::new(&[10, 30], &[19, 39], &[1, 2])?;
/// assert_eq!(table.get(35), Some(2));
/// assert_eq!(table.range_or_gap_at(25), (20..=29, None));
/// # Ok(())
/// # }
/// ```
#[derive(Clone, Copy, Debug, PartialEq, Eq)]
pub struct Table<'a> {
    /// The slices are equally long, and their rows are in order.
    lo: &'a [i64],
    hi: &'a [i64],
    value: &'a [u64],
}

/// The slices of a table have different lengths, or its rows are not in order.
///
/// ```
/// use range_map::{InvalidTable, Table};
///
/// assert_eq!(Table::new(&[10, 19], &[19, 39], &[1, 2]), Err(InvalidTable)); // both rows have 19
/// let message = "the slices differ in length, or the rows are not in order";
/// assert_eq!(InvalidTable.to_string(), message);
/// ```
#[derive(Clone, Copy, Debug, PartialEq, Eq, Hash)]
pub struct InvalidTable;

impl fmt::Display for InvalidTable {
    fn fmt(&self, f: &mut fmt::Formatter<'_>) -> fmt::Result {
        f.write_str("the slices differ in length, or the rows are not in order")
    }
}

impl Error for InvalidTable {}

impl<'a> Table<'a> {
    /// Returns the table of three slices, after a check of its rows.
    ///
    /// Returns [`InvalidTable`] if the slices have different lengths, or the rows are not in order.
    /// Each range must have a key, and start above the end of the range before it. Adjacent rows may
    /// have equal values. Does not allocate. O(n).
    ///
    /// ```
    /// use range_map::{InvalidTable, Table};
    ///
    /// assert!(Table::new(&[10, 20], &[19, 29], &[1, 1]).is_ok());
    /// assert_eq!(Table::new(&[10, 20], &[19, 29], &[1]), Err(InvalidTable));
    /// assert_eq!(Table::new(&[20, 10], &[29, 19], &[1, 1]), Err(InvalidTable));
    /// ```
    pub fn new(lo: &'a [i64], hi: &'a [i64], value: &'a [u64]) -> Result<Self, InvalidTable> {
        let n = lo.len();
        if hi.len() != n || value.len() != n {
            return Err(InvalidTable);
        }
        // SAFETY: the slices have n elements each, and n is not 0.
        let is_ordered = n == 0
            || unsafe {
                ffi::range_table_is_ordered_unchecked(
                    lo.as_ptr(),
                    n,
                    hi.as_ptr(),
                    n,
                    value.as_ptr(),
                    n,
                )
            };
        if is_ordered {
            Ok(Table { lo, hi, value })
        } else {
            Err(InvalidTable)
        }
    }

    /// Returns the first keys of the rows. O(1).
    ///
    /// ```
    /// # use range_map::{InvalidTable, Table};
    /// # fn main() -> Result<(), InvalidTable> {
    /// let table = Table::new(&[10, 30], &[19, 39], &[1, 2])?;
    /// assert_eq!(table.lo(), [10, 30]);
    /// # Ok(())
    /// # }
    /// ```
    #[must_use]
    pub fn lo(&self) -> &'a [i64] {
        self.lo
    }

    /// Returns the last keys of the rows. O(1).
    ///
    /// ```
    /// # use range_map::{InvalidTable, Table};
    /// # fn main() -> Result<(), InvalidTable> {
    /// let table = Table::new(&[10, 30], &[19, 39], &[1, 2])?;
    /// assert_eq!(table.hi(), [19, 39]);
    /// # Ok(())
    /// # }
    /// ```
    #[must_use]
    pub fn hi(&self) -> &'a [i64] {
        self.hi
    }

    /// Returns the values of the rows. O(1).
    ///
    /// ```
    /// # use range_map::{InvalidTable, Table};
    /// # fn main() -> Result<(), InvalidTable> {
    /// let table = Table::new(&[10, 30], &[19, 39], &[1, 2])?;
    /// assert_eq!(table.value(), [1, 2]);
    /// # Ok(())
    /// # }
    /// ```
    #[must_use]
    pub fn value(&self) -> &'a [u64] {
        self.value
    }

    /// Returns the number of rows. O(1).
    ///
    /// ```
    /// # use range_map::{InvalidTable, Table};
    /// # fn main() -> Result<(), InvalidTable> {
    /// assert_eq!(Table::new(&[10, 30], &[19, 39], &[1, 2])?.ranges_len(), 2);
    /// # Ok(())
    /// # }
    /// ```
    #[must_use]
    pub fn ranges_len(&self) -> usize {
        self.lo.len()
    }

    /// Returns an iterator over the rows, ascending, from both ends. O(1) for each row.
    ///
    /// ```
    /// # use range_map::{InvalidTable, Table};
    /// # fn main() -> Result<(), InvalidTable> {
    /// let table = Table::new(&[10, 30], &[19, 39], &[1, 2])?;
    /// assert!(table.range_values().eq([(10..=19, 1), (30..=39, 2)]));
    /// # Ok(())
    /// # }
    /// ```
    pub fn range_values(&self) -> impl DoubleEndedIterator<Item = Entry> + ExactSizeIterator + 'a {
        let Table { lo, hi, value } = *self;
        (0..lo.len()).map(move |i| (lo[i]..=hi[i], value[i]))
    }
}
