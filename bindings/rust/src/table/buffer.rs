//! A table that owns its rows, from a map and into a map.

use super::Table;
use crate::out_of_memory::{checked, OutOfMemory};
use crate::{ffi, RangeMap};

/// A table in three vectors. [`RangeMap::to_table`] returns it.
///
/// ```
/// # use range_map::{OutOfMemory, RangeMap};
/// # fn main() -> Result<(), OutOfMemory> {
/// let table = RangeMap::from_iter([(10..=19, 1), (30..=39, 2)]).to_table()?;
/// assert_eq!(table.as_table().get(35), Some(2));
/// # Ok(())
/// # }
/// ```
#[derive(Clone, Debug, Default, PartialEq, Eq)]
pub struct TableBuf {
    /// The vectors are equally long, and their rows are in order.
    lo: Vec<i64>,
    hi: Vec<i64>,
    value: Vec<u64>,
}

impl TableBuf {
    /// Returns the table as a borrowed view. O(1): the rows are known to be in order.
    ///
    /// ```
    /// # use range_map::{OutOfMemory, RangeMap};
    /// # fn main() -> Result<(), OutOfMemory> {
    /// let table = RangeMap::from_iter([(10..=19, 1)]).to_table()?;
    /// assert_eq!(table.as_table().ranges_len(), 1);
    /// # Ok(())
    /// # }
    /// ```
    #[must_use]
    pub fn as_table(&self) -> Table<'_> {
        Table {
            lo: &self.lo,
            hi: &self.hi,
            value: &self.value,
        }
    }

    /// Returns the vectors: the first keys, the last keys and the values of the rows. O(1).
    ///
    /// ```
    /// # use range_map::{OutOfMemory, RangeMap};
    /// # fn main() -> Result<(), OutOfMemory> {
    /// let table = RangeMap::from_iter([(10..=19, 1), (30..=39, 2)]).to_table()?;
    /// assert_eq!(table.into_vecs(), (vec![10, 30], vec![19, 39], vec![1, 2]));
    /// # Ok(())
    /// # }
    /// ```
    #[must_use]
    pub fn into_vecs(self) -> (Vec<i64>, Vec<i64>, Vec<u64>) {
        (self.lo, self.hi, self.value)
    }
}

/// Save and load
impl RangeMap {
    /// Returns the entries as a table. Allocates the vectors of the table. O(n).
    ///
    /// ```
    /// # use range_map::{OutOfMemory, RangeMap};
    /// # fn main() -> Result<(), OutOfMemory> {
    /// let map = RangeMap::from_iter([(10..=19, 1), (30..=39, 2)]);
    /// let table = map.to_table()?;
    /// assert_eq!(table.as_table().lo(), [10, 30]);
    /// assert_eq!(RangeMap::from_table(table.as_table())?, map);
    /// # Ok(())
    /// # }
    /// ```
    pub fn to_table(&self) -> Result<TableBuf, OutOfMemory> {
        let room = self.ranges_len();
        let mut table = TableBuf::default();
        if room == 0 {
            return Ok(table);
        }
        let TableBuf { lo, hi, value } = &mut table;
        lo.try_reserve_exact(room).map_err(|_| OutOfMemory)?;
        hi.try_reserve_exact(room).map_err(|_| OutOfMemory)?;
        value.try_reserve_exact(room).map_err(|_| OutOfMemory)?;
        // SAFETY: each vector has space for `room` elements, and `count` of them are initialized.
        unsafe {
            let count = ffi::range_map_entries_into_unchecked(
                &mut self.handle(),
                i64::MIN,
                lo.as_mut_ptr(),
                room,
                hi.as_mut_ptr(),
                room,
                value.as_mut_ptr(),
                room,
            ) as usize;
            debug_assert_eq!(count, room);
            lo.set_len(count);
            hi.set_len(count);
            value.set_len(count);
        }
        Ok(table)
    }

    /// Returns the map of a table. Adjacent rows with equal values become one entry. Allocates.
    /// O(n).
    ///
    /// ```
    /// # use range_map::{InvalidTable, RangeMap, Table};
    /// # fn main() -> Result<(), Box<dyn std::error::Error>> {
    /// let table = Table::new(&[10, 20], &[19, 29], &[1, 1])?;
    /// assert_eq!(RangeMap::from_table(table)?.to_string(), "(10..=29, 1)");
    /// # Ok(())
    /// # }
    /// ```
    pub fn from_table(table: Table<'_>) -> Result<Self, OutOfMemory> {
        let n = table.lo.len();
        let mut map = Self::new();
        if n != 0 {
            // SAFETY: the slices have n elements each, and n is not 0.
            checked(unsafe {
                ffi::range_map_from_table_unchecked(
                    table.lo.as_ptr(),
                    n,
                    table.hi.as_ptr(),
                    n,
                    table.value.as_ptr(),
                    n,
                    map.raw(),
                )
            })?;
        }
        Ok(map)
    }
}
