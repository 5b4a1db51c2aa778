//! The functions of the library, as `range_map.h` declares them.
//!
//! Every function requires:
//! - no pointer is null;
//! - all maps of a call are different, and none is a copy of the handle of another one;
//! - the arrays of a call have the lengths that follow them, which are equal and not 0.
//!
//! A map that a call does not change is not written to, and neither is its memory.

use std::ffi::c_void;

/// `struct range_map`: one word, and null for the empty map.
#[repr(C)]
pub(crate) struct Raw {
    pub(crate) at: *mut c_void,
}

pub(crate) const DONE: i32 = 0;
pub(crate) const NO_MEMORY: i32 = 1;
pub(crate) const TAKEN: i32 = 3;

/// Makes a map of two others.
pub(crate) type Combine = unsafe extern "C" fn(*mut Raw, *mut Raw, *mut Raw) -> i32;

/// Changes a map by another one.
pub(crate) type Change = unsafe extern "C" fn(*mut Raw, *mut Raw) -> i32;

/// Finds an entry of a map.
pub(crate) type Find = unsafe extern "C" fn(
    map: *mut Raw,
    key: i64,
    lo: *mut i64,
    hi: *mut i64,
    value: *mut u64,
) -> bool;

/// Writes entries into three arrays, from a key on, and returns how many.
pub(crate) type Read = unsafe extern "C" fn(
    map: *mut Raw,
    from: i64,
    lo: *mut i64,
    lo_length: usize,
    hi: *mut i64,
    hi_length: usize,
    value: *mut u64,
    value_length: usize,
) -> u64;

/// Finds a row of a table.
pub(crate) type FindRow = unsafe extern "C" fn(
    lo: *const i64,
    lo_length: usize,
    hi: *const i64,
    hi_length: usize,
    value: *const u64,
    value_length: usize,
    key: i64,
    start: *mut i64,
    end: *mut i64,
    found: *mut u64,
) -> bool;

extern "C" {
    pub(crate) fn range_map_version() -> u32;
    pub(crate) fn range_map_free_unchecked(map: *mut Raw);
    pub(crate) fn range_map_clear(map: *mut Raw);

    pub(crate) fn range_map_paint_unchecked(
        map: *mut Raw,
        lo: i64,
        hi: i64,
        value: u64,
        changed: *mut bool,
    ) -> i32;
    pub(crate) fn range_map_fill_unchecked(
        map: *mut Raw,
        lo: i64,
        hi: i64,
        value: u64,
        changed: *mut bool,
    ) -> i32;
    pub(crate) fn range_map_fill_if_free(map: *mut Raw, lo: i64, hi: i64, value: u64) -> i32;
    pub(crate) fn range_map_insert_unchecked(
        map: *mut Raw,
        key: i64,
        value: u64,
        had: *mut bool,
        old: *mut u64,
    ) -> i32;
    pub(crate) fn range_map_combine_unchecked(
        map: *mut Raw,
        lo: i64,
        hi: i64,
        value: u64,
        op: u32,
        place: u32,
    ) -> i32;
    pub(crate) fn range_map_remove_range_unchecked(
        map: *mut Raw,
        lo: i64,
        hi: i64,
        changed: *mut bool,
    ) -> i32;
    pub(crate) fn range_map_remove_unchecked(
        map: *mut Raw,
        key: i64,
        had: *mut bool,
        old: *mut u64,
    ) -> i32;
    pub(crate) fn range_map_pop_first_unchecked(
        map: *mut Raw,
        had: *mut bool,
        key: *mut i64,
        value: *mut u64,
    ) -> i32;
    pub(crate) fn range_map_pop_last_unchecked(
        map: *mut Raw,
        had: *mut bool,
        key: *mut i64,
        value: *mut u64,
    ) -> i32;
    pub(crate) fn range_map_paint_many_unchecked(
        map: *mut Raw,
        lo: *const i64,
        lo_length: usize,
        hi: *const i64,
        hi_length: usize,
        value: *const u64,
        value_length: usize,
    ) -> i32;

    pub(crate) fn range_map_is_empty_unchecked(map: *mut Raw) -> bool;
    pub(crate) fn range_map_get_unchecked(map: *mut Raw, key: i64, value: *mut u64) -> bool;
    pub(crate) fn range_map_entry_or_gap_at_unchecked(
        map: *mut Raw,
        key: i64,
        lo: *mut i64,
        hi: *mut i64,
        value: *mut u64,
    ) -> bool;
    pub(crate) fn range_map_next_unchecked(
        map: *mut Raw,
        key: i64,
        lo: *mut i64,
        hi: *mut i64,
        value: *mut u64,
    ) -> bool;
    pub(crate) fn range_map_previous_unchecked(
        map: *mut Raw,
        key: i64,
        lo: *mut i64,
        hi: *mut i64,
        value: *mut u64,
    ) -> bool;
    pub(crate) fn range_map_first_unchecked(map: *mut Raw, key: *mut i64, value: *mut u64) -> bool;
    pub(crate) fn range_map_last_unchecked(map: *mut Raw, key: *mut i64, value: *mut u64) -> bool;
    pub(crate) fn range_map_any_unchecked(map: *mut Raw, lo: i64, hi: i64) -> bool;
    pub(crate) fn range_map_all_unchecked(map: *mut Raw, lo: i64, hi: i64) -> bool;
    pub(crate) fn range_map_find_gap_unchecked(
        map: *mut Raw,
        from: i64,
        to: i64,
        length: u64,
        lo: *mut i64,
    ) -> bool;
    pub(crate) fn range_map_find_last_gap_unchecked(
        map: *mut Raw,
        from: i64,
        to: i64,
        length: u64,
        lo: *mut i64,
    ) -> bool;
    pub(crate) fn range_map_count_unchecked(map: *mut Raw, low: *mut u64, high: *mut u64);
    pub(crate) fn range_map_count_within_unchecked(
        map: *mut Raw,
        lo: i64,
        hi: i64,
        low: *mut u64,
        high: *mut u64,
    );
    pub(crate) fn range_map_entries_unchecked(map: *mut Raw) -> u64;
    pub(crate) fn range_map_entries_into_unchecked(
        map: *mut Raw,
        from: i64,
        lo: *mut i64,
        lo_length: usize,
        hi: *mut i64,
        hi_length: usize,
        value: *mut u64,
        value_length: usize,
    ) -> u64;
    pub(crate) fn range_map_entries_back_into_unchecked(
        map: *mut Raw,
        from: i64,
        lo: *mut i64,
        lo_length: usize,
        hi: *mut i64,
        hi_length: usize,
        value: *mut u64,
        value_length: usize,
    ) -> u64;

    pub(crate) fn range_map_copy_unchecked(map: *mut Raw, out: *mut Raw) -> i32;
    pub(crate) fn range_map_union_unchecked(a: *mut Raw, b: *mut Raw, out: *mut Raw) -> i32;
    pub(crate) fn range_map_intersection_unchecked(a: *mut Raw, b: *mut Raw, out: *mut Raw) -> i32;
    pub(crate) fn range_map_difference_unchecked(a: *mut Raw, b: *mut Raw, out: *mut Raw) -> i32;
    pub(crate) fn range_map_symmetric_difference_unchecked(
        a: *mut Raw,
        b: *mut Raw,
        out: *mut Raw,
    ) -> i32;
    pub(crate) fn range_map_complement_unchecked(a: *mut Raw, value: u64, out: *mut Raw) -> i32;
    pub(crate) fn range_map_split_off_unchecked(a: *mut Raw, key: i64, out: *mut Raw) -> i32;
    pub(crate) fn range_map_extend_unchecked(a: *mut Raw, b: *mut Raw) -> i32;
    pub(crate) fn range_map_intersect_unchecked(a: *mut Raw, b: *mut Raw) -> i32;
    pub(crate) fn range_map_subtract_unchecked(a: *mut Raw, b: *mut Raw) -> i32;
    pub(crate) fn range_map_equal_unchecked(a: *mut Raw, b: *mut Raw) -> bool;
    pub(crate) fn range_map_compare_unchecked(a: *mut Raw, b: *mut Raw) -> i32;

    pub(crate) fn range_table_is_ordered_unchecked(
        lo: *const i64,
        lo_length: usize,
        hi: *const i64,
        hi_length: usize,
        value: *const u64,
        value_length: usize,
    ) -> bool;
    pub(crate) fn range_table_get_unchecked(
        lo: *const i64,
        lo_length: usize,
        hi: *const i64,
        hi_length: usize,
        value: *const u64,
        value_length: usize,
        key: i64,
        found: *mut u64,
    ) -> bool;
    pub(crate) fn range_table_entry_or_gap_at_unchecked(
        lo: *const i64,
        lo_length: usize,
        hi: *const i64,
        hi_length: usize,
        value: *const u64,
        value_length: usize,
        key: i64,
        start: *mut i64,
        end: *mut i64,
        found: *mut u64,
    ) -> bool;
    pub(crate) fn range_table_next_unchecked(
        lo: *const i64,
        lo_length: usize,
        hi: *const i64,
        hi_length: usize,
        value: *const u64,
        value_length: usize,
        key: i64,
        start: *mut i64,
        end: *mut i64,
        found: *mut u64,
    ) -> bool;
    pub(crate) fn range_table_previous_unchecked(
        lo: *const i64,
        lo_length: usize,
        hi: *const i64,
        hi_length: usize,
        value: *const u64,
        value_length: usize,
        key: i64,
        start: *mut i64,
        end: *mut i64,
        found: *mut u64,
    ) -> bool;
    pub(crate) fn range_table_count_within_unchecked(
        lo: *const i64,
        lo_length: usize,
        hi: *const i64,
        hi_length: usize,
        value: *const u64,
        value_length: usize,
        first: i64,
        last: i64,
        low: *mut u64,
        high: *mut u64,
    );
    pub(crate) fn range_map_from_table_unchecked(
        lo: *const i64,
        lo_length: usize,
        hi: *const i64,
        hi_length: usize,
        value: *const u64,
        value_length: usize,
        out: *mut Raw,
    ) -> i32;
}
