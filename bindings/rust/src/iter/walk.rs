//! A walk over the entries of a map from both ends. Each end looks up its first entries one by one.
//! It reads later entries in blocks, several in one call of the library.

use crate::{ffi, RangeMap};
use std::alloc::{alloc, Layout};
use std::mem::MaybeUninit;
use std::ptr::addr_of_mut;

/// How many entries an end looks up one by one, before it allocates a block.
const SINGLE_LOOKUPS: u8 = 2;
/// How many entries the first block has, for iterations that are short.
const FIRST_ROOM: usize = 16;
/// How many entries each later block has.
const ROOM: usize = 32;

/// An entry: first key, last key, value.
pub(super) type Row = (i64, i64, u64);

/// The functions of the library for one end of a walk.
struct Calls {
    find: ffi::Find,
    read: ffi::Read,
}

const FRONT: Calls = Calls {
    find: ffi::range_map_next_unchecked,
    read: ffi::range_map_entries_into_unchecked,
};
const BACK: Calls = Calls {
    find: ffi::range_map_previous_unchecked,
    read: ffi::range_map_entries_back_into_unchecked,
};

/// Entries in the order of one end.
struct Block {
    lo: [i64; ROOM],
    hi: [i64; ROOM],
    value: [u64; ROOM],
}

impl Block {
    /// Returns a block, or `None` if the allocation fails.
    fn allocated() -> Option<Box<MaybeUninit<Block>>> {
        // SAFETY: a block has a size other than 0.
        let block = unsafe { alloc(Layout::new::<Block>()) }.cast::<MaybeUninit<Block>>();
        // SAFETY: the pointer is not null, and was allocated with the layout that the box frees.
        (!block.is_null()).then(|| unsafe { Box::from_raw(block) })
    }
}

/// One end of a walk.
struct End {
    /// Entries that were read in one call. `None` before the first block, and if no block could be
    /// allocated.
    block: Option<Box<MaybeUninit<Block>>>,
    /// How many entries of the block were read. Each array is initialized up to here.
    count: u8,
    /// How many of these were returned.
    position: u8,
    /// How many entries were looked up one by one, up to `SINGLE_LOOKUPS`.
    lookups: u8,
    /// Whether the map has no entry after those of the block.
    is_last: bool,
}

impl End {
    fn new() -> Self {
        End {
            block: None,
            count: 0,
            position: 0,
            lookups: 0,
            is_last: false,
        }
    }

    /// Returns the next entry. `from` is the key where the entries start that were not returned.
    #[inline]
    fn next(&mut self, map: &RangeMap, from: i64, calls: Calls) -> Option<Row> {
        if self.position == self.count {
            self.next_unread(map, from, calls)
        } else {
            self.next_of_block()
        }
    }

    /// Returns the next entry of the block, if there is one.
    #[inline]
    fn next_of_block(&mut self) -> Option<Row> {
        let block = self.block.as_ref()?.as_ptr();
        if self.position == self.count {
            return None;
        }
        let index = usize::from(self.position);
        self.position += 1;
        // SAFETY: `index` is less than `count`, up to which the arrays are initialized.
        unsafe {
            Some((
                *std::ptr::addr_of!((*block).lo).cast::<i64>().add(index),
                *std::ptr::addr_of!((*block).hi).cast::<i64>().add(index),
                *std::ptr::addr_of!((*block).value).cast::<u64>().add(index),
            ))
        }
    }

    /// Looks up the next entry, or reads a block and returns its first entry.
    #[inline(never)]
    fn next_unread(&mut self, map: &RangeMap, from: i64, calls: Calls) -> Option<Row> {
        if self.is_last {
            return None;
        }
        if self.lookups < SINGLE_LOOKUPS {
            self.lookups += 1;
            return found(map, from, calls.find);
        }
        let room = if self.block.is_none() {
            self.block = Block::allocated();
            FIRST_ROOM
        } else {
            ROOM
        };
        let block = match &mut self.block {
            Some(block) => block.as_mut_ptr(),
            None => return found(map, from, calls.find),
        };
        // SAFETY: each array of the block has space for `room` elements.
        let count = unsafe {
            (calls.read)(
                &mut map.handle(),
                from,
                addr_of_mut!((*block).lo).cast(),
                room,
                addr_of_mut!((*block).hi).cast(),
                room,
                addr_of_mut!((*block).value).cast(),
                room,
            )
        };
        debug_assert!(count <= room as u64);
        self.count = count as u8;
        self.position = 0;
        self.is_last = count < room as u64;
        self.next_of_block()
    }
}

/// The result of one lookup.
fn found(map: &RangeMap, from: i64, find: ffi::Find) -> Option<Row> {
    let (mut lo, mut hi, mut value) = (0, 0, 0);
    // SAFETY: the pointers are valid and different.
    let has_entry = unsafe { find(&mut map.handle(), from, &mut lo, &mut hi, &mut value) };
    has_entry.then_some((lo, hi, value))
}

/// An iteration over the entries that share a key with a range, from both ends.
pub(super) struct Walk {
    /// The first and the last key of the part of the range that neither end has passed.
    keys: Option<(i64, i64)>,
    front: End,
    back: End,
}

/// The copy has no blocks, so that a copy does not allocate. It looks up its first entries again.
impl Clone for Walk {
    fn clone(&self) -> Self {
        Walk::new(self.keys)
    }
}

impl Walk {
    pub(super) fn new(keys: Option<(i64, i64)>) -> Self {
        Walk {
            keys,
            front: End::new(),
            back: End::new(),
        }
    }

    #[inline]
    pub(super) fn next(&mut self, map: &RangeMap) -> Option<Row> {
        let (from, to) = self.keys.take()?;
        let (lo, hi, value) = self.front.next(map, from, FRONT)?;
        if lo > to {
            return None;
        }
        if hi < to {
            self.keys = Some((hi + 1, to));
        }
        Some((lo, hi, value))
    }

    #[inline]
    pub(super) fn next_back(&mut self, map: &RangeMap) -> Option<Row> {
        let (from, to) = self.keys.take()?;
        let (lo, hi, value) = self.back.next(map, to, BACK)?;
        if hi < from {
            return None;
        }
        if lo > from {
            self.keys = Some((from, lo - 1));
        }
        Some((lo, hi, value))
    }
}
