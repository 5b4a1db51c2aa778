//! Paints and removals the way of the Rust crate `range-set-blaze` 0.8.0, built without its nightly feature. They were
//! written anew after its published source.
//!
//! A paint reads and trims the entry before the range, inserts the range, lists the entries that it covers, and removes
//! each of them. Each of these steps is a search.
#[path = "bare.rs"]
mod bare;

pub use bare::{Held, give, held, hold};

use super::{RangeMap, length};
use std::mem::replace;

impl<V: Eq + Clone> RangeMap<V> {
    /// Sets the value of the keys from `lo` up to `hi`, and returns whether the number of keys changed.
    pub fn paint(&mut self, lo: i64, hi: i64, value: V) -> bool {
        if lo > hi {
            return false;
        }
        let len = self.len;
        self.splice(lo, hi, value);
        self.len != len
    }

    fn splice(&mut self, lo: i64, hi: i64, value: V) {
        let mut before = self.tree.range_mut(..=lo).rev();
        let Some((&start, entry)) = before.next() else {
            return self.put_in(lo, hi, value);
        };
        if entry.0.checked_add(1).is_some_and(|next| next < lo) {
            return self.put_in(lo, hi, value);
        }
        if entry.1 == value {
            if entry.0 < hi {
                self.len += length(entry.0 + 1, hi);
                entry.0 = hi;
                self.take_covered(start, hi);
            }
        } else if start < lo {
            let end = replace(&mut entry.0, lo - 1);
            if end > hi {
                let rest = entry.1.clone();
                self.tree.insert(lo, (hi, value));
                self.tree.insert(hi + 1, (end, rest));
            } else {
                self.len -= length(lo, end);
                self.put_in(lo, hi, value);
            }
        } else if let Some((&first, below)) = before.next()
            && below.0 + 1 == lo
            && below.1 == value
        {
            self.len += length(lo, hi);
            below.0 = hi;
            self.take_covered(first, hi);
        } else if entry.0 > hi {
            let rest = replace(entry, (hi, value));
            self.tree.insert(hi + 1, rest);
        } else {
            self.len += length(entry.0, hi) - 1;
            *entry = (hi, value);
            self.take_covered(lo, hi);
        }
    }

    fn put_in(&mut self, lo: i64, hi: i64, value: V) {
        self.tree.insert(lo, (hi, value));
        self.take_covered(lo, hi);
        self.len += length(lo, hi);
    }

    /// Removes the keys that the entry from `start` up to `hi` covers from the other entries. Joins it with an equal one
    /// that touches it from above.
    fn take_covered(&mut self, start: i64, hi: i64) {
        let mut walk = self.tree.range_mut(start..);
        let Some((_, front)) = walk.next() else { return };
        let (mut last, mut joined) = (hi, hi);
        let mut covered = Vec::new();
        for (&first, entry) in walk {
            let is_same = entry.1 == front.1;
            if first > hi && !(is_same && first - 1 == hi) {
                break;
            }
            last = last.max(entry.0);
            if is_same {
                joined = joined.max(entry.0);
            }
            self.len -= length(first, entry.0);
            covered.push(first);
        }
        if joined > hi {
            self.len += length(hi + 1, joined);
            front.0 = joined;
        } else if last > hi
            && let Some(first) = covered.pop()
            && let Some(rest) = self.tree.remove(&first)
        {
            self.len += length(hi + 1, last);
            self.tree.insert(hi + 1, rest);
        }
        for first in covered {
            self.tree.remove(&first);
        }
    }

    /// Removes a key, and returns its old value.
    pub fn remove(&mut self, key: i64) -> Option<V> {
        let (&start, entry) = self.tree.range_mut(..=key).next_back()?;
        let end = entry.0;
        if end < key {
            return None;
        }
        self.len -= 1;
        let value = if start == key {
            self.tree.remove(&start)?.1
        } else {
            entry.0 = key - 1;
            entry.1.clone()
        };
        if key < end {
            self.tree.insert(key + 1, (end, value.clone()));
        }
        Some(value)
    }

    /// Removes the least key, and returns it with its value.
    pub fn pop_first(&mut self) -> Option<(i64, V)> {
        let (key, (end, value)) = self.tree.first_entry()?.remove_entry();
        self.len -= 1;
        if key < end {
            self.tree.insert(key + 1, (end, value.clone()));
        }
        Some((key, value))
    }
}
