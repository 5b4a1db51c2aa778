//! Paints and removals in one pass. A walk over the entries that a range touches changes their ends in place.
#[path = "bare.rs"]
mod bare;

pub use bare::{Held, give, held, hold};

use super::{RangeMap, length};
use std::mem::replace;

/// The first keys of the entries that a paint removes. Up to four of them are stored without an allocation.
#[derive(Default)]
struct Gone {
    few: [i64; 4],
    count: usize,
    more: Vec<i64>,
}

impl Gone {
    fn push(&mut self, start: i64) {
        if self.count < self.few.len() {
            self.few[self.count] = start;
            self.count += 1;
        } else {
            self.more.push(start);
        }
    }
}

/// The part of an entry that remains above the painted keys.
enum Rest<V> {
    Nothing,
    /// The part of an entry that is cut in two: its last key and its value.
    Copy(i64, V),
    /// An entry that starts among the painted keys: its first key.
    Moved(i64),
}

impl<V: Eq + Clone> RangeMap<V> {
    /// Sets the value of the keys from `lo` up to `hi`, and returns whether the number of keys changed. One pass backward
    /// over the entries that touch the keys changes ends in place. Then nodes are removed and inserted.
    pub fn paint(&mut self, lo: i64, hi: i64, value: V) -> bool {
        if lo > hi {
            return false;
        }
        let mut end = hi;
        let mut covered = 0;
        let mut joined = false;
        let mut place = None;
        let mut rest = Rest::Nothing;
        let mut gone = Gone::default();
        for (&start, entry) in self.tree.range_mut(..=hi.saturating_add(1)).rev() {
            if start > hi {
                if entry.1 == value {
                    end = entry.0;
                    gone.push(start);
                }
            } else if start > lo {
                covered += length(start, entry.0.min(hi));
                if entry.0 <= hi {
                    gone.push(start);
                } else if entry.1 == value {
                    end = entry.0;
                    gone.push(start);
                } else {
                    rest = Rest::Moved(start);
                }
            } else if start == lo {
                if entry.0 >= hi && entry.1 == value {
                    return false;
                }
                covered += length(lo, entry.0.min(hi));
                place = Some(entry);
            } else {
                if entry.1 == value {
                    if entry.0 >= hi {
                        return false;
                    }
                    if entry.0 >= lo - 1 {
                        covered += length(lo, entry.0);
                        entry.0 = end;
                        joined = true;
                    }
                } else if entry.0 >= lo {
                    covered += length(lo, entry.0.min(hi));
                    if entry.0 > hi {
                        rest = Rest::Copy(entry.0, entry.1.clone());
                    }
                    entry.0 = lo - 1;
                }
                break;
            }
        }
        match place {
            Some(entry) if joined => {
                if entry.0 > hi {
                    rest = Rest::Copy(entry.0, entry.1.clone());
                }
                gone.push(lo);
            }
            Some(entry) => {
                let (old_end, old) = replace(entry, (end, value));
                if old_end > hi {
                    rest = Rest::Copy(old_end, old);
                }
            }
            None if joined => {}
            None => {
                self.tree.insert(lo, (end, value));
            }
        }
        self.settle(hi, gone, rest);
        let painted = length(lo, hi);
        self.len = self.len - covered + painted;
        painted != covered
    }

    /// Removes the covered entries, and inserts the part that remains above `hi`.
    fn settle(&mut self, hi: i64, gone: Gone, rest: Rest<V>) {
        for start in &gone.few[..gone.count] {
            self.tree.remove(start);
        }
        for start in &gone.more {
            self.tree.remove(start);
        }
        match rest {
            Rest::Nothing => {}
            Rest::Copy(end, value) => {
                self.tree.insert(hi + 1, (end, value));
            }
            Rest::Moved(start) => {
                if let Some(entry) = self.tree.remove(&start) {
                    self.tree.insert(hi + 1, entry);
                }
            }
        }
    }

    /// Removes a key, and returns its old value.
    pub fn remove(&mut self, key: i64) -> Option<V> {
        let (&start, entry) = self.tree.range_mut(..=key).next_back()?;
        let end = entry.0;
        if end < key {
            return None;
        }
        self.len -= 1;
        let value = if start < key {
            entry.0 = key - 1;
            entry.1.clone()
        } else {
            self.tree.remove(&key)?.1
        };
        if key < end {
            self.tree.insert(key + 1, (end, value.clone()));
        }
        Some(value)
    }

    /// Removes the least key, and returns it with its value.
    pub fn pop_first(&mut self) -> Option<(i64, V)> {
        let (key, (end, value)) = self.tree.pop_first()?;
        self.len -= 1;
        if key < end {
            self.tree.insert(key + 1, (end, value.clone()));
        }
        Some((key, value))
    }
}
