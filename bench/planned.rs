//! Paints and removals the library's way. A paint first reads the entries that the range touches. It inserts a node before
//! it moves a value to it, so a node may be without a value. It makes another search to move an entry's end.
use super::{RangeMap, length};

/// The type that a node stores for a value: `None` until the value is moved to it.
pub type Held<V> = Option<V>;

pub fn hold<V>(value: V) -> Held<V> {
    Some(value)
}

pub fn held<V>(value: &Held<V>) -> &V {
    value.as_ref().expect("a value")
}

pub fn give<V>(value: Held<V>) -> V {
    value.expect("a value")
}

/// The facts that a paint needs about the entries that its range touches.
struct Plan {
    /// The last key of the range, or of an equal entry that touches it from above.
    end: i64,
    /// The first key of the entry whose part above the range remains.
    rest: Option<i64>,
    /// The entry that starts with the range: last key, and whether its value is the same.
    first: Option<(i64, bool)>,
    /// The entry that starts below the range: first key, last key, and whether its value is the same.
    left: Option<(i64, i64, bool)>,
    /// The number of keys of the range that have a value.
    keys: u128,
}

impl<V: Eq + Clone> RangeMap<V> {
    fn plan(&self, lo: i64, hi: i64, value: &V) -> Plan {
        let mut plan = Plan { end: hi, rest: None, first: None, left: None, keys: 0 };
        for (&start, node) in self.tree.range(..=hi.saturating_add(1)).rev() {
            let is_same = held(&node.1) == value;
            if start <= hi && node.0 >= lo {
                plan.keys += length(start.max(lo), node.0.min(hi));
            }
            if node.0 > hi && is_same {
                plan.end = node.0;
            } else if node.0 > hi && start <= hi {
                plan.rest = Some(start);
            }
            if start < lo {
                plan.left = Some((start, node.0, is_same));
                break;
            } else if start == lo {
                plan.first = Some((node.0, is_same));
            }
        }
        plan
    }

    /// Sets the value of the keys from `lo` up to `hi`, and returns whether the number of keys changed.
    pub fn paint(&mut self, lo: i64, hi: i64, value: V) -> bool {
        if lo > hi {
            return false;
        }
        let plan = self.plan(lo, hi, &value);
        let holder = plan.first.or(plan.left.map(|(_, end, is_same)| (end, is_same)));
        if holder.is_some_and(|(end, is_same)| is_same && end >= hi) {
            return false;
        }
        let painted = length(lo, hi);
        self.len = self.len - plan.keys + painted;
        let is_changed = plan.keys != painted;
        match plan.left {
            Some((start, end, true)) if end >= lo - 1 => self.paint_on(start, plan),
            Some((start, end, _)) if end > plan.end => {
                let copy = self.set_end(start, lo - 1, |node| node.clone());
                self.tree.insert(plan.end + 1, (end, copy));
                self.tree.insert(lo, (plan.end, Some(value)));
            }
            _ => self.paint_beside(lo, value, plan),
        }
        is_changed
    }

    /// Extends the entry that starts at `start` to the end of the range.
    fn paint_on(&mut self, start: i64, plan: Plan) {
        if let Some(rest) = plan.rest {
            self.move_start(rest, plan.end + 1);
        }
        self.clear(start, plan.end);
        self.set_end(start, plan.end, |_| ());
    }

    /// Inserts the value as a new entry.
    fn paint_beside(&mut self, lo: i64, value: V, plan: Plan) {
        let front = (plan.end, Some(value));
        match plan.rest {
            Some(rest) if rest == lo => {
                self.tree.insert(plan.end + 1, (0, None));
                if let Some(node) = self.tree.insert(lo, front) {
                    self.fill(plan.end + 1, node);
                }
            }
            rest => {
                self.tree.insert(lo, front);
                if let Some(rest) = rest {
                    self.move_start(rest, plan.end + 1);
                }
            }
        }
        if let Some((start, end, _)) = plan.left
            && end >= lo
        {
            self.set_end(start, lo - 1, |_| ());
        }
        self.clear(lo, plan.end);
    }

    fn set_end<R>(&mut self, start: i64, end: i64, answer: impl Fn(&Held<V>) -> R) -> R {
        let node = self.tree.get_mut(&start).expect("an entry");
        node.0 = end;
        answer(&node.1)
    }

    fn move_start(&mut self, from: i64, to: i64) {
        self.tree.insert(to, (0, None));
        if let Some(node) = self.tree.remove(&from) {
            self.fill(to, node);
        }
    }

    fn fill(&mut self, start: i64, node: (i64, Held<V>)) {
        if let Some(place) = self.tree.get_mut(&start) {
            *place = node;
        }
    }

    /// Removes the entries that start above `first` and at most at `end`.
    fn clear(&mut self, first: i64, end: i64) {
        while first < end
            && let Some((&start, _)) = self.tree.range(first + 1..).next()
            && start <= end
        {
            self.tree.remove(&start);
        }
    }

    /// Removes a key, and returns its old value.
    pub fn remove(&mut self, key: i64) -> Option<V> {
        let (&start, &(end, _)) = self.tree.range(..=key).next_back()?;
        if end < key {
            return None;
        }
        self.len -= 1;
        if start == key {
            return self.remove_first(key, end);
        }
        let value = self.set_end(start, key - 1, |value| value.clone());
        if key < end {
            self.tree.insert(key + 1, (end, value.clone()));
        }
        value
    }

    /// Removes the first key of an entry, and returns its old value.
    fn remove_first(&mut self, key: i64, end: i64) -> Option<V> {
        if key < end {
            let copy = self.tree.get(&key)?.1.clone();
            self.tree.insert(key + 1, (end, copy));
        }
        self.tree.remove(&key)?.1
    }

    /// Removes the least key, and returns it with its value.
    pub fn pop_first(&mut self) -> Option<(i64, V)> {
        let (&key, &(end, ref value)) = self.tree.first_key_value()?;
        if key < end {
            let copy = value.clone();
            self.tree.insert(key + 1, (end, copy));
        }
        self.len -= 1;
        let (_, node) = self.tree.pop_first()?;
        Some((key, give(node.1)))
    }
}
