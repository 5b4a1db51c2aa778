//! The union of two lists of entries as a stream of pieces, in a way that fits any number of lists. The ranges of all lists
//! come in the order of their starts. A heap has those that are open at a key, ordered by list: the last list has the value.
use super::Gathered;
use std::cmp::Ordering;
use std::collections::BinaryHeap;
use std::iter::Peekable;

/// A range with its value, and the position of its list.
struct Placed<V> {
    place: usize,
    start: i64,
    end: i64,
    value: V,
}

impl<V> Ord for Placed<V> {
    fn cmp(&self, other: &Self) -> Ordering {
        self.place.cmp(&other.place)
    }
}

impl<V> PartialOrd for Placed<V> {
    fn partial_cmp(&self, other: &Self) -> Option<Ordering> {
        Some(self.cmp(other))
    }
}

impl<V> PartialEq for Placed<V> {
    fn eq(&self, other: &Self) -> bool {
        self.place == other.place
    }
}

impl<V> Eq for Placed<V> {}

/// The ranges of two lists in the order of their starts.
struct Merged<L: Iterator, R: Iterator> {
    left: Peekable<L>,
    right: Peekable<R>,
}

impl<V, L: Iterator<Item = (i64, i64, V)>, R: Iterator<Item = (i64, i64, V)>> Iterator for Merged<L, R> {
    type Item = Placed<V>;

    fn next(&mut self) -> Option<Placed<V>> {
        let is_left = match (self.left.peek(), self.right.peek()) {
            (Some(left), Some(right)) => left.0 < right.0,
            (left, _) => left.is_some(),
        };
        let (start, end, value) = if is_left { self.left.next()? } else { self.right.next()? };
        Some(Placed { place: usize::from(!is_left), start, end, value })
    }
}

impl<V: Eq + Clone> Gathered<V> {
    /// Appends the union: the values of `right` at its keys, and those of `left` at the other keys.
    pub fn unite(
        &mut self,
        left: impl Iterator<Item = (i64, i64, V)>,
        right: impl Iterator<Item = (i64, i64, V)>,
    ) {
        let mut coming = Merged { left: left.peekable(), right: right.peekable() }.peekable();
        let mut open = BinaryHeap::new();
        while let Some(first) = coming.next() {
            let mut start = first.start;
            let mut least_end = first.end;
            open.push(first);
            while let Some(best) = open.peek() {
                let opens = coming.peek().map_or(i64::MAX, |next| next.start);
                if opens == start
                    && let Some(next) = coming.next()
                {
                    least_end = least_end.min(next.end);
                    open.push(next);
                    continue;
                }
                let end = if coming.peek().is_some() { least_end.min(opens - 1) } else { least_end };
                self.push(start, end, best.value.clone());
                if end == least_end {
                    open.retain(|range| range.end > end);
                    least_end = open.iter().map(|range| range.end).min().unwrap_or(i64::MAX);
                }
                start = end + 1;
            }
        }
    }
}
