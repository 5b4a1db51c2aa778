//! The keys of a map with their values, the Rust crate's way. This was written anew after its published source.
//!
//! `next` takes the tail of the opened entry, and puts back what remains after its first key. The compiler decides whether `next` is
//! inlined, as on the library's side.
use super::{Held, RangeMap, give, held};
use std::collections::btree_map::{IntoIter, Iter};

/// An iterator over entries, from both ends.
pub trait Entries<V>: DoubleEndedIterator<Item = (i64, i64, V)> {}

impl<V, I: DoubleEndedIterator<Item = (i64, i64, V)>> Entries<V> for I {}

/// An iterator over the keys of entries, ascending, each with its entry's value.
pub struct Pairs<V, I> {
    front: Option<(i64, i64, V)>,
    inner: I,
    back: Option<(i64, i64, V)>,
}

impl<V: Clone, I: Entries<V>> Pairs<V, I> {
    fn new(inner: I) -> Self {
        Pairs { front: None, inner, back: None }
    }
}

impl<V: Clone, I: Entries<V>> Iterator for Pairs<V, I> {
    type Item = (i64, V);

    fn next(&mut self) -> Option<(i64, V)> {
        let first = self.front.take().or_else(|| self.inner.next()).or_else(|| self.back.take());
        let (start, end, value) = first?;
        if start < end {
            self.front = Some((start + 1, end, value.clone()));
        }
        Some((start, value))
    }
}

impl<V: Clone, I: Entries<V>> DoubleEndedIterator for Pairs<V, I> {
    fn next_back(&mut self) -> Option<(i64, V)> {
        let last = self.back.take().or_else(|| self.inner.next_back()).or_else(|| self.front.take());
        let (start, end, value) = last?;
        if start < end {
            self.back = Some((start, end - 1, value.clone()));
        }
        Some((end, value))
    }
}

/// An iterator over the entries of a borrowed tree.
pub struct Borrowed<'a, V> {
    nodes: Iter<'a, i64, (i64, Held<V>)>,
}

impl<'a, V> Iterator for Borrowed<'a, V> {
    type Item = (i64, i64, &'a V);

    fn next(&mut self) -> Option<(i64, i64, &'a V)> {
        self.nodes.next().map(|(start, (end, value))| (*start, *end, held(value)))
    }
}

impl<V> DoubleEndedIterator for Borrowed<'_, V> {
    fn next_back(&mut self) -> Option<Self::Item> {
        self.nodes.next_back().map(|(start, (end, value))| (*start, *end, held(value)))
    }
}

/// An iterator over the entries of an owned tree.
pub struct Owned<V> {
    nodes: IntoIter<i64, (i64, Held<V>)>,
}

impl<V> Iterator for Owned<V> {
    type Item = (i64, i64, V);

    fn next(&mut self) -> Option<(i64, i64, V)> {
        self.nodes.next().map(|(start, (end, value))| (start, end, give(value)))
    }
}

impl<V> DoubleEndedIterator for Owned<V> {
    fn next_back(&mut self) -> Option<(i64, i64, V)> {
        self.nodes.next_back().map(|(start, (end, value))| (start, end, give(value)))
    }
}

impl<V: Eq + Clone> RangeMap<V> {
    /// Returns an iterator over the keys of a borrowed map, ascending, each with its value.
    pub fn pairs(&self) -> Pairs<&V, Borrowed<'_, V>> {
        Pairs::new(Borrowed { nodes: self.tree.iter() })
    }

    /// Returns an iterator over the keys of an owned map, ascending, each with its value.
    pub fn into_pairs(self) -> Pairs<V, Owned<V>> {
        Pairs::new(Owned { nodes: self.tree.into_iter() })
    }
}
