//! The union of two lists of entries in one pass.
use super::Gathered;

impl<V: Eq + Clone> Gathered<V> {
    /// Appends the union: the values of `right` at its keys, and those of `left` at the other keys.
    pub fn unite(
        &mut self,
        mut left: impl Iterator<Item = (i64, i64, V)>,
        right: impl Iterator<Item = (i64, i64, V)>,
    ) {
        let mut a = left.next();
        for (b_start, b_end, b_value) in right {
            // the left entries, or parts of them, before the right entry
            while let Some((start, end, value)) = a.take() {
                if end < b_start {
                    self.push(start, end, value);
                    a = left.next();
                } else if start < b_start {
                    self.push(start, b_start - 1, value.clone());
                    a = Some((b_start, end, value));
                } else {
                    a = Some((start, end, value));
                    break;
                }
            }
            // the left entries that the right entry covers
            while let Some((_, end, value)) = a.take_if(|(start, _, _)| *start <= b_end) {
                if end > b_end {
                    a = Some((b_end + 1, end, value));
                    break;
                }
                a = left.next();
            }
            self.push(b_start, b_end, b_value);
        }
        while let Some((start, end, value)) = a {
            self.push(start, end, value);
            a = left.next();
        }
    }
}
