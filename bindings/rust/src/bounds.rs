//! The first and the last key of a range.

use std::ops::{Bound, RangeBounds};

/// The first and the last key of the range, or `None` if it has no key.
///
/// The end of a `RangeInclusive` that was iterated to its end is excluded, so it has no key either.
pub(crate) fn ends(range: impl RangeBounds<i64>) -> Option<(i64, i64)> {
    let lo = match range.start_bound() {
        Bound::Included(&key) => key,
        Bound::Excluded(&key) => key.checked_add(1)?,
        Bound::Unbounded => i64::MIN,
    };
    let hi = match range.end_bound() {
        Bound::Included(&key) => key,
        Bound::Excluded(&key) => key.checked_sub(1)?,
        Bound::Unbounded => i64::MAX,
    };
    (lo <= hi).then_some((lo, hi))
}

#[cfg(test)]
mod tests {
    use super::ends;
    use std::ops::Bound::{Excluded, Included, Unbounded};

    #[test]
    fn each_form() {
        assert_eq!(ends(2..5), Some((2, 4)));
        assert_eq!(ends(2..=5), Some((2, 5)));
        assert_eq!(ends(..5), Some((i64::MIN, 4)));
        assert_eq!(ends(..=5), Some((i64::MIN, 5)));
        assert_eq!(ends(2..), Some((2, i64::MAX)));
        assert_eq!(ends(..), Some((i64::MIN, i64::MAX)));
        assert_eq!(ends((Excluded(2), Included(5))), Some((3, 5)));
        assert_eq!(ends(&2..&5), Some((2, 4)));
    }

    #[test]
    #[allow(clippy::reversed_empty_ranges)]
    fn no_key() {
        assert_eq!(ends(5..5), None);
        assert_eq!(ends(6..=2), None);
        assert_eq!(ends(..i64::MIN), None);
        assert_eq!(ends((Excluded(i64::MAX), Unbounded)), None);
        assert_eq!(ends((Excluded(2), Excluded(3))), None);
    }

    #[test]
    fn iterated_to_the_end() {
        for (lo, hi) in [(1, 3), (7, 7), (i64::MIN, i64::MIN), (i64::MAX, i64::MAX)] {
            let mut ascending = lo..=hi;
            ascending.by_ref().for_each(drop);
            assert_eq!(ends(ascending), None);
            let mut descending = lo..=hi;
            descending.by_ref().rev().for_each(drop);
            assert_eq!(ends(descending), None);
        }
        let mut begun = 1..=3;
        assert_eq!((begun.next(), begun.next_back()), (Some(1), Some(3)));
        assert_eq!(ends(begun), Some((2, 2)));
    }
}
