//! How the keys of two maps relate.

use super::RangeMap;

/// Two maps
impl RangeMap {
    /// Returns whether no key has a value in both maps.
    ///
    /// Needs no memory, as an [iterator](crate#memory). O(n + m), or O(m log n) if m is at most n / 16,
    /// where m is for the map with fewer entries.
    ///
    /// ```
    /// # use range_map::RangeMap;
    /// let map = RangeMap::from([(10..=19, 1)]);
    /// assert!(map.is_disjoint(&RangeMap::from([(20..=29, 1)])));
    /// assert!(!map.is_disjoint(&RangeMap::from([(19..=29, 2)]))); // both have 19
    /// ```
    #[must_use]
    pub fn is_disjoint(&self, other: &Self) -> bool {
        let (few, many) = if self.ranges_len() < other.ranges_len() {
            (self, other)
        } else {
            (other, self)
        };
        if few.has_few_of(many) {
            return !few.iter().any(|(range, _)| many.has_any(range));
        }
        let (mut entries, mut others) = (self.iter(), other.iter());
        let (mut entry, mut compared) = (entries.next(), others.next());
        while let (Some((range, _)), Some((other_range, _))) = (&entry, &compared) {
            if range.end() < other_range.start() {
                entry = entries.next();
            } else if other_range.end() < range.start() {
                compared = others.next();
            } else {
                return false;
            }
        }
        true
    }

    /// Returns whether every key that has a value in `other` has one in this map. The values may differ.
    ///
    /// Needs no memory, as an [iterator](crate#memory). O(n + m), or O(1) if `other` has more keys.
    ///
    /// ```
    /// # use range_map::RangeMap;
    /// let map = RangeMap::from([(10..=19, 1), (20..=29, 2)]);
    /// assert!(map.covers(&RangeMap::from([(15..=24, 3)])));
    /// assert!(!map.covers(&RangeMap::from([(25..=30, 2)]))); // 30 has no value in `map`
    /// ```
    #[doc(alias = "is_superset")]
    #[must_use]
    pub fn covers(&self, other: &Self) -> bool {
        if self.len() < other.len() {
            return false;
        }
        if other.has_few_of(self) {
            return other.ranges().all(|range| self.has_all(range));
        }
        let mut ranges = self.ranges();
        let mut range = ranges.next();
        other.ranges().all(|other_range| {
            while let Some(before) = &range {
                if before.end() >= other_range.end() {
                    return before.start() <= other_range.start();
                }
                range = ranges.next();
            }
            false
        })
    }

    /// Whether it has at most 1/16 as many entries as the other map.
    fn has_few_of(&self, other: &Self) -> bool {
        self.ranges_len() <= other.ranges_len() / 16
    }
}
