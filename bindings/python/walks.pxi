# What both kinds of map have besides lookups: iterations, comparisons, printed text, and the state of a pickle. The iterators and the
# comparison have files of their own.


cdef class Walks(Lookups):
    """The calls that RangeMap and FrozenRangeMap have in common, and that read many entries."""

    # ---- Iterate

    def __iter__(self):
        """Returns an iterator of the entries `(start, stop, value)`, ascending. A dictionary's iterator yields keys.

        It raises RuntimeError if the map has changed since the iterator was made. O(1) for each entry.

        >>> list(RangeMap([(8, 10, "b"), (1, 6, "a")]))
        [(1, 6, 'a'), (8, 10, 'b')]
        """
        return iterator_of(self, INT64_MIN, INT64_MAX, False)

    def __reversed__(self):
        """Returns an iterator of the entries `(start, stop, value)`, descending.

        It raises RuntimeError if the map has changed since the iterator was made. O(1) for each entry.

        >>> list(reversed(RangeMap([(1, 6, "a"), (8, 10, "b")])))
        [(8, 10, 'b'), (1, 6, 'a')]
        """
        return iterator_of(self, INT64_MIN, INT64_MAX, True)

    def overlapping(self, start=None, stop=None, *, reverse=False):
        """Returns an iterator of the entries that have a key in the range, whole, ascending, or descending if `reverse` is true.

        Raises TypeError if an end is neither an integer nor None. The iterator raises RuntimeError if the map has changed since
        it was made. O(log n), and O(1) for each entry.

        >>> m = RangeMap([(1, 6, "a"), (8, 10, "b")])
        >>> list(m.overlapping(5, 9)), list(m.overlapping(6, 8)), list(m.overlapping(stop=9, reverse=True))
        ([(1, 6, 'a'), (8, 10, 'b')], [], [(8, 10, 'b'), (1, 6, 'a')])
        """
        cdef int64_t lo, hi
        if not keys_of(start, stop, False, &lo, &hi):
            return iter(())
        return iterator_of(self, lo, hi, reverse)

    def gaps(self, start=None, stop=None):
        """Returns an iterator of the longest ranges `(start, stop)` within the range in which no key has a value, ascending.

        Raises TypeError if an end is neither an integer nor None. The iterator raises RuntimeError if the map has changed since
        it was made. O(log n), and O(1) for each gap.

        >>> m = RangeMap([(1, 6, "a"), (8, 10, "b")])
        >>> list(m.gaps(3, 13))
        [(6, 8), (10, 13)]
        """
        cdef int64_t lo, hi
        cdef Gaps gaps
        if not keys_of(start, stop, False, &lo, &hi):
            return iter(())
        gaps = Gaps.__new__(Gaps)
        gaps.from_key = lo
        return gaps.start(self, lo, hi, False)

    def ranges(self, start=None, stop=None):
        """Returns an iterator of the longest ranges `(start, stop)` within the range in which each key has a value, ascending.

        Ranges that touch are one range, whatever their values. Raises TypeError if an end is neither an integer nor None. The
        iterator raises RuntimeError if the map has changed since it was made. O(log n), and O(1) for each entry.

        >>> m = RangeMap([(1, 6, "a"), (6, 8, "b"), (9, 10, "b")])
        >>> list(m.ranges()), list(m.ranges(4, 7))
        ([(1, 8), (9, 10)], [(4, 7)])
        """
        cdef int64_t lo, hi
        cdef Ranges ranges
        if not keys_of(start, stop, False, &lo, &hi):
            return iter(())
        ranges = Ranges.__new__(Ranges)
        return ranges.start(self, lo, hi, False)

    # ---- Other maps

    def diff(self, other, missing=None):
        """Returns an iterator of the longest ranges with one value here and a different one in another map, ascending.

        Its items are `(start, stop, old, new)`: `old` is the value here, and `new` the value in `other`. For a key without a value,
        it is `missing`; if values may be None, pass another object. Values are compared by their own `==`, so there is no such range
        exactly if the maps are equal. Raises TypeError if `other` is not a map. The iterator raises what a value's `__eq__` raises,
        and RuntimeError if one of the maps has changed since it was made. O(n + m) for all.

        >>> m, n = RangeMap([(1, 6, "a")]), RangeMap([(3, 5, "a"), (5, 8, "b")])
        >>> for start, stop, old, new in m.diff(n):
        ...     print(start, stop, old, new)
        1 3 a None
        5 6 a b
        6 8 None b
        """
        if not isinstance(other, Lookups):
            raise TypeError(f"diff needs a map, and got {type(other).__name__}")
        return differences_of(self, other, missing)

    def union(self, *others):
        """Returns a map of the keys of this map and of all others, with the value of the last map that has the key.

        The new map has the class and the attributes of this one. `RangeMap().union(*maps)` is the union of any number of maps.
        Raises TypeError if one of `others` is not a map, MemoryError, and what a value's `__eq__` raises. O(s log k) for k maps with
        s entries in all.

        >>> m, n, o = RangeMap([(1, 6, "a")]), RangeMap([(3, 8, "b")]), RangeMap([(4, 5, "c")])
        >>> m.union(n, o)
        RangeMap([(1, 3, 'a'), (3, 4, 'b'), (4, 5, 'c'), (5, 8, 'b')])
        """
        return united(self, others)

    # ---- For other modules

    def __array__(self, dtype=None, copy=None):
        """Returns an array of NumPy without dimensions, with this map: to NumPy, a map is one object, as a dictionary is."""
        import numpy
        one = numpy.empty((), object)
        one[()] = self
        return one

    cdef size_t bytes_of_entries(self):
        return 0

    def __sizeof__(self):
        """Returns how many bytes the map takes, without its values.

        This is exact for a FrozenRangeMap. For a RangeMap, it is an estimate of 48 bytes for each entry; these take 34 to 74. O(1).
        """
        return object.__sizeof__(self) + self.bytes_of_entries() + self.values.__sizeof__()

    def __dask_tokenize__(self):
        """Returns what Dask names this map by. It is equal in all processes for maps of one class with the same entries, if the
        values have such names too. O(n)."""
        from hashlib import sha256
        from dask.base import normalize_token
        cdef Rows rows = self.rows(INT64_MIN, INT64_MAX)
        columns = [sha256(column).hexdigest() for column in rows.arrays()]
        return normalize_token((type(self), columns, rows.values.at, attributes_of(self)))

    # ---- Compare and print

    def __richcmp__(self, other, int operator):
        return compared(self, other, operator)

    def __repr__(self):
        """Returns the call that makes an equal map, if the values' own texts are calls that make them. O(n)."""
        name = type(self).__name__
        if enter_repr(self):
            return f"{name}(...)"
        try:
            texts = self.rows(INT64_MIN, INT64_MAX).texts()
            return f"{name}([{', '.join(texts)}])" if texts else f"{name}()"
        finally:
            leave_repr(self)

    @classmethod
    def __class_getitem__(cls, item):
        return GenericAlias(cls, item)

    # ---- Pickles: columns of starts, stops and numbers, the list of values, and the attributes of a subclass

    def __reduce__(self):
        cdef Rows rows = self.rows(INT64_MIN, INT64_MAX)
        starts, lasts, numbers = rows.arrays()
        return __newobj__, (type(self),), (starts, lasts, numbers, rows.values.at, attributes_of(self))


cdef Rows rows_of_state(object state):
    starts, stops, numbers, values, _ = state
    cdef Column positions = column_of(numbers)
    cdef list known = list(values), held = []
    cdef Py_ssize_t row
    cdef int64_t at = 0
    for row in range(positions.length):
        if positions.at(row, &at) != WITHIN or not 0 <= at < size_of(known):
            raise ValueError("the state has a number without a value")
        held.append(<object>item_of(known, at))
    return ordered_rows_of_columns(starts, stops, held)


cdef object attributes_of(object self):
    """The attributes of an instance of a subclass, in its __dict__ and its slots, or None."""
    cdef type kind = type(self)
    if kind is RangeMap or kind is FrozenRangeMap:
        return None
    slots = {name: getattr(self, name) for name in _slotnames(kind) if name != "__weakref__" and hasattr(self, name)}
    return dict(getattr(self, "__dict__", ())), slots


cdef int give_attributes(object self, object attributes) except -1:
    """Sets what `attributes_of` returned. TypeError or ValueError, before any is set, if it is another object."""
    if attributes is not None:
        named, slots = attributes
        if not isinstance(named, dict) or not isinstance(slots, dict):
            raise TypeError("the attributes must be two dictionaries")
        if named and getattr(self, "__dict__", None) is None or not slots.keys() <= set(_slotnames(type(self))):
            raise ValueError("the class has no such attributes")
        if named:
            self.__dict__.update(named)
        for name, value in slots.items():
            setattr(self, name, value)
    return 0
