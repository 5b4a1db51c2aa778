# Lookups, which both kinds of map have.


cdef class Lookups:
    """The lookups that RangeMap and FrozenRangeMap have in common."""

    cdef Values values
    cdef uint64_t changes  # how often the content changed
    cdef int in_use        # calls of the library that read the map while other threads run
    cdef object __weakref__

    __array_ufunc__ = None  # NumPy's operators do not take a map for an array

    # ---- What the two kinds do in C. None of these runs Python code.

    cdef bint find(self, int64_t key, uint64_t *number) nogil:
        return False

    cdef bint around(self, int64_t key, int64_t *lo, int64_t *hi, uint64_t *number) nogil:
        return False

    cdef size_t read(self, int64_t at, bint is_back, int64_t *lo, int64_t *hi, uint64_t *number, size_t room) nogil:
        return 0

    cdef size_t length(self) nogil:
        return 0

    cdef void keys_within(self, int64_t lo, int64_t hi, uint64_t *low, uint64_t *high) nogil:
        pass

    cdef bint find_free(self, int64_t lo, int64_t hi, uint64_t length, bint is_last, int64_t *found) nogil:
        """Whether there are so many keys in a row without a value, and where the first or the last such keys start."""
        return False

    cdef Rows rows(self, int64_t lo, int64_t hi):
        """The entries within a range, cut to it. All are of one moment, but the map may have changed when the call returns."""
        cdef Rows rows = new_rows()
        cdef Values values = self.values
        cdef Py_ssize_t row
        values.pins += 1
        try:
            self.read_rows(rows, lo, hi)
            for row in range(rows.length):
                pause(row)
                rows.number[row] = rows.values.adopt(values, rows.number[row])
        finally:
            values.pins -= 1
        if rows.length:
            rows.lo[0] = max(rows.lo[0], lo)
            rows.hi[rows.length - 1] = min(rows.hi[rows.length - 1], hi)
        return rows

    cdef Rows snapshot(self, int64_t start):
        """The entries of one moment that end at a key or above it, with the numbers and the values of this map. The caller pins these."""
        cdef Rows rows = new_rows()
        self.read_rows(rows, start, INT64_MAX)
        rows.values = self.values
        return rows

    cdef int read_rows(self, Rows rows, int64_t lo, int64_t hi) except -1:
        """Reads the entries that have a key in a range. No Python code runs here, but other threads may look up keys."""
        cdef size_t room = self.length() if lo == INT64_MIN and hi == INT64_MAX else 8
        cdef Py_ssize_t row
        cdef int64_t at = lo
        cdef c_thread *thread
        while self.length():
            rows.reserve(rows.length + room)
            self.in_use += 1
            thread = release(room)
            row = self.read(at, False, rows.lo + rows.length, rows.hi + rows.length, rows.number + rows.length, room)
            acquire(thread)
            self.in_use -= 1
            rows.length += row
            while rows.length and rows.lo[rows.length - 1] > hi:
                rows.length -= 1
                row = 0
            if <size_t>row < room or rows.hi[rows.length - 1] >= hi:
                break
            at = rows.hi[rows.length - 1] + 1
            room = rows.length
        return 0

    cdef Lookups of_rows(self, Rows rows):
        """A map of this class with the attributes of this one, and with the rows."""
        raise NotImplementedError

    # ---- Lookups

    def get(self, key, default=None):
        """Returns the value at `key`, or `default` if the key has none.

        Raises TypeError if `key` is not an integer. O(log n).

        >>> m = RangeMap([(1, 6, "a")])
        >>> m.get(5), m.get(6), m.get(6, "none"), m.get(2**70)
        ('a', None, 'none', None)
        """
        cdef int64_t at
        cdef uint64_t number
        if key_of(key, &at) == 0 and self.find(at, &number):
            return self.values.value_of(number)
        return default

    def __getitem__(self, keys):
        """Returns the value at a key, or for a slice a new map of the keys within it.

        Raises KeyError if the key has no value, TypeError if it is not an integer, ValueError if the slice has a step. The new
        map has the class and the attributes of this one. O(log n), and O(1) for each entry within the slice.

        >>> m = RangeMap([(1, 6, "a"), (8, 10, "b")])
        >>> m[3], m[4:9]
        ('a', RangeMap([(4, 6, 'a'), (8, 9, 'b')]))
        """
        cdef int64_t lo, hi
        cdef uint64_t number
        if is_slice(keys):
            return self.of_rows(self.rows(lo, hi) if slice_of(keys, False, &lo, &hi) else new_rows())
        if key_of(keys, &lo) == 0 and self.find(lo, &number):
            return self.values.value_of(number)
        raise KeyError(keys)

    def __contains__(self, key):
        """Returns whether an object is an integer that has a value, or a number that is equal to one, as `in` of a `range` does. An
        entry is no key. O(log n).

        >>> from decimal import Decimal
        >>> m = RangeMap([(1, 6, "a")])
        >>> 5 in m, 5.0 in m, Decimal(5) in m, 5.5 in m, "5" in m, 2**70 in m
        (True, True, True, False, False, False)
        """
        cdef int64_t at
        cdef uint64_t number
        if not PyLong_Check(key):
            key = integer_of(key)
        return key is not None and key_of(key, &at) == 0 and self.find(at, &number)

    def __len__(self):
        """Returns the number of entries; `count` counts the keys. O(1).

        >>> len(RangeMap([(1, 6, "a"), (8, 10, "b")]))
        2
        """
        return self.length()

    def entry_at(self, key):
        """Returns the entry `(start, stop, value)` that contains `key`, or None.

        Raises TypeError if `key` is not an integer. O(log n).

        >>> m = RangeMap([(1, 6, "a")])
        >>> m.entry_at(3), m.entry_at(6)
        ((1, 6, 'a'), None)
        """
        cdef int64_t at, lo, hi
        cdef uint64_t number
        if key_of(key, &at) or not self.around(at, &lo, &hi, &number):
            return None
        value = self.values.value_of(number)
        return lo, stop_of(hi), value

    def gap_at(self, key):
        """Returns the longest range `(start, stop)` around `key` in which no key has a value, or None if `key` has a value or is
        not within -2**63 to 2**63 - 1.

        Raises TypeError if `key` is not an integer. O(log n).

        >>> m = RangeMap([(1, 6, "a"), (9, 10, "b")])
        >>> m.gap_at(7), m.gap_at(3), m.gap_at(10) == (10, 2**63)
        ((6, 9), None, True)
        """
        cdef int64_t at, lo, hi
        cdef uint64_t number
        if key_of(key, &at) or self.around(at, &lo, &hi, &number):
            return None
        return lo, stop_of(hi)

    cdef tuple nearest(self, key, bint is_back):
        cdef int64_t at, lo, hi
        cdef uint64_t number
        cdef int side = key_of(key, &at)
        if side:
            if is_back == (side < 0):
                return None
            at = INT64_MAX if is_back else INT64_MIN
        if not self.read(at, is_back, &lo, &hi, &number, 1):
            return None
        value = self.values.value_of(number)
        return lo, stop_of(hi), value

    def entry_at_or_above(self, key):
        """Returns the first entry `(start, stop, value)` that contains `key` or is above it, or None.

        Raises TypeError if `key` is not an integer. O(log n).

        >>> m = RangeMap([(1, 6, "a"), (8, 10, "b")])
        >>> m.entry_at_or_above(5), m.entry_at_or_above(6), m.entry_at_or_above(10)
        ((1, 6, 'a'), (8, 10, 'b'), None)
        """
        return self.nearest(key, False)

    def entry_at_or_below(self, key):
        """Returns the last entry `(start, stop, value)` that contains `key` or is below it, or None.

        Raises TypeError if `key` is not an integer. O(log n).

        >>> m = RangeMap([(1, 6, "a"), (8, 10, "b")])
        >>> m.entry_at_or_below(8), m.entry_at_or_below(7), m.entry_at_or_below(0)
        ((8, 10, 'b'), (1, 6, 'a'), None)
        """
        return self.nearest(key, True)

    cdef tuple end(self, bint is_last):
        cdef int64_t lo, hi
        cdef uint64_t number
        if not self.read(INT64_MAX if is_last else INT64_MIN, is_last, &lo, &hi, &number, 1):
            raise KeyError("the map is empty")
        value = self.values.value_of(number)
        return hi if is_last else lo, value

    def first(self):
        """Returns the least key that has a value, and that value. Raises KeyError if the map is empty. O(log n).

        >>> RangeMap([(1, 6, "a"), (8, 10, "b")]).first()
        (1, 'a')
        """
        return self.end(False)

    def last(self):
        """Returns the greatest key that has a value, and that value. Raises KeyError if the map is empty. O(log n).

        >>> RangeMap([(1, 6, "a"), (8, 10, "b")]).last()
        (9, 'b')
        """
        return self.end(True)

    def count(self, start=None, stop=None):
        """Returns how many keys of the range have a value.

        Raises TypeError if an end is neither an integer nor None. O(log n), and O(1) for each entry in the range; a RangeMap
        counts all keys in O(1).

        >>> m = RangeMap([(1, 6, "a"), (8, 10, "b")])
        >>> m.count(), m.count(4, 9), m.count(stop=3), m.count(9, 4)
        (7, 3, 2, 0)
        """
        cdef int64_t lo, hi
        cdef uint64_t low, high
        if not keys_of(start, stop, False, &lo, &hi):
            return 0
        self.keys_within(lo, hi, &low, &high)
        return count_of(low, high)

    def has_any(self, start=None, stop=None):
        """Returns whether a key of the range has a value.

        Raises TypeError if an end is neither an integer nor None. O(log n).

        >>> m = RangeMap([(1, 6, "a"), (8, 10, "b")])
        >>> m.has_any(), m.has_any(4, 7), m.has_any(6, 8), m.has_any(4, 4)
        (True, True, False, False)
        """
        cdef int64_t lo, hi, first, last
        cdef uint64_t number
        if not keys_of(start, stop, False, &lo, &hi):
            return False
        return self.read(lo, False, &first, &last, &number, 1) > 0 and first <= hi

    def has_all(self, start=None, stop=None):
        """Returns whether each key of the range has a value, which is true for a range without keys.

        A range with keys outside of -2**63 to 2**63 - 1 has keys without values. Raises TypeError if an end is neither an integer nor
        None. O(log n), and O(1) for each entry up to the first gap.

        >>> m = RangeMap([(1, 6, "a"), (6, 10, "b")])
        >>> m.has_all(1, 10), m.has_all(0, 10), m.has_all(4, 4), m.has_all()
        (True, False, True, False)
        """
        cdef int64_t lo, hi, found
        if start is not None and not PyLong_Check(start):
            start = index_of(start)
        if stop is not None and not PyLong_Check(stop):
            stop = index_of(stop)
        if not keys_of(start, stop, False, &lo, &hi):
            return (INT64_MIN if start is None else start) >= (2**63 if stop is None else stop)
        if lo == INT64_MIN and start is not None and start < INT64_MIN or hi == INT64_MAX and stop is not None and stop > 2**63:
            return False
        return not self.find_free(lo, hi, 1, False, &found)

    def find_gap(self, length, start=None, stop=None, *, last=False):
        """Returns the least key that starts `length` keys in a row, within the range, of which none has a value.

        If `last` is true, returns the greatest such key. Returns None if there is none, or if `length` is below 1. Raises TypeError
        if an argument is not an integer. O(log n), and O(1) for each entry up to the result.

        >>> m = RangeMap([(1, 6, "a"), (8, 10, "b")])
        >>> m.find_gap(2, 0, 20), m.find_gap(2, 0, 20, last=True), m.find_gap(3, 0, 10), m.find_gap(0)
        (6, 18, None, None)
        """
        cdef int64_t lo, hi, found
        if not keys_of(start, stop, False, &lo, &hi):
            return None
        length = index_of(length)
        if length < 1 or length > UINT64_MAX:
            return lo if length == 2**64 and not self.length() and lo == INT64_MIN and hi == INT64_MAX else None
        return found if self.find_free(lo, hi, length, last, &found) else None

    def get_many(self, keys):
        """Returns a list with the value at each key of an array, or None where a key has none.

        `keys` is a column of integers, as the module's docstring says. Raises TypeError if it has another item or more than one
        dimension. O(k log n) for k keys; arrays are the fastest.

        >>> from array import array
        >>> m = RangeMap([(1, 6, "a")])
        >>> m.get_many(array("q", [0, 1, 5, 6])), m.get_many([5, 2**70]), m.get_many(range(5, 8))
        ([None, 'a', 'a', None], ['a', None], ['a', None, None])
        """
        cdef Column found = column_of(keys)
        cdef list values = new_list(found.length)
        cdef Py_ssize_t row
        cdef int64_t key = 0
        cdef uint64_t number
        for row in range(found.length):
            value = self.values.value_of(number) if found.at(row, &key) == WITHIN and self.find(key, &number) else None
            add_reference_to(value)
            put_item(values, row, value)
            pause(row)
        return values

    def to_arrays(self):
        """Returns the columns of the entries: `array("q")` of starts, `array("q")` of stops, and a list of values. In the column
        of stops, -2**63 stands for 2**63. `from_arrays` and `paint_many` read them. O(n).

        `update` reads entries, not columns: for it, pass the map itself, or `list(m)`, where the stop 2**63 is an int.

        >>> RangeMap([(1, 6, "a"), (8, 10, "b")]).to_arrays()
        (array('q', [1, 8]), array('q', [6, 10]), ['a', 'b'])
        """
        cdef Rows rows = self.rows(INT64_MIN, INT64_MAX)
        cdef Py_ssize_t row
        starts, stops, _ = rows.arrays()
        return starts, stops, [rows.values.value_of(rows.number[row]) for row in range(rows.length)]
