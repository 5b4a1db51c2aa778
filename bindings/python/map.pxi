# The map that changes: the class, its new maps, and its operators.


@cython.no_gc_clear
cdef class RangeMap(Changes):
    """A map from keys, which are integers from -2**63 to 2**63 - 1, to values, which are any objects.

    `RangeMap(entries)` sets the value of each range of `entries`, which is another map, or `(start, stop, value)` tuples; a later
    one replaces an earlier one. All ranges are half open.

    >>> m = RangeMap([(1, 10, "red"), (5, 7, "blue")])
    >>> m
    RangeMap([(1, 5, 'red'), (5, 7, 'blue'), (7, 10, 'red')])

    It is no `collections.abc.Mapping`: a range may have 2**64 keys, so an iteration yields the entries, and `len` counts them. A key is
    the argument of `in`, `m[key]`, `get` and `pop`. So `for entry in m` does not yield what `key in m` finds.

    >>> list(m), len(m), m.count(), 5 in m, (5, 7, "blue") in m
    ([(1, 5, 'red'), (5, 7, 'blue'), (7, 10, 'red')], 3, 9, True, False)

    `m | n` has the keys of both maps, and n's values where both have one. `m & n` has the keys that both have, with n's values.
    `m - n` has the keys that n does not have. `m ^ n` has the keys that exactly one of them has. `|=`, `&=`, `-=`, `^=` change m.
    An operator raises what a value's `__eq__` raises, and MemoryError; then m is unchanged. O(n + m).

    >>> n = RangeMap([(6, 13, "green")])
    >>> m | n
    RangeMap([(1, 5, 'red'), (5, 6, 'blue'), (6, 13, 'green')])
    >>> m & n, m - n
    (RangeMap([(6, 10, 'green')]), RangeMap([(1, 5, 'red'), (5, 6, 'blue')]))
    >>> m ^ n == (m | n) - (m & n)
    True

    `==`, `<` and the like compare maps as the ascending lists of their (key, value) pairs. They use the values' own `==` and `<`, and
    raise what these raise. So maps with equal lists as values are equal, as dictionaries are. O(n + m).

    >>> RangeMap([(1, 6, 1)]) == RangeMap([(1, 3, 1), (3, 6, 1.0)]) < RangeMap([(1, 6, 1), (6, 7, 0)])
    True
    """

    def __init__(self, entries=()):
        if type(entries) is not tuple or entries:
            self.update(entries)

    # ---- New maps of this class

    cdef RangeMap like(self):
        """An empty map of this class with the attributes of this one."""
        cdef RangeMap new = RangeMap.__new__(type(self))
        give_attributes(new, attributes_of(self))
        return new

    cdef Lookups of_rows(self, Rows rows):
        cdef RangeMap new = self.like()
        check(rows.into_map(&new.map))
        new.values = rows.values
        return new

    def copy(self):
        """Returns a map with the same entries, of this class and with its attributes. Raises MemoryError. O(n).

        >>> m = RangeMap([(1, 6, "a")])
        >>> n = m.copy()
        >>> n[2] = "b"
        >>> m
        RangeMap([(1, 6, 'a')])
        """
        cdef RangeMap new = self.like()
        cdef Values values = self.values.copy()
        cdef int32_t status
        cdef c_thread *thread
        self.in_use += 1
        thread = release(self.length())
        status = range_map_copy_unchecked(&self.map, &new.map)
        acquire(thread)
        self.in_use -= 1
        check(status)
        new.values = values
        return new

    def __copy__(self):
        return self.copy()

    def freeze(self):
        """Returns a FrozenRangeMap of the same entries. Raises MemoryError. O(n).

        >>> RangeMap([(1, 6, "a")]).freeze()
        FrozenRangeMap([(1, 6, 'a')])
        """
        return FrozenRangeMap(self)

    @classmethod
    def from_arrays(cls, starts, stops, values):
        """Returns the map with `values[i]` at the keys of each range `starts[i]` to `stops[i]`.

        `starts` and `stops` are columns of integers, as the module's docstring says; in `stops`, -2**63 stands for 2**63. `values`
        is an iterable. Raises ValueError if a range is empty, if two share a key or do not ascend, and if the columns are not
        equally long. Raises OverflowError if a start or stop is below -2**63 or above 2**63. Raises TypeError, MemoryError, and
        what a value's `__hash__` or `__eq__` raises. O(n).

        >>> m = RangeMap([(1, 6, "a"), (8, 2**63, "b")])
        >>> RangeMap.from_arrays(*m.to_arrays()) == m
        True
        """
        cdef RangeMap new = RangeMap.__new__(cls)
        return new.of_rows(ordered_rows_of_columns(starts, stops, list(values)))

    def complement(self, value):
        """Returns a map with `value` at exactly the keys that have no value here, of this class and with its attributes.

        Raises MemoryError, and what the value's `__hash__` raises, except TypeError. O(n).

        >>> RangeMap([(0, None, "a")]).complement("b") == RangeMap([(-2**63, 0, "b")])
        True
        """
        cdef RangeMap new = self.like()
        cdef uint64_t number = new.values.number_of(value)
        cdef int32_t status
        cdef c_thread *thread
        self.in_use += 1
        thread = release(self.length())
        status = range_map_complement_unchecked(&self.map, number, &new.map)
        acquire(thread)
        self.in_use -= 1
        check(status)
        return new

    def split(self, key):
        """Keeps the keys below `key`, and returns a map of the others, of this class and with its attributes.

        Raises TypeError if `key` is not an integer, and MemoryError. Then the map is unchanged. O(n).

        >>> m = RangeMap([(1, 6, "a")])
        >>> m.split(4), m
        (RangeMap([(4, 6, 'a')]), RangeMap([(1, 4, 'a')]))
        """
        cdef int64_t at
        cdef int side = key_of(key, &at)
        cdef RangeMap new = self.like()
        cdef Values values
        cdef int32_t status
        if side > 0:
            return new
        if side < 0:
            at = INT64_MIN
        while True:
            self.wait()
            values = self.values.copy()
            if not self.in_use:  # (the garbage collector may let other threads run)
                break
        status = range_map_split_off_unchecked(&self.map, at, &new.map)
        new.values = values
        self.finish(status, new.length() > 0)
        new.finish(DONE, True)
        return new

    # ---- Operators

    def __or__(self, other):
        return combined(self, other, UNION)

    def __and__(self, other):
        return combined(self, other, INTERSECTION)

    def __sub__(self, other):
        return combined(self, other, DIFFERENCE)

    def __xor__(self, other):
        return combined(self, other, SYMMETRIC_DIFFERENCE)

    def __ior__(self, other):
        return combined_in_place(self, other, UNION)

    def __iand__(self, other):
        return combined_in_place(self, other, INTERSECTION)

    def __isub__(self, other):
        return combined_in_place(self, other, DIFFERENCE)

    def __ixor__(self, other):
        return combined_in_place(self, other, SYMMETRIC_DIFFERENCE)

    def __setstate__(self, state):
        cdef Rows rows = rows_of_state(state)
        give_attributes(self, state[4])
        combine(self, rows, REPLACEMENT)
