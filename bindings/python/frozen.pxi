# The map that never changes.


@cython.no_gc_clear
cdef class FrozenRangeMap(Walks):
    """A map that never changes, with a hash: `FrozenRangeMap(entries)` takes what `RangeMap(entries)` takes, or a RangeMap.

    Any number of threads may read it. Its hash is equal for equal maps, so it can be a key of a dictionary or a value of a map. As a
    tuple, it has no hash if one of its values has none.

    >>> f = FrozenRangeMap([(1, 6, "a"), (8, 10, "b")])
    >>> f[3], f.count(), hash(f) == hash(f[1:20])
    ('a', 7, True)

    It has the operators `|`, `&`, `-`, `^` of RangeMap. As with `set` and `frozenset`, the result has the class of the left map.
    `f |= m` makes another map.

    >>> f | RangeMap([(5, 8, "c")])
    FrozenRangeMap([(1, 5, 'a'), (5, 8, 'c'), (8, 10, 'b')])
    """

    cdef Rows table
    cdef Py_hash_t hash
    cdef bint has_hash, is_made

    def __cinit__(self):
        self.give(new_rows())

    def __init__(self, entries=()):
        if self.is_made:
            return  # as a tuple, it ignores a second call
        if not isinstance(entries, Lookups):
            entries = RangeMap(entries)
        self.give((<Lookups>entries).rows(INT64_MIN, INT64_MAX))
        self.is_made = True

    cdef void give(self, Rows table):
        self.table, self.values, self.has_hash = table, table.values, False
        self.changes += 1

    cdef bint find(self, int64_t key, uint64_t *number) nogil:
        return self.table.find(key, number)

    cdef bint around(self, int64_t key, int64_t *lo, int64_t *hi, uint64_t *number) nogil:
        lo[0], hi[0] = INT64_MIN, INT64_MAX
        return self.table.length and range_table_entry_or_gap_at_unchecked(
            self.table.lo, self.table.length, self.table.hi, self.table.length, self.table.number, self.table.length, key, lo, hi,
            number)

    cdef Py_ssize_t row_from(self, int64_t at, bint is_back) nogil:
        """The first row that ends at a key or above it, or back the last that starts at it or below it."""
        cdef Py_ssize_t row = 0, end = self.table.length, middle
        while row < end:
            middle = row + (end - row) // 2
            if self.table.lo[middle] <= at if is_back else self.table.hi[middle] < at:
                row = middle + 1
            else:
                end = middle
        return row - is_back

    cdef size_t read(self, int64_t at, bint is_back, int64_t *lo, int64_t *hi, uint64_t *number, size_t room) nogil:
        cdef Py_ssize_t row = self.row_from(at, is_back), step = -1 if is_back else 1
        cdef size_t count = 0
        while count < room and 0 <= row < self.table.length:
            lo[count], hi[count], number[count] = self.table.lo[row], self.table.hi[row], self.table.number[row]
            count += 1
            row += step
        return count

    cdef bint find_free(self, int64_t lo, int64_t hi, uint64_t length, bint is_last, int64_t *found) nogil:
        # The keys from `lo` to `hi` are those in which there may be so many.
        cdef Py_ssize_t row = self.row_from(hi if is_last else lo, is_last)
        cdef int64_t first, last
        while 0 <= row < self.table.length:
            first, last = self.table.lo[row], self.table.hi[row]
            if last < lo or hi < first:
                break
            elif is_last:
                if last < hi and <uint64_t>hi - <uint64_t>last >= length:
                    lo = last + 1
                    break
                elif first <= lo:
                    return False
                hi = first - 1
                row -= 1
            else:
                if lo < first and <uint64_t>first - <uint64_t>lo >= length:
                    hi = first - 1
                    break
                elif hi <= last:
                    return False
                lo = last + 1
                row += 1
        found[0] = <int64_t>(<uint64_t>hi - (length - 1)) if is_last else lo
        return length and <uint64_t>hi - <uint64_t>lo >= length - 1

    cdef size_t length(self) nogil:
        return self.table.length

    cdef size_t bytes_of_entries(self):
        return object.__sizeof__(self.table) + 24 * self.table.room

    cdef void keys_within(self, int64_t lo, int64_t hi, uint64_t *low, uint64_t *high) nogil:
        low[0] = high[0] = 0
        if self.table.length:
            range_table_count_within_unchecked(self.table.lo, self.table.length, self.table.hi, self.table.length,
                                               self.table.number, self.table.length, lo, hi, low, high)

    cdef Lookups of_rows(self, Rows rows):
        cdef FrozenRangeMap new = FrozenRangeMap.__new__(type(self))
        give_attributes(new, attributes_of(self))
        new.give(rows)
        new.is_made = True
        return new

    def copy(self):
        """Returns this map, which never changes, or for an instance of a subclass a new one with its attributes. O(1).

        >>> f = FrozenRangeMap([(1, 6, "a")])
        >>> f.copy() is f
        True
        """
        return self if type(self) is FrozenRangeMap else self.of_rows(self.table)

    def __copy__(self):
        return self.copy()

    def freeze(self):
        """Returns this map. O(1).

        >>> f = FrozenRangeMap([(1, 6, "a")])
        >>> f.freeze() is f
        True
        """
        return self

    @classmethod
    def from_arrays(cls, starts, stops, values):
        """Returns the map with `values[i]` at the keys of each range `starts[i]` to `stops[i]`.

        `starts` and `stops` are columns of integers, as the module's docstring says; in `stops`, -2**63 stands for 2**63. `values`
        is an iterable. Raises ValueError if a range is empty, if two share a key or do not ascend, and if the columns are not
        equally long. Raises OverflowError if a start or stop is below -2**63 or above 2**63. Raises TypeError, MemoryError, and
        what a value's `__hash__` or `__eq__` raises. O(n).

        >>> f = FrozenRangeMap([(1, 6, "a"), (8, 2**63, "b")])
        >>> FrozenRangeMap.from_arrays(*f.to_arrays()) == f
        True
        """
        cdef FrozenRangeMap new = FrozenRangeMap.__new__(cls)
        return new.of_rows(ordered_rows_of_columns(starts, stops, list(values)))

    def get_many(self, keys):
        """Returns a list with the value at each key of an array, or None where a key has none.

        `keys` is a column of integers, as the module's docstring says. Raises TypeError if it has another item or more than one
        dimension, and MemoryError. Other threads run during the lookups. O(k log n) for k keys; arrays are the fastest.

        >>> from array import array
        >>> FrozenRangeMap([(1, 6, "a")]).get_many(array("q", [0, 1, 5, 6]))
        [None, 'a', 'a', None]
        """
        cdef Column sought = column_of(keys)
        cdef Rows found = new_rows(), table = self.table
        cdef list values
        cdef Py_ssize_t row
        cdef int64_t key = 0
        found.reserve(sought.length + 1)
        with nogil:
            for row in range(sought.length):
                if sought.at(row, &key) != WITHIN or not table.find(key, &found.number[row]):
                    found.number[row] = UINT64_MAX
        values = new_list(sought.length)
        for row in range(sought.length):
            value = None if found.number[row] == UINT64_MAX else table.values.value_of(found.number[row])
            add_reference_to(value)
            put_item(values, row, value)
            pause(row)
        return values

    def __richcmp__(self, other, int operator):
        return compared(self, other, operator)  # Cython does not inherit it by a class that has __hash__

    def __or__(self, other):
        return combined(self, other, UNION)

    def __and__(self, other):
        return combined(self, other, INTERSECTION)

    def __sub__(self, other):
        return combined(self, other, DIFFERENCE)

    def __xor__(self, other):
        return combined(self, other, SYMMETRIC_DIFFERENCE)

    def __hash__(self):
        """Returns the hash of the content, which is equal for equal maps. Raises TypeError if a value has no hash. O(n) once, then O(1).

        >>> hash(FrozenRangeMap([(1, 6, 1)])) == hash(FrozenRangeMap([(1, 3, True), (3, 6, 1.0)]))
        True
        """
        cdef uint64_t hash = 0x345678
        cdef Py_ssize_t row
        cdef Py_hash_t *hashes = self.values.hashes
        cdef Rows table = self.table
        if not self.has_hash:
            # Adjacent rows whose values have one hash count as one row: equal values of two types make two rows.
            for row in range(table.length):
                if hashes[table.number[row]] == NO_HASH:
                    raise TypeError("a value of the map has no hash")
                if row == 0 or table.lo[row] - 1 != table.hi[row - 1] or \
                        hashes[table.number[row]] != hashes[table.number[row - 1]]:
                    hash = mixed(hash ^ table.lo[row])
                    hash = mixed(hash ^ hashes[table.number[row]])
                if row + 1 == table.length or table.lo[row + 1] - 1 != table.hi[row] or \
                        hashes[table.number[row]] != hashes[table.number[row + 1]]:
                    hash = mixed(hash ^ table.hi[row])
            self.hash = -2 if <Py_hash_t>hash == -1 else <Py_hash_t>hash
            self.has_hash = True
        return self.hash

    def __setstate__(self, state):
        cdef Rows rows
        if self.is_made:
            raise TypeError("a FrozenRangeMap never changes")
        rows = rows_of_state(state)
        give_attributes(self, state[4])
        self.give(rows)
        self.is_made = True
