# The calls that change a map.


cdef class Changes(Tree):
    """The calls of RangeMap that change it."""

    def __setitem__(self, keys, value):
        """Sets the value of a key, or of each key of a slice.

        A value for which `hash` raises TypeError, such as a list, is compared by identity. Raises TypeError if an end is not an
        integer, and ValueError if the slice has a step. Raises OverflowError if a key is below -2**63 or above 2**63 - 1. Raises
        MemoryError, and what else the value's `__hash__` or `__eq__` raises. Then the map is unchanged. An empty slice does
        nothing. O(log n) for each entry that the slice touches.

        >>> m = RangeMap()
        >>> m[1:6] = "a"
        >>> m[3] = "b"
        >>> m[6:2] = "c"
        >>> m
        RangeMap([(1, 3, 'a'), (3, 4, 'b'), (4, 6, 'a')])
        """
        cdef int64_t lo, hi
        if is_slice(keys):
            if slice_of(keys, True, &lo, &hi):
                self.paint(lo, hi, value)
        elif key_of(keys, &lo):
            raise OverflowError("the key is below -2**63 or above 2**63 - 1")
        else:
            self.paint(lo, lo, value)

    def __delitem__(self, keys):
        """Removes a key, or each key of a slice that has a value.

        Raises KeyError if a single key has no value; TypeError if an end is not an integer; ValueError if the slice has a step;
        MemoryError. Then the map is unchanged. O(log n) for each entry that the slice touches.

        >>> m = RangeMap([(1, 6, "a")])
        >>> del m[2:4], m[5], m[:2]
        >>> m
        RangeMap([(4, 5, 'a')])
        """
        cdef int64_t lo, hi
        if is_slice(keys):
            if slice_of(keys, False, &lo, &hi):
                self.remove_range(lo, hi)
        elif key_of(keys, &lo) or self.take(lo, _MISSING) is _MISSING:
            raise KeyError(keys)

    def setdefault(self, start, stop, value):
        """Sets the value of each key of the range that has none, and returns whether there was such a key.

        A dictionary's `setdefault` returns the value; a range may have many. An end may be None. Raises what `m[start:stop] = value` raises; then the map is unchanged. O(log n) for each gap in the
        range, and O(1) for each entry.

        >>> m = RangeMap([(3, 6, "a")])
        >>> m.setdefault(1, 10, "b"), m
        (True, RangeMap([(1, 3, 'b'), (3, 6, 'a'), (6, 10, 'b')]))
        """
        cdef int64_t lo, hi
        cdef c_bool is_changed = False
        cdef int32_t status
        cdef uint64_t number
        if not keys_of(start, stop, True, &lo, &hi):
            return False
        number = self.values.number_of(value)
        self.wait()
        status = range_map_fill_unchecked(&self.map, lo, hi, number, &is_changed)
        self.finish(status, is_changed)
        return bool(is_changed)

    def pop(self, key, default=_MISSING):
        """Removes a key and returns its value, or `default` if it has none.

        Raises KeyError if the key has no value and there is no default; TypeError if it is not an integer; MemoryError. Then the
        map is unchanged. O(log n).

        >>> m = RangeMap([(1, 6, "a")])
        >>> m.pop(3), m.pop(3, "none"), m
        ('a', 'none', RangeMap([(1, 3, 'a'), (4, 6, 'a')]))
        """
        cdef int64_t at
        value = default if key_of(key, &at) else self.take(at, default)
        if value is _MISSING:
            raise KeyError(key)
        return value

    def popitem(self, last=True):
        """Removes the greatest key that has a value, or the least one if `last` is false, and returns it with its value.

        Raises KeyError if the map is empty, and MemoryError. Then the map is unchanged. O(log n).

        >>> m = RangeMap([(1, 6, "a")])
        >>> m.popitem(), m.popitem(last=False), m
        ((5, 'a'), (1, 'a'), RangeMap([(2, 5, 'a')]))
        """
        cdef c_bool had = False
        cdef int64_t key
        cdef uint64_t number, changes
        cdef int32_t status
        cdef bint is_last = last
        cdef tuple item
        while True:
            changes = self.changes
            item = self.end(is_last)
            self.wait()
            if changes == self.changes:  # (the garbage collector and other threads may run Python code)
                break
        if is_last:
            status = range_map_pop_last_unchecked(&self.map, &had, &key, &number)
        else:
            status = range_map_pop_first_unchecked(&self.map, &had, &key, &number)
        self.finish(status, had)
        return item

    def clear(self):
        """Removes all keys. O(n).

        >>> m = RangeMap([(1, 6, "a")])
        >>> m.clear()
        >>> m
        RangeMap()
        """
        cdef bint is_changed
        cdef c_map old
        cdef c_thread *thread
        self.wait()
        is_changed = self.length() > 0
        old = self.map
        memset(&self.map, 0, sizeof(self.map))
        self.changes += is_changed
        thread = release(range_map_entries_unchecked(&old))
        range_map_free_unchecked(&old)
        acquire(thread)
        self.drop_unused(is_changed)

    # ---- Change by many entries

    def update(self, entries):
        """Sets the value of each range of `entries`, in order: another map, or an iterable of `(start, stop, value)`.

        An end may be None. Raises what `m[start:stop] = value` raises for one of them; then the map is unchanged. For k entries,
        O(log n) for each of them and each entry that they touch if k is at most n / 16, else O(n + k log k).

        >>> m = RangeMap([(1, 6, "a")])
        >>> m.update([(5, 8, "b"), (7, 8, "c")])
        >>> m
        RangeMap([(1, 5, 'a'), (5, 7, 'b'), (7, 8, 'c')])
        """
        cdef Rows rows
        cdef list values
        cdef int64_t lo, hi
        if isinstance(entries, Lookups):
            combine(self, (<Lookups>entries).rows(INT64_MIN, INT64_MAX), UNION)
            return
        rows, values = new_rows(), []
        for start, stop, value in entries:
            pause(rows.length)
            if keys_of(start, stop, True, &lo, &hi):
                rows.push(lo, hi, 0)
                values.append(value)
        self.paint_rows(rows, values)

    def paint_many(self, starts, stops, values):
        """Sets the value of each range `starts[i]` to `stops[i]`, in order, to `values[i]`.

        `starts` and `stops` are columns of integers, as the module's docstring says; in `stops`, -2**63 stands for 2**63. `values`
        is an iterable. Raises ValueError if the columns are not equally long, OverflowError if a start or stop is below -2**63 or
        above 2**63, and what `m[start:stop] = value` raises; then the map is unchanged. O(n + k log k) for k ranges.

        >>> m = RangeMap()
        >>> m.paint_many([1, 5], [6, 8], ["a", "b"])
        >>> m
        RangeMap([(1, 5, 'a'), (5, 8, 'b')])
        >>> n = RangeMap()
        >>> n.paint_many(*m.to_arrays())
        >>> n == m
        True
        """
        cdef list held = list(values)
        cdef Rows rows = rows_of_columns(starts, stops, held, True)
        cdef Py_ssize_t row
        self.paint_rows(rows, [held[rows.number[row]] for row in range(rows.length)])

    def update_range(self, start, stop, function, missing=None):
        """Changes the keys of the range by a function of their values.

        It calls `function` once for each entry and each gap of the range, cut to it, ascending, with its value, or `missing` for a
        gap. Then it sets their keys to the result, or removes them if the result is `missing`.

        All calls come before the first change. If values of the map may be None, pass another object as `missing`. An end may be
        None. Raises what `function` raises, RuntimeError if the map changes during a call, and what `m[start:stop] = value` raises;
        then the map is unchanged by this method. O(log n) for each entry in the range, and O(n) if there are more than n / 16
        runs of pieces that change to the same result.

        >>> m = RangeMap([(1, 6, "a"), (8, 10, "b")])
        >>> m.update_range(4, 9, lambda old: old and old.upper())
        >>> m
        RangeMap([(1, 4, 'a'), (4, 6, 'A'), (8, 9, 'B'), (9, 10, 'b')])
        >>> m.update_range(0, 9, lambda old: None if old == "gap" else "full", missing="gap")
        >>> m
        RangeMap([(0, 1, None), (1, 6, 'full'), (6, 8, None), (8, 9, 'full'), (9, 10, 'b')])
        """
        cdef int64_t lo, hi
        cdef uint64_t changes
        cdef Rows rows, pieces = new_rows()
        cdef Py_ssize_t row
        cdef list olds = [], news = []
        if not keys_of(start, stop, True, &lo, &hi):
            return
        changes = self.changes
        rows = self.rows(lo, hi)
        for row in range(rows.length):
            pause(row)
            if lo < rows.lo[row]:
                pieces.push(lo, rows.lo[row] - 1, 0)
                olds.append(missing)
            pieces.push(rows.lo[row], rows.hi[row], 0)
            olds.append(rows.values.value_of(rows.number[row]))
            lo = rows.hi[row] + (rows.hi[row] < hi)
        if not rows.length or rows.hi[rows.length - 1] < hi:
            pieces.push(lo, hi, 0)
            olds.append(missing)
        for old in olds:
            news.append(function(old))
            pause(size_of(news))
            check_changes(self, changes)
        set_pieces(self, pieces, news, missing, changes)
