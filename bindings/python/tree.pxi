# The map of the library, with the values of its numbers: what RangeMap does in C.

cdef int check(int32_t status) except -1:
    if status != DONE:
        raise MemoryError
    return 0


@cython.no_gc_clear
cdef class Tree(Walks):
    """The lookups and changes of RangeMap."""

    cdef c_map map

    def __cinit__(self):
        self.values = Values.__new__(Values)

    def __dealloc__(self):
        range_map_free_unchecked(&self.map)

    cdef bint find(self, int64_t key, uint64_t *number) nogil:
        return range_map_get_unchecked(&self.map, key, number)

    cdef bint around(self, int64_t key, int64_t *lo, int64_t *hi, uint64_t *number) nogil:
        return range_map_entry_or_gap_at_unchecked(&self.map, key, lo, hi, number)

    cdef size_t read(self, int64_t at, bint is_back, int64_t *lo, int64_t *hi, uint64_t *number, size_t room) nogil:
        if is_back:
            return range_map_entries_back_into_unchecked(&self.map, at, lo, room, hi, room, number, room)
        return range_map_entries_into_unchecked(&self.map, at, lo, room, hi, room, number, room)

    cdef size_t length(self) nogil:
        return range_map_entries_unchecked(&self.map)

    cdef size_t bytes_of_entries(self):
        return 48 * self.length()

    cdef void keys_within(self, int64_t lo, int64_t hi, uint64_t *low, uint64_t *high) nogil:
        if lo == INT64_MIN and hi == INT64_MAX:
            range_map_count_unchecked(&self.map, low, high)
        else:
            range_map_count_within_unchecked(&self.map, lo, hi, low, high)

    cdef bint find_free(self, int64_t lo, int64_t hi, uint64_t length, bint is_last, int64_t *found) nogil:
        if is_last:
            return range_map_find_last_gap_unchecked(&self.map, lo, hi, length, found)
        return range_map_find_gap_unchecked(&self.map, lo, hi, length, found)

    # ---- Change. No Python code of this thread runs between the lookup of a value's number and the call that gives it to an entry.

    cdef void wait(self, int own=0):
        """Waits until no other thread reads the map. Then the map may be changed until Python code or another thread may run.
        Meanwhile other threads may change it."""
        self.values.pins += 1
        while self.in_use > own:
            with nogil:
                sleep_for(50)
        self.values.pins -= 1

    cdef void drop_unused(self, bint is_changed):
        """Drops the values that no entry has, if there are many, and gives back room for values if there is much. Each call that
        changes the map or adds a value ends with this, after its result is made: a value's __del__ may change the map."""
        cdef list dropped
        cdef uint64_t entries
        if size_of(self.values.at) > 16 and not self.values.pins and not self.in_use:
            entries = range_map_entries_unchecked(&self.map)
            if is_changed and <uint64_t>size_of(self.values.at) > 8 * entries + 64:  # (a call that changes nothing ends no iterator)
                dropped = renumber(self)
            elif <uint64_t>self.values.count > 2 * entries + 16:
                dropped = self.values.sweep(&self.map)

    cdef int finish(self, int32_t status, bint is_changed) except -1:
        if is_changed:
            self.changes += 1
        self.drop_unused(is_changed)
        return check(status)

    cdef int32_t paint_number(self, int64_t lo, int64_t hi, uint64_t number, bint *is_changed):
        cdef uint64_t old = 0
        cdef int64_t start, end
        cdef c_bool is_counted
        cdef int32_t status = DONE
        is_changed[0] = False
        if not range_map_entry_or_gap_at_unchecked(&self.map, lo, &start, &end, &old) or old != number or end < hi:
            status = range_map_paint_unchecked(&self.map, lo, hi, number, &is_counted)
            is_changed[0] = status == DONE
        return status

    cdef int paint(self, int64_t lo, int64_t hi, object value) except -1:
        cdef bint is_changed
        cdef int32_t status
        cdef Py_ssize_t number = self.values.number_of(value)
        self.wait()
        status = self.paint_number(lo, hi, number, &is_changed)
        return self.finish(status, is_changed)

    cdef int remove_range(self, int64_t lo, int64_t hi) except -1:
        cdef c_bool is_changed = False
        cdef int32_t status
        self.wait()
        status = range_map_remove_range_unchecked(&self.map, lo, hi, &is_changed)
        return self.finish(status, is_changed)

    cdef object take(self, int64_t key, object default):
        """Removes a key and returns its value, or the default."""
        cdef c_bool had = False
        cdef uint64_t number
        cdef int32_t status
        self.wait()
        status = range_map_remove_unchecked(&self.map, key, &had, &number)
        if status == DONE and not had:
            return default
        value = self.values.value_of(number) if had else None
        self.finish(status, had)
        return value

    # ---- Change by many entries

    cdef bint replace(self, int32_t status, c_map *new) except -1:
        """Takes over the content of a map that was made while `in_use` counted this call, and returns whether it was another one."""
        cdef bint is_changed = False
        cdef c_thread *thread
        if status == DONE:
            thread = release(self.length())
            is_changed = not range_map_equal_unchecked(&self.map, new)
            acquire(thread)
            self.wait(1)
        if is_changed:
            self.map, new[0] = new[0], self.map
            self.changes += 1
        self.in_use -= 1
        thread = release(range_map_entries_unchecked(new))
        range_map_free_unchecked(new)
        acquire(thread)
        check(status)
        return is_changed

    cdef bint replace_by_operation(self, Rows rows, Operation operation) except -1:
        """Combines the map with rows, and returns whether it changed. If an exception is raised, it is unchanged."""
        cdef c_map right, out
        cdef int32_t status
        cdef c_thread *thread
        memset(&right, 0, sizeof(right))
        memset(&out, 0, sizeof(out))
        check(rows.into_map(&right))
        self.wait()
        self.in_use += 1
        thread = release(self.length() + rows.length)
        status = combined_maps(&self.map, &right, operation, &out)
        range_map_free_unchecked(&right)
        acquire(thread)
        return self.replace(status, &out)

    cdef bint replace_by_rows(self, Rows rows, bint are_painted) except -1:
        """Sets rows in a copy, as map_with_rows does, and returns whether the map changed. If an exception is raised, it is
        unchanged."""
        cdef c_map out
        cdef int32_t status
        cdef c_thread *thread
        memset(&out, 0, sizeof(out))
        self.wait()
        self.in_use += 1
        thread = release(self.length() + rows.length)
        status = map_with_rows(&self.map, rows, are_painted, &out)
        acquire(thread)
        return self.replace(status, &out)

    cdef int paint_rows(self, Rows rows, list values) except -1:
        """Paints rows in order: all of them, or none if an exception is raised."""
        cdef Py_ssize_t row
        cdef bint is_changed = False
        if rows.length == 1:
            return self.paint(rows.lo[0], rows.hi[0], values[0])
        if not rows.length:
            return 0
        self.values.pins += 1
        try:
            for row in range(rows.length):
                rows.number[row] = self.values.number_of(values[row])
                pause(row)
            if are_few(self, rows.length):
                put_in_order(rows)
                is_changed = set_few(self, rows)
            else:
                is_changed = self.replace_by_rows(rows, True)
        finally:
            self.values.pins -= 1
            self.drop_unused(is_changed)
        return 0
