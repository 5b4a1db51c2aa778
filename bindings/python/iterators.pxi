# The iterators over entries, gaps and ranges. They read some rows at a time.

cdef enum:
    ROOM = 64


cdef Entries iterator_of(Lookups map, int64_t lo, int64_t hi, bint is_back):
    cdef Entries entries = Entries.__new__(Entries)
    return entries.start(map, lo, hi, is_back)


cdef class Entries:
    """An iterator of entries."""

    cdef Lookups map
    cdef uint64_t changes
    cdef int64_t first          # the key where it starts
    cdef int64_t at, limit      # where the next rows are looked up, and the last key
    cdef bint is_back, is_last  # is_last: there are no more rows to read
    cdef int position, count, room
    cdef int64_t lo[ROOM]
    cdef int64_t hi[ROOM]
    cdef uint64_t number[ROOM]

    cdef Entries start(self, Lookups map, int64_t lo, int64_t hi, bint is_back):
        self.map, self.changes, self.is_back, self.room = map, map.changes, is_back, 4
        self.at, self.limit = (hi, lo) if is_back else (lo, hi)
        self.first = self.at
        return self

    cdef bint next_row(self) except -1:
        """Goes to the next row, at `position - 1`, if there is one."""
        if self.map is None:
            return False
        if self.changes != self.map.changes:
            raise RuntimeError("the map changed during the iteration")
        if self.position == self.count:
            self.position = self.count = 0
            if not self.is_last:
                self.read()
        if self.position == self.count or (
            self.hi[self.position] < self.limit if self.is_back else self.lo[self.position] > self.limit
        ):
            self.map = None
            return False
        self.position += 1
        return True

    cdef bint reach(self, int64_t key) except -1:
        """Goes to the first row that ends at a key or above it, if there is one. Keys ascend."""
        while self.map is not None and (self.position == 0 or self.hi[self.position - 1] < key):
            self.next_row()
        return self.map is not None

    cdef object value(self):
        """The value of the row at `position - 1`."""
        return self.map.values.value_of(self.number[self.position - 1])

    cdef void read(self):
        cdef int last
        self.count = <int>self.map.read(self.at, self.is_back, self.lo, self.hi, self.number, self.room)
        last = self.count - 1
        if self.count < self.room:
            self.is_last = True
        elif self.is_back:
            self.is_last = self.lo[last] == INT64_MIN
            self.at = self.lo[last] - (not self.is_last)
        else:
            self.is_last = self.hi[last] == INT64_MAX
            self.at = self.hi[last] + (not self.is_last)
        self.room = ROOM

    def __iter__(self):
        return self

    def __next__(self):
        cdef int row
        cdef int64_t lo, hi
        if not self.next_row():
            raise StopIteration
        row = self.position - 1
        lo, hi = self.lo[row], self.hi[row]
        value = self.value()
        return PyLong_FromLongLong(lo), stop_of(hi), value


cdef class Gaps(Entries):
    """An iterator of gaps."""

    cdef int64_t from_key  # where the next gap starts, if no entry does
    cdef bint is_done

    def __next__(self):
        cdef int64_t lo, end
        cdef int row
        while not self.is_done:
            lo = self.from_key
            if not self.next_row():
                self.is_done = True
                return lo, stop_of(self.limit)
            row = self.position - 1
            end = self.lo[row]
            if self.hi[row] < self.limit:
                self.from_key = self.hi[row] + 1
            else:
                self.is_done = True
            if lo < end:
                return lo, end
        raise StopIteration


cdef class Ranges(Entries):
    """An iterator of ranges of keys that have values."""

    cdef bint is_begun           # the keys lo_key to hi_key begin a range
    cdef int64_t lo_key, hi_key

    def __next__(self):
        cdef int64_t lo, hi
        cdef Py_ssize_t count = 0
        cdef tuple item
        while self.next_row():
            lo, hi = self.lo[self.position - 1], self.hi[self.position - 1]
            if not self.is_begun:
                lo = max(lo, self.first)
            elif lo - 1 > self.hi_key:
                item = (self.lo_key, stop_of(self.hi_key))
                self.lo_key, self.hi_key = lo, min(hi, self.limit)
                return item
            else:
                lo = self.lo_key
            self.lo_key, self.hi_key, self.is_begun = lo, min(hi, self.limit), True
            pause(count)
            count += 1
        if self.is_begun:
            self.is_begun = False
            return self.lo_key, stop_of(self.hi_key)
        raise StopIteration
