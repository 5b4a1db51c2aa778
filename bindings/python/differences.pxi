# The iterator over the ranges on which two maps differ.


cdef Differences differences_of(Lookups old, Lookups new, object missing):
    cdef Differences made = Differences.__new__(Differences)
    made.old_map, made.new_map, made.missing, made.at = old, new, missing, INT64_MIN
    made.old, made.new = iterator_of(old, INT64_MIN, INT64_MAX, False), iterator_of(new, INT64_MIN, INT64_MAX, False)
    return made


cdef class Differences:
    """An iterator of ranges with two values."""

    cdef Lookups old_map, new_map
    cdef Entries old, new
    cdef object missing
    cdef int64_t at  # the first key that is not compared yet
    cdef bint is_done

    def __iter__(self):
        return self

    def __next__(self):
        cdef int64_t lo, hi
        cdef bint has_old, has_new
        cdef Py_ssize_t count = 0
        cdef tuple item = None
        while not self.is_done and item is None:
            pause(count)
            count += 1
            if self.old_map.changes != self.old.changes or self.new_map.changes != self.new.changes:
                raise RuntimeError("the map changed during the iteration")
            has_old, has_new = self.old.reach(self.at), self.new.reach(self.at)
            if not has_old and not has_new:
                self.is_done = True
                break
            lo = min(first_of(self.old, has_old), first_of(self.new, has_new))
            lo, hi = max(lo, self.at), INT64_MAX
            has_old = end_of_piece(self.old, has_old, lo, &hi)
            has_new = end_of_piece(self.new, has_new, lo, &hi)
            old = self.old.value() if has_old else self.missing
            new = self.new.value() if has_new else self.missing
            if has_old != has_new or not is_same_value(old, new, Py_EQ):
                item = (lo, stop_of(hi), old, new)
            if hi < INT64_MAX:
                self.at = max(self.at, hi + 1)  # (an `__eq__` may use this iterator)
            else:
                self.is_done = True
        if item is None:
            raise StopIteration
        return item


cdef inline int64_t first_of(Entries side, bint has_row):
    """The first key of the row of a side."""
    return side.lo[side.position - 1] if has_row else INT64_MAX


cdef inline bint end_of_piece(Entries side, bint has_row, int64_t lo, int64_t *hi):
    """Whether a key has a value in a side. Cuts the piece that starts there to the keys for which that is so with the same value."""
    cdef bint has_value = has_row and side.lo[side.position - 1] <= lo
    if has_row:
        hi[0] = min(hi[0], side.hi[side.position - 1] if has_value else side.lo[side.position - 1] - 1)
    return has_value
