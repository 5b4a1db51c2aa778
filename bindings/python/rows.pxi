# Keys and ranges from Python, and tables of rows in C.

cdef object _MISSING = object()


cdef inline int key_of(object key, int64_t *out) except -2:
    """Reads a key. Returns 0, or -1 or 1 if it is below or above the keys of 64 bits."""
    cdef int side = 0
    if not PyLong_Check(key):
        key = index_of(key)
    out[0] = as_key(key, &side)
    return side


cdef inline bint keys_of(object start, object stop, bint is_written, int64_t *lo, int64_t *hi) except -1:
    """Reads the first and the last key of a range, cut to the keys of 64 bits. Returns whether there are any."""
    cdef int start_side = 0, stop_side = 0
    lo[0], hi[0] = INT64_MIN, INT64_MAX
    if start is not None:
        if not PyLong_Check(start):
            start = index_of(start)
        lo[0] = as_key(start, &start_side)
    if stop is not None:
        if not PyLong_Check(stop):
            stop = index_of(stop)
        hi[0] = as_key(stop, &stop_side)
        if stop_side == 0:
            if hi[0] > INT64_MIN:
                hi[0] -= 1
            else:
                stop_side = -1
    if start_side or stop_side:
        return cut_keys_of(start, stop, is_written, start_side, stop_side, lo, hi)
    return lo[0] <= hi[0]


cdef bint cut_keys_of(object start, object stop, bint is_written, int start_side, int stop_side, int64_t *lo,
                      int64_t *hi) except -1:
    start = INT64_MIN if start is None else start
    stop = <object>INT64_MAX + 1 if stop is None else stop
    if start >= stop:
        return False
    if is_written and (start < INT64_MIN or stop - 1 > INT64_MAX):
        raise OverflowError("the range has keys below -2**63 or above 2**63 - 1")
    if start_side < 0:
        lo[0] = INT64_MIN
    if stop_side > 0:
        hi[0] = INT64_MAX
    return start_side <= 0 and stop_side >= 0


cdef inline bint slice_of(object keys, bint is_written, int64_t *lo, int64_t *hi) except -1:
    """Finds the ends of a slice of keys, as `keys_of` does, and returns whether it has a key."""
    cdef c_slice *ends = <c_slice *><PyObject *>keys
    if <object>ends.step is not None:
        raise ValueError("a slice of keys has no step")
    return keys_of(<object>ends.start, <object>ends.stop, is_written, lo, hi)


cdef inline object stop_of(int64_t last):
    """The stop of a range with this last key."""
    return PyLong_FromLongLong(last + 1) if last < INT64_MAX else PyLong_FromUnsignedLongLong(<uint64_t>last + 1)


cdef inline object count_of(uint64_t low, uint64_t high):
    return <object>low if not high else (<object>high << 64) + low


@cython.final
@cython.no_gc_clear
cdef class Rows:
    """A table: row i gives the keys lo[i] to hi[i] the value of a number."""

    cdef int64_t *lo
    cdef int64_t *hi
    cdef uint64_t *number
    cdef Py_ssize_t length, room
    cdef Values values

    def __cinit__(self):
        self.values = Values.__new__(Values)

    def __dealloc__(self):
        free(self.lo)
        free(self.hi)
        free(self.number)

    cdef int reserve(self, Py_ssize_t room) except -1:
        cdef void *lo = realloc(self.lo, room * 8)
        if lo != NULL:
            self.lo = <int64_t *>lo
        cdef void *hi = realloc(self.hi, room * 8)
        if hi != NULL:
            self.hi = <int64_t *>hi
        cdef void *number = realloc(self.number, room * 8)
        if number != NULL:
            self.number = <uint64_t *>number
        if lo == NULL or hi == NULL or number == NULL:
            raise MemoryError
        self.room = room
        return 0

    cdef inline int push(self, int64_t lo, int64_t hi, uint64_t number) except -1:
        if self.length == self.room:
            self.reserve(2 * self.room + 8)
        self.lo[self.length], self.hi[self.length], self.number[self.length] = lo, hi, number
        self.length += 1
        return 0

    cdef bint find(self, int64_t key, uint64_t *number) nogil:
        """Whether a row has the key, in rows that are in order."""
        return self.length and range_table_get_unchecked(
            self.lo, self.length, self.hi, self.length, self.number, self.length, key, number)

    cdef object entry(self, Py_ssize_t row):
        return (self.lo[row], stop_of(self.hi[row]), self.values.value_of(self.number[row]))

    cdef list texts(self):
        """The texts of the entries, of some hundred in each."""
        cdef Py_ssize_t start, row
        cdef list texts = [], entries
        for start in range(0, self.length, 512):
            entries = [self.entry(row) for row in range(start, min(start + 512, self.length))]
            text = repr(entries)
            texts.append(text[1 : len(text) - 1])
            pause(MANY - 1)
        return texts

    cdef bint is_ordered(self):
        return not self.length or range_table_is_ordered_unchecked(
            self.lo, self.length, self.hi, self.length, self.number, self.length)

    cdef void join(self):
        """Makes adjacent rows with one number one row."""
        cdef Py_ssize_t row, last = 0
        for row in range(1, self.length):
            if self.number[row] == self.number[last] and self.lo[row] == self.hi[last] + 1:  # hi[last] is not the greatest key
                self.hi[last] = self.hi[row]
            else:
                last += 1
                self.lo[last], self.hi[last], self.number[last] = self.lo[row], self.hi[row], self.number[row]
        self.length = min(self.length, last + 1)

    cdef int32_t into_map(self, c_map *out):
        """Makes a map of rows that are in order. No other object has the map."""
        cdef int32_t status
        cdef c_thread *thread
        self.join()
        if not self.length:
            range_map_clear(out)
            return DONE
        thread = release(self.length)
        status = range_map_from_table_unchecked(self.lo, self.length, self.hi, self.length, self.number, self.length, out)
        acquire(thread)
        return status

    cdef tuple arrays(self):
        """Copies the columns: array("q") of starts, array("q") of stops, where -2**63 stands for 2**63, and array("Q") of
        numbers."""
        return (numbers_array("q", <uint64_t *>self.lo, self.length, 0), numbers_array("q", <uint64_t *>self.hi, self.length, 1),
                numbers_array("Q", self.number, self.length, 0))


cdef inline Rows new_rows():
    return Rows.__new__(Rows)


cdef object numbers_array(str kind, uint64_t *start, Py_ssize_t length, uint64_t more):
    """An array of numbers, each with `more` added modulo 2**64."""
    cdef bytes copy = PyBytes_FromStringAndSize(<char *>start, 8 * length)
    cdef uint64_t *copied = <uint64_t *><char *>copy
    cdef Py_ssize_t row
    for row in range(length):
        copied[row] += more
    numbers = array(kind)
    numbers.frombytes(copy)
    return numbers
