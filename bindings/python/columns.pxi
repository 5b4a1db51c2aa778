# Columns of integers from Python: arrays, lists, and whatever else can be iterated over.

cdef extern from "Python.h":
    bint has_buffer "PyObject_CheckBuffer"(object)
    int buffer_of "PyObject_GetBuffer"(object, Py_buffer *, int)  # -1 with an exception set

cdef extern from *:
    uint64_t swapped "__builtin_bswap64"(uint64_t) nogil

cdef enum Side:
    BELOW = -1, WITHIN, AT_END, ABOVE  # AT_END: 2**63, which is a stop and no key


@cython.final
@cython.internal
cdef class Column:
    """The integers of an array, or of an iterable. TypeError if an item is no integer."""

    cdef Py_ssize_t length
    cdef Py_buffer view      # of an array
    cdef Py_ssize_t stride   # bytes from a number to the next
    cdef bint is_signed, is_swapped, is_plain  # plain: as int64_t
    cdef int64_t *numbers    # copied from an iterable
    cdef signed char *sides

    def __cinit__(self, numbers):
        if not has_buffer(numbers):
            to_array = getattr(numbers, "__array__", None)  # of a Series of pandas
            if to_array is not None:
                numbers = to_array()
        if not has_buffer(numbers) or not self.read_array(numbers):
            self.read_items(list(numbers))

    def __dealloc__(self):
        PyBuffer_Release(&self.view)
        free(self.numbers)
        free(self.sides)

    cdef bint read_array(self, object numbers) except -1:
        """Takes the numbers of an array, and returns whether these are numbers in C, and not objects."""
        cdef bytes kind
        cdef tuple rejections = (BufferError, ValueError)
        if buffer_of(numbers, &self.view, PyBUF_RECORDS_RO) < 0:
            if not error_is(rejections):
                return -1
            clear_error()
            raise TypeError("the array must have integers")
        kind = b"B" if self.view.format == NULL else self.view.format
        self.is_swapped = kind[:1] in (b">", b"!")
        kind = kind.lstrip(b"@=<>!")
        if self.view.ndim != 1 or len(kind) != 1 or kind not in b"bhilqnBHILQNO":
            raise TypeError("the array must have integers, and one dimension")
        self.is_signed = kind.islower()
        self.is_plain = self.is_signed and self.view.itemsize == 8 and not self.is_swapped
        if kind == b"O":
            PyBuffer_Release(&self.view)
            return False
        self.length = self.view.shape[0]
        self.stride = self.view.itemsize if self.view.strides == NULL else self.view.strides[0]  # ctypes has no strides
        return True

    cdef int read_items(self, list items) except -1:
        cdef Py_ssize_t row, length = size_of(items)
        cdef int side
        self.numbers = <int64_t *>malloc(8 * length + 1)
        self.sides = <signed char *>malloc(length + 1)
        if self.numbers == NULL or self.sides == NULL:
            raise MemoryError
        for row in range(length):
            pause(row)
            number = index_of(<object>item_of(items, row))
            side = key_of(number, &self.numbers[row])
            self.sides[row] = side if side <= 0 else AT_END if number == 2**63 else ABOVE
        self.length = length
        return 0

    cdef inline int at(self, Py_ssize_t row, int64_t *out) nogil:
        """Reads a number, and returns where it is."""
        cdef uint64_t bits = 0
        cdef int unused
        cdef char *item = <char *>self.view.buf + row * self.stride
        if self.is_plain:
            memcpy(out, item, 8)
            return WITHIN
        if self.sides != NULL:
            out[0] = self.numbers[row]
            return self.sides[row]
        memcpy(&bits, item, self.view.itemsize)
        unused = 64 - 8 * <int>self.view.itemsize
        if self.is_swapped:
            bits = swapped(bits) >> unused
        out[0] = <int64_t>(bits << unused) >> unused if self.is_signed else <int64_t>bits
        return WITHIN if self.is_signed or bits <= INT64_MAX else AT_END if bits == <uint64_t>1 << 63 else ABOVE

    cdef inline int last_at(self, Py_ssize_t row, int64_t *out) nogil:
        """Reads a stop as the last key below it, and returns where the stop is. No range with a key stops at -2**63, so this
        stands for 2**63, which is no signed number of 64 bits."""
        cdef int side = self.at(row, out)
        if side == AT_END or side == WITHIN and out[0] == INT64_MIN:
            out[0] = INT64_MAX
            return WITHIN
        out[0] -= side == WITHIN
        return side


cdef inline Column column_of(object numbers):
    return Column.__new__(Column, numbers)


cdef Rows rows_of_columns(object starts, object stops, list values, bint may_be_empty):
    """A row for each range that has keys. Its number is the position of its value. ValueError for a range without keys, unless
    there may be such ranges."""
    cdef Column from_keys = column_of(starts), to_keys = column_of(stops)
    cdef Rows rows = new_rows()
    cdef int64_t lo = 0, hi = 0
    cdef int start_side, stop_side
    cdef Py_ssize_t row
    if not from_keys.length == to_keys.length == size_of(values):
        raise ValueError("the columns must be equally long")
    for row in range(from_keys.length):
        pause(row)
        start_side, stop_side = from_keys.at(row, &lo), to_keys.last_at(row, &hi)
        if start_side == BELOW or start_side == ABOVE or stop_side != WITHIN:
            raise OverflowError("a start or stop is below -2**63 or above 2**63")
        if start_side == WITHIN and lo <= hi:
            rows.push(lo, hi, row)
        elif not may_be_empty:
            raise ValueError("each range must have keys")
    return rows


cdef Rows ordered_rows_of_columns(object starts, object stops, list values):
    """The rows of ranges that ascend and share no key, with the values numbered anew. ValueError for other ranges."""
    cdef Rows rows = rows_of_columns(starts, stops, values, False)
    cdef Py_ssize_t row
    if not rows.is_ordered():
        raise ValueError("each range must start at or above the stop of the range before it")
    for row in range(rows.length):
        pause(row)
        rows.number[row] = rows.values.number_of(values[row])
    rows.join()
    return rows
