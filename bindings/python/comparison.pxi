# The comparison of two maps, as the lists of their (key, value) pairs. While the rows of both begin and end at the same keys, they are read
# from the maps themselves. The other rows are compared in copies.

cdef enum:
    COMPARED = 128  # rows at a time; a divisor of MANY
    KNOWN = 64

cdef struct Compared:
    # The rows that are read from two maps, and pairs of numbers whose values are equal, counted from 1. It is allocated, so that the
    # recursion of maps in maps takes few bytes of the stack.
    int64_t lo[2][COMPARED]
    int64_t hi[2][COMPARED]
    uint64_t number[2][COMPARED]
    uint64_t known[2][KNOWN]


cdef object compared(object left, object right, int operator):
    cdef int64_t start = INT64_MIN
    cdef Compared *space
    cdef Rows a, b
    if not isinstance(left, Lookups) or not isinstance(right, Lookups):
        return NotImplemented
    if left is right:
        return operator == Py_EQ or operator == Py_LE or operator == Py_GE
    space = <Compared *>malloc(sizeof(Compared))
    if space == NULL:
        raise MemoryError
    try:
        result = compared_in_place(<Lookups>left, <Lookups>right, operator, &start, space)
    finally:
        free(space)
    if result is not None:
        return result
    a = (<Lookups>left).snapshot(start)
    a.values.pins += 1
    try:
        b = (<Lookups>right).snapshot(start)
        b.values.pins += 1
        try:
            return compared_rows(a, b, operator)
        finally:
            b.values.pins -= 1
    finally:
        a.values.pins -= 1


cdef object compared_in_place(Lookups left, Lookups right, int operator, int64_t *start, Compared *space):
    """The result, or None if a row ends at different keys in the maps or a map has changed. Then the maps are equal below `start`."""
    cdef size_t row, count, other_count, rows = 0
    cdef uint64_t number, other
    cdef int64_t hi = 0
    cdef uint64_t changes = left.changes, other_changes = right.changes
    cdef Values values = left.values, other_values = right.values
    memset(space.known, 0, sizeof(space.known))
    while True:
        count = left.read(start[0], False, space.lo[0], space.hi[0], space.number[0], COMPARED)
        other_count = right.read(start[0], False, space.lo[1], space.hi[1], space.number[1], COMPARED)
        for row in range(min(count, other_count)):
            number, other, hi = space.number[0][row], space.number[1][row], space.hi[0][row]
            if space.lo[0][row] != space.lo[1][row]:
                return PyObject_RichCompare(space.lo[0][row], space.lo[1][row], operator)
            if not values.has_same_object(number, other_values, other) and not (
                space.known[0][number % KNOWN] == number + 1 and space.known[1][number % KNOWN] == other + 1
            ):
                value, other_value = values.value_of(number), other_values.value_of(other)
                if not is_same_value(value, other_value, Py_EQ):
                    return compared_values(value, other_value, operator)
                space.known[0][number % KNOWN], space.known[1][number % KNOWN] = number + 1, other + 1
                if left.changes != changes or right.changes != other_changes:
                    start[0] = INT64_MIN
                    return None
            if hi != space.hi[1][row]:
                return None
            start[0] = hi + (hi < INT64_MAX)
        if count < COMPARED or other_count < COMPARED or hi == INT64_MAX:
            return PyObject_RichCompare(count > other_count, other_count > count, operator)
        rows += COMPARED
        pause(rows - 1)
        if left.changes != changes or right.changes != other_changes:
            start[0] = INT64_MIN
            return None


cdef object compared_values(object value, object other_value, int operator):
    """The result for maps whose first difference are values that are not equal."""
    if operator == Py_EQ or operator == Py_NE:
        return operator == Py_NE
    return PyObject_RichCompare(value, other_value, operator)


cdef object compared_rows(Rows a, Rows b, int operator):
    """Compares rows whose values are pinned."""
    cdef Py_ssize_t i = 0, j = 0, count = 0
    cdef int64_t lo = 0, other_lo = 0, hi
    if a.length and b.length:
        lo, other_lo = a.lo[0], b.lo[0]
    while i < a.length and j < b.length:
        pause(count)
        count += 1
        if lo != other_lo:
            return PyObject_RichCompare(lo, other_lo, operator)
        value, other_value = a.values.value_of(a.number[i]), b.values.value_of(b.number[j])
        if not is_same_value(value, other_value, Py_EQ):
            return compared_values(value, other_value, operator)
        hi = min(a.hi[i], b.hi[j])
        lo = other_lo = hi + 1 if hi < INT64_MAX else hi
        if hi == a.hi[i]:
            i += 1
            lo = a.lo[i] if i < a.length else lo
        if hi == b.hi[j]:
            j += 1
            other_lo = b.lo[j] if j < b.length else other_lo
    return PyObject_RichCompare(i < a.length, j < b.length, operator)
