# Other threads, and signals, during long calls.

cdef extern from "<unistd.h>" nogil:
    int sleep_for "usleep"(unsigned int microseconds)

cdef enum:
    MANY = 4096  # rows: a call of the library on more of them lets other threads run


cdef inline c_thread *release(size_t rows):
    """Lets other threads run if a call of the library has many rows, until `acquire`. Between them is no call of Python."""
    return leave_interpreter() if rows > MANY else NULL


cdef inline void acquire(c_thread *thread):
    if thread != NULL:
        enter_interpreter(thread)


cdef inline int pause(Py_ssize_t row) except -1:
    """Every 4096 rows, lets other threads run, and then the handlers of signals. So any map may change here."""
    if row % MANY == MANY - 1:
        with nogil:
            pass
        run_signal_handlers()
    return 0


cdef int32_t combined_maps(c_map *left, c_map *right, Operation operation, c_map *out):
    """Makes the map of an operation. The left map is unchanged."""
    cdef int32_t status
    if operation == REPLACEMENT:
        out[0], right[0] = right[0], out[0]
        return DONE
    if operation == SYMMETRIC_DIFFERENCE:
        return range_map_symmetric_difference_unchecked(left, right, out)
    status = range_map_copy_unchecked(left, out)
    if status == DONE and operation == UNION:
        status = range_map_extend_unchecked(out, right)
    elif status == DONE and operation == INTERSECTION:
        status = range_map_intersect_unchecked(out, right)
    elif status == DONE and operation == DIFFERENCE:
        status = range_map_subtract_unchecked(out, right)
    return status


cdef int32_t map_with_rows(c_map *map, Rows rows, bint are_painted, c_map *out):
    """Makes a map with rows set in order. Rows with the number NONE are removed, except where all are painted."""
    cdef Py_ssize_t row
    cdef int32_t status = range_map_copy_unchecked(map, out)
    if status == DONE and are_painted:
        return range_map_paint_many_unchecked(out, rows.lo, rows.length, rows.hi, rows.length, rows.number, rows.length)
    for row in range(rows.length):
        if status == DONE:
            status = set_row(out, rows.lo[row], rows.hi[row], rows.number[row])
    return status
