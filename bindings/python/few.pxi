# Few rows, set one by one in the map itself: all of them, or none if an allocation fails.
#
# In a paint, the library allocates only for an entry that starts at a key where none starts. So the first key of each row except one
# gets a number that no other key has, and so does its last key if its entry continues above it. These keys are then entries of their
# own. Only this, and setting the one row, may fail. To set the other rows, or to give the marked keys their old numbers back, no entry
# has to start.

cdef enum:
    ENTRIES_A_ROW = 16  # a map with so many entries for each row is changed row by row

cdef uint64_t NONE = UINT64_MAX  # in place of a number: no value


cdef inline bint are_few(Tree map, Py_ssize_t rows):
    return <size_t>rows <= map.length() // ENTRIES_A_ROW


cdef inline int32_t set_row(c_map *map, int64_t lo, int64_t hi, uint64_t number):
    """Sets the keys of a range to a number, or removes them."""
    cdef c_bool ignored = False
    if number == NONE:
        return range_map_remove_range_unchecked(map, lo, hi, &ignored)
    return range_map_paint_unchecked(map, lo, hi, number, &ignored)


cdef inline void set_row_between_entries(c_map *map, int64_t lo, int64_t hi, uint64_t number):
    """Sets a row for which no entry has to start."""
    if set_row(map, lo, hi, number) != DONE:
        stop_process("range_map: the library has allocated for an edit for which no entry starts")


cdef inline bint is_set(c_map *map, int64_t lo, int64_t hi, uint64_t number):
    """Whether all keys of a range have the number already."""
    cdef int64_t start, end
    cdef uint64_t old
    if not range_map_entry_or_gap_at_unchecked(map, lo, &start, &end, &old):
        old = NONE
    return old == number and hi <= end


cdef inline bint continues_above(c_map *map, int64_t key):
    """Whether the entry of a key has greater keys."""
    cdef int64_t start, end
    cdef uint64_t number
    return range_map_entry_or_gap_at_unchecked(map, key, &start, &end, &number) and key < end


cdef int32_t mark(c_map *map, int64_t key, Rows rows, Py_ssize_t *marks):
    """Gives a key a number that no other key has, and writes it with its old number behind the rows."""
    cdef Py_ssize_t row = rows.length + marks[0]
    cdef c_bool ignored = False
    cdef int32_t status
    if not range_map_get_unchecked(map, key, &rows.number[row]):
        rows.number[row] = NONE
    rows.lo[row] = key
    status = range_map_paint_unchecked(map, key, key, NONE - 1 - marks[0], &ignored)
    marks[0] += status == DONE
    return status


cdef int32_t set_rows(c_map *map, Rows rows):
    """Sets rows that are in order, with room for twice as many more rows. If an allocation fails, the map is unchanged."""
    cdef Py_ssize_t row, marks = 0
    cdef int32_t status = DONE
    for row in range(1, rows.length):
        if status == DONE and rows.number[row] != NONE:
            status = mark(map, rows.lo[row], rows, &marks)
        if status == DONE and continues_above(map, rows.hi[row]):
            status = mark(map, rows.hi[row], rows, &marks)
    if status == DONE:
        status = set_row(map, rows.lo[0], rows.hi[0], rows.number[0])
    if status == DONE:
        for row in range(1, rows.length):
            set_row_between_entries(map, rows.lo[row], rows.hi[row], rows.number[row])
    else:
        for row in range(rows.length + marks - 1, rows.length - 1, -1):
            set_row_between_entries(map, rows.lo[row], rows.lo[row], rows.number[row])
    return status


cdef bint set_few(Tree map, Rows rows) except -1:
    """Sets rows that are in order, and returns whether the map changed. If an exception is raised, it is unchanged."""
    cdef Py_ssize_t row, length = rows.length
    rows.reserve(3 * length + 1)
    map.wait()
    rows.length = 0
    for row in range(length):
        if not is_set(&map.map, rows.lo[row], rows.hi[row], rows.number[row]):
            rows.push(rows.lo[row], rows.hi[row], rows.number[row])
    if not rows.length:
        return False
    check(set_rows(&map.map, rows))
    map.changes += 1
    return True


cdef int put_in_order(Rows rows) except -1:
    """Makes rows that are painted one after another rows in order."""
    cdef c_map painted
    cdef int32_t status
    memset(&painted, 0, sizeof(painted))
    if not rows.is_ordered():
        rows.reserve(2 * rows.length)
        status = range_map_paint_many_unchecked(&painted, rows.lo, rows.length, rows.hi, rows.length, rows.number, rows.length)
        if status == DONE:
            rows.length = range_map_entries_into_unchecked(&painted, INT64_MIN, rows.lo, rows.room, rows.hi, rows.room, rows.number,
                                                           rows.room)
        range_map_free_unchecked(&painted)
        check(status)
    rows.join()
    return 0
