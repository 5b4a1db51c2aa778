# New numbers for the values of a map, in a table that is no larger than they need.


cdef list renumber(Tree map):
    """Gives the values that entries have the numbers from 0 on, and returns the old list of values, which keeps them alive. If an
    allocation fails, it does nothing and returns None. Iterators of the map end with RuntimeError. O(n + numbers)."""
    cdef Values values = map.values
    cdef list old = values.at, kept = None
    cdef Py_ssize_t rows = map.length(), length = size_of(old), used
    cdef uint64_t changes = map.changes
    cdef size_t room = 8
    cdef int64_t *lo = <int64_t *>malloc(24 * rows + 1)  # and the other two columns
    cdef uint64_t *number = <uint64_t *>lo + 2 * rows
    cdef Py_ssize_t *new_of = <Py_ssize_t *>calloc(length + 1, sizeof(Py_ssize_t))
    cdef Py_ssize_t *index = NULL
    cdef Py_hash_t *hashes = NULL
    cdef c_map new
    memset(&new, 0, sizeof(new))
    if lo != NULL and new_of != NULL:
        used = read_numbers(map, lo, rows, new_of, length)
        while room < 2 * <size_t>used + 2:
            room *= 2
        index = <Py_ssize_t *>malloc(room * sizeof(Py_ssize_t))
        hashes = <Py_hash_t *>malloc(room // 2 * sizeof(Py_hash_t))
        if index != NULL and hashes != NULL and (
            not rows or range_map_from_table_unchecked(lo, rows, lo + rows, rows, number, rows, &new) == DONE
        ):
            kept = owned(list_or_null(used))  # the garbage collector may run Python code
    if kept is None or map.changes != changes or values.at is not old or size_of(old) != length or values.pins or map.in_use:
        old = None
    else:
        map.map, new = new, map.map
        map.changes += 1
        values.take(kept, new_of, index, hashes, room)
        index, hashes = NULL, NULL
    range_map_free_unchecked(&new)
    free(lo)
    free(new_of)
    free(index)
    free(hashes)
    return old


cdef Py_ssize_t read_numbers(Tree map, int64_t *lo, Py_ssize_t rows, Py_ssize_t *new_of, Py_ssize_t length):
    """Reads the entries into three columns, with new numbers, and returns how many numbers are used. `new_of` gets the new number of
    each of them, counted from 1, and had 0 for each."""
    cdef uint64_t *number = <uint64_t *>lo + 2 * rows
    cdef Py_ssize_t row, used = 0
    if rows:
        map.read(INT64_MIN, False, lo, lo + rows, number, rows)
    for row in range(rows):
        new_of[number[row]] = 1
    for row in range(length):
        if new_of[row]:
            used += 1
            new_of[row] = used
    for row in range(rows):
        number[row] = new_of[number[row]] - 1
    return used
