# Changes of the pieces of a range: its entries and gaps, cut to it, each with a new value or with none.


cdef int check_changes(Tree map, uint64_t changes) except -1:
    if map.changes != changes:
        raise RuntimeError("the map changed during the call")
    return 0


cdef int set_pieces(Tree map, Rows pieces, list values, object missing, uint64_t changes) except -1:
    """Sets the keys of each piece, or removes them where the value is `missing`, if the map has not changed since."""
    cdef Py_ssize_t row
    cdef bint is_changed = False
    cdef Rows changed
    map.values.pins += 1
    try:
        for row in range(pieces.length):
            pause(row)
            value = values[row]
            pieces.number[row] = UINT64_MAX if value is missing else map.values.number_of(value)
        changed = new_rows()  # (the garbage collector may run Python code here)
        map.wait()
        check_changes(map, changes)
        push_changed(map, pieces, changed)
        if changed.length <= 1 or are_few(map, changed.length):
            is_changed = set_few(map, changed)
        else:
            is_changed = map.replace_by_rows(changed, False)
    finally:
        map.values.pins -= 1
        map.drop_unused(is_changed)
    return 0


cdef int push_changed(Tree map, Rows pieces, Rows changed) except -1:
    """Pushes the pieces whose number is not what the map has there, UINT64_MAX for none. In a run of pieces with one number, these
    are one row, from the first to the last of them."""
    cdef Py_ssize_t row
    cdef uint64_t old
    cdef bint had, is_pushed = False
    for row in range(pieces.length):
        if row and pieces.number[row] != pieces.number[row - 1]:
            is_pushed = False
        had = map.find(pieces.lo[row], &old)
        if old == pieces.number[row] if had else pieces.number[row] == UINT64_MAX:
            continue
        if is_pushed:
            changed.hi[changed.length - 1] = pieces.hi[row]
        else:
            changed.push(pieces.lo[row], pieces.hi[row], pieces.number[row])
        is_pushed = True
    return 0
