# Operators: a map, changed by the rows of another one.

cdef enum Operation:
    UNION, INTERSECTION, DIFFERENCE, SYMMETRIC_DIFFERENCE, REPLACEMENT


cdef int combine(Tree map, Rows rows, Operation operation) except -1:
    """Changes the map by rows that no other object has: all of it, or nothing if an exception is raised."""
    cdef Py_ssize_t row
    cdef bint is_changed = False
    map.values.pins += 1
    try:
        if operation != DIFFERENCE:
            renumber_rows(rows, map.values)
        if (operation == UNION or operation == DIFFERENCE) and are_few(map, rows.length):
            for row in range(rows.length):
                rows.number[row] = NONE if operation == DIFFERENCE else rows.number[row]
            rows.join()
            is_changed = set_few(map, rows)
        else:
            is_changed = map.replace_by_operation(rows, operation)
    finally:
        map.values.pins -= 1
        map.drop_unused(is_changed)
    return 0


cdef int renumber_rows(Rows rows, Values values) except -1:
    """Gives rows the numbers of their values in another table, which is pinned."""
    cdef Rows numbers = new_rows()
    cdef Py_ssize_t number, row
    for number in range(size_of(rows.values.at)):
        pause(number)
        value = rows.values.value_of(number)
        row = values.find(value, rows.values.hashes[number])
        numbers.push(0, 0, row if row >= 0 else values.add(value, rows.values.hashes[number]))
    for row in range(rows.length):
        rows.number[row] = numbers.number[rows.number[row]]
    return 0


cdef object combined(object left, object right, Operation operation):
    """A map of the class of the left map, as those of `set` and `frozenset` are."""
    cdef RangeMap new
    if not isinstance(left, Lookups) or not isinstance(right, Lookups):
        return NotImplemented
    new = (<RangeMap>left).copy() if isinstance(left, RangeMap) else thawed((<Lookups>left).rows(INT64_MIN, INT64_MAX))
    combine(new, (<Lookups>right).rows(INT64_MIN, INT64_MAX), operation)
    return in_class_of(left, new)


cdef RangeMap thawed(Rows rows):
    """A map of rows that are in order."""
    cdef RangeMap new = RangeMap.__new__(RangeMap)
    check(rows.into_map(&new.map))
    new.values = rows.values
    return new


cdef object in_class_of(Lookups left, RangeMap made):
    """A map that was made for a RangeMap, or for a FrozenRangeMap one of its class with its attributes."""
    return made if isinstance(left, RangeMap) else left.of_rows(made.rows(INT64_MIN, INT64_MAX))


cdef object combined_in_place(RangeMap left, object right, Operation operation):
    if not isinstance(right, Lookups):
        return NotImplemented
    combine(left, (<Lookups>right).rows(INT64_MIN, INT64_MAX), operation)
    return left


cdef object united(Lookups left, tuple others):
    cdef list parts = [left.rows(INT64_MIN, INT64_MAX)]
    cdef Values values = (<Rows>parts[0]).values
    cdef Py_ssize_t at
    cdef RangeMap new
    for other in others:
        if not isinstance(other, Lookups):
            raise TypeError(f"union needs maps, and got {type(other).__name__}")
        pause(size_of(parts))
        parts.append((<Lookups>other).rows(INT64_MIN, INT64_MAX))
    for at in range(1, size_of(parts)):
        pause(at)
        renumber_rows(parts[at], values)
    new = (<RangeMap>left).like() if isinstance(left, RangeMap) else RangeMap.__new__(RangeMap)
    unite_rows(parts, &new.map)
    new.values = values
    new.drop_unused(True)
    return in_class_of(left, new)


cdef int unite_rows(list parts, c_map *out) except -1:
    """Makes the union of lists of rows that are in order."""
    cdef size_t count = size_of(parts), at, rows = 0
    cdef int32_t status = DONE
    cdef c_thread *thread
    cdef c_map *maps = <c_map *>calloc(count, sizeof(c_map))
    if maps == NULL:
        raise MemoryError
    for at in range(count):
        if status == DONE:
            rows += (<Rows>item_of(parts, at)).length
            status = (<Rows>item_of(parts, at)).into_map(&maps[at])
    if status == DONE:
        thread = release(rows)
        status = range_map_union_many(maps, count, out)
        acquire(thread)
    for at in range(count):
        range_map_free_unchecked(&maps[at])
    free(maps)
    return check(status)
