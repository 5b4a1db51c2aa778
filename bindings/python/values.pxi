# The values of one map. Only `find` may run Python code (a value's own __eq__), and `number_of` (its __hash__ too).

cdef enum:
    NO_HASH = -1  # in place of the hash of a value that has none; no hash is -1


cdef inline Py_hash_t hash_of(object value) except? -1:
    """The hash of a value, or NO_HASH if `hash` of it raises TypeError."""
    cdef Py_hash_t hash = NO_HASH
    if type_of(<PyObject *>value).tp_hash != no_hash:
        hash = hash_or_error(value)
        if hash == -1 and error_is(TypeError):
            clear_error()
    return hash


@cython.final
@cython.no_gc_clear
cdef class Values:
    """Values with a number each. Two values share one number if they are one object, or if they have hashes and one type and are
    equal. A value without a hash, such as a list, may change, and then it would no longer be equal to the other."""

    cdef list at            # the value of each number; None at a free one
    cdef Py_hash_t *hashes  # its hash or NO_HASH; at a free number the next free one
    cdef Py_ssize_t *index  # numbers by hash, with linear probing; -1 where there is none
    cdef size_t mask        # the length of the index less 1; half as many numbers have room
    cdef Py_ssize_t count   # numbers in use
    cdef Py_ssize_t first_free
    cdef uint64_t grown     # how often the index grew
    cdef int pins           # calls that use numbers which no entry has yet: no number becomes free meanwhile

    def __cinit__(self):
        self.at = []
        self.first_free = -1

    def __dealloc__(self):
        free(self.hashes)
        free(self.index)

    def __sizeof__(self):
        """The bytes of the table, without the values."""
        cdef size_t room = 0 if self.index == NULL else self.mask + 1
        return object.__sizeof__(self) + self.at.__sizeof__() + room * sizeof(Py_ssize_t) + room // 2 * sizeof(Py_hash_t)

    cdef inline object value_of(self, uint64_t number):
        if number >= <uint64_t>size_of(self.at):  # the garbage collector has cleared the list
            raise RuntimeError("the map was freed")
        return <object>item_of(self.at, number)

    cdef inline bint has_same_object(self, uint64_t number, Values other, uint64_t other_number):
        """Whether a number of another table has the object of a number here."""
        return number < <uint64_t>size_of(self.at) and other_number < <uint64_t>size_of(other.at) and \
            item_of(self.at, number) == item_of(other.at, other_number)

    cdef Py_ssize_t find(self, object value, Py_hash_t hash) except -2:
        """The number of an equal value, or -1. After the last comparison no Python code runs."""
        cdef Py_ssize_t number
        cdef PyObject *candidate
        cdef size_t at
        cdef uint64_t grown = self.grown
        cdef int equal
        if self.index == NULL:
            return -1
        at = place_of(value, hash) & self.mask
        while True:
            number = self.index[at]
            if number < 0:
                return -1
            if self.hashes[number] == hash and number < size_of(self.at):
                candidate = item_of(self.at, number)
                if candidate == <PyObject *>value:
                    return number
                if hash != NO_HASH and type_of(candidate) == type_of(<PyObject *>value):
                    self.pins += 1
                    add_reference(candidate)
                    equal = is_equal(candidate, <PyObject *>value, Py_EQ)
                    drop_reference(candidate)
                    self.pins -= 1
                    if equal < 0:
                        return -2
                    if equal:
                        return number
                    if grown != self.grown:  # a comparison added values
                        grown = self.grown
                        at = place_of(value, hash) & self.mask
                        continue
            at = (at + 1) & self.mask

    cdef Py_ssize_t add(self, object value, Py_hash_t hash) except -2:
        """Gives a value that is not here a number. Runs no Python code."""
        cdef Py_ssize_t number = self.first_free
        if number >= 0:
            self.first_free = self.hashes[number]
            add_reference_to(value)
            drop_reference(item_of(self.at, number))  # None
            put_item(self.at, number, value)
        else:
            number = size_of(self.at)
            if self.index == NULL or 2 * <size_t>number > self.mask:
                self.grow()
            self.at.append(value)
        self.hashes[number] = hash
        self.enter(number)
        self.count += 1
        return number

    cdef inline Py_ssize_t number_of(self, object value) except -2:
        """The number of a value, which it gets if it has none. Runs no Python code after it has the number."""
        cdef Py_hash_t hash = hash_of(value)
        cdef Py_ssize_t number = self.find(value, hash)
        return number if number >= 0 else self.add(value, hash)

    cdef Py_ssize_t adopt(self, Values source, uint64_t number) except -2:
        """The number here of a value of another table, by identity. Runs no Python code."""
        cdef object value = source.value_of(number)
        cdef Py_hash_t hash = source.hashes[number]
        cdef size_t at
        if self.index != NULL:
            at = place_of(value, hash) & self.mask
            while self.index[at] >= 0:
                if item_of(self.at, self.index[at]) == <PyObject *>value:
                    return self.index[at]
                at = (at + 1) & self.mask
        return self.add(value, hash)

    cdef inline void enter(self, Py_ssize_t number):
        cdef size_t at = place_of(<object>item_of(self.at, number), self.hashes[number]) & self.mask
        while self.index[at] >= 0:
            at = (at + 1) & self.mask
        self.index[at] = number

    cdef int grow(self) except -1:
        """Doubles the room. No number is free."""
        cdef size_t length = 8 if self.index == NULL else 2 * (self.mask + 1)
        cdef Py_ssize_t *index
        cdef Py_ssize_t number
        cdef Py_hash_t *hashes = <Py_hash_t *>realloc(self.hashes, length // 2 * sizeof(Py_hash_t))
        if hashes == NULL:
            raise MemoryError
        self.hashes = hashes
        index = <Py_ssize_t *>malloc(length * sizeof(Py_ssize_t))
        if index == NULL:
            raise MemoryError
        free(self.index)
        self.index = index
        self.mask = length - 1
        self.grown += 1
        memset(index, 0xFF, length * sizeof(Py_ssize_t))
        for number in range(size_of(self.at)):
            self.enter(number)
        return 0

    cdef Values copy(self):
        """A table with the same numbers. Runs no Python code after it has read them."""
        cdef Values copy = Values.__new__(Values)
        cdef list at
        while True:
            at = self.at
            copy.at = at[:]  # the garbage collector may run Python code, which changes this table, before the list is read
            if at is self.at and size_of(at) == size_of(copy.at):
                break
        if self.index != NULL:
            copy.index = <Py_ssize_t *>malloc((self.mask + 1) * sizeof(Py_ssize_t))
            copy.hashes = <Py_hash_t *>malloc((self.mask + 1) // 2 * sizeof(Py_hash_t))
            if copy.index == NULL or copy.hashes == NULL:
                raise MemoryError
            memcpy(copy.index, self.index, (self.mask + 1) * sizeof(Py_ssize_t))
            memcpy(copy.hashes, self.hashes, size_of(at) * sizeof(Py_hash_t))
        copy.mask, copy.count, copy.first_free = self.mask, self.count, self.first_free
        return copy

    cdef list sweep(self, c_map *map):
        """Frees the numbers that no entry has, and returns a list that keeps their values alive. If an allocation fails, it
        does nothing. O(n + count)."""
        cdef int64_t lo[128]
        cdef int64_t hi[128]
        cdef uint64_t numbers[128]
        cdef int64_t start = INT64_MIN
        cdef list at = self.at, kept
        cdef Py_ssize_t length, number
        cdef size_t read = 128, row
        cdef char *is_used
        kept = copied(at)
        if kept is None or self.pins or at is not self.at or size_of(at) != size_of(kept):  # the garbage collector ran Python code
            return None
        length = size_of(at)
        is_used = <char *>calloc(length + 1, 1)
        if is_used == NULL:
            return None
        while read == 128:
            read = range_map_entries_into_unchecked(map, start, lo, 128, hi, 128, numbers, 128)
            for row in range(read):
                is_used[numbers[row]] = 1
            if read == 128:
                if hi[127] == INT64_MAX:
                    break
                start = hi[127] + 1
        memset(self.index, 0xFF, (self.mask + 1) * sizeof(Py_ssize_t))
        self.count = 0
        self.first_free = -1
        for number in range(length - 1, -1, -1):
            if is_used[number]:
                self.enter(number)
                self.count += 1
            else:
                kept[number] = None  # `at` still has the value
                self.hashes[number] = self.first_free
                self.first_free = number
        free(is_used)
        self.at = kept
        return at

    cdef void take(self, list kept, Py_ssize_t *new_of, Py_ssize_t *index, Py_hash_t *hashes, size_t room):
        """Takes over a table of `room` places. `kept` gets the value of each number that has a place in `new_of`, counted from 1;
        the others are dropped. Runs no Python code while the caller has the old list."""
        cdef Py_ssize_t number
        cdef PyObject *value
        for number in range(size_of(self.at)):
            if new_of[number]:
                value = item_of(self.at, number)
                add_reference(value)
                put_item(kept, new_of[number] - 1, <object>value)
                hashes[new_of[number] - 1] = self.hashes[number]
        free(self.index)
        free(self.hashes)
        self.at, self.index, self.hashes, self.mask = kept, index, hashes, room - 1
        self.count, self.first_free = size_of(kept), -1
        self.grown += 1
        memset(index, 0xFF, room * sizeof(Py_ssize_t))
        for number in range(self.count):
            self.enter(number)


cdef list copied(list items):
    """A copy of a list, or None if an allocation fails."""
    return owned(slice_of_list(items, 0, size_of(items)))


cdef list owned(PyObject *made):
    """A list that a function of Python has made, or None if it has made none. (An exception that is caught needs memory.)"""
    cdef list result = None
    if made == NULL:
        clear_error()
    else:
        result = <list>made
        drop_reference(made)
    return result


cdef inline uint64_t mixed(Py_hash_t hash):
    """Spreads each bit in which hashes differ over all bits. Different hashes have different results. (The end of MurmurHash3.)"""
    cdef uint64_t bits = <uint64_t>hash
    bits = (bits ^ bits >> 33) * 0xFF51AFD7ED558CCDULL
    bits = (bits ^ bits >> 33) * 0xC4CEB9FE1A85EC53ULL
    return bits ^ bits >> 33


cdef inline size_t place_of(object value, Py_hash_t hash):
    """Where the lookup of a value begins: by its address if it has no hash."""
    return <size_t>mixed(<Py_hash_t><PyObject *>value if hash == NO_HASH else hash)
