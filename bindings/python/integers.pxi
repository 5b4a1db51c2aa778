# The integer that an object is equal to. Here an exception is caught without `try`: in C that Cython writes, `except` crashes if there is
# no memory for a traceback.

cdef extern from "Python.h":
    bint error_is "PyErr_ExceptionMatches"(object)

ctypedef PyObject *(*call_in_c)(PyObject *)


cdef int raised() except -1:
    """For an exception that a call in C has set."""
    return -1


cdef bint caught(call_in_c call, object argument, object kinds, PyObject **result) except -1:
    """Calls a function that may raise, and returns whether it raised one of some kinds of exception. Other exceptions it raises."""
    result[0] = call(<PyObject *>argument)
    if result[0] == NULL and not error_is(kinds):
        raised()
    if result[0] == NULL:
        clear_error()
    return result[0] == NULL


cdef object equal_integer(object key):
    cdef object least = INT64_MIN, greatest = INT64_MAX
    if isinstance(key, complex):
        key = None if key.imag else key.real
    integer = int(key) if least <= key and key <= greatest else None
    return integer if integer == key else None


cdef object integer_of(object key):
    """The integer that an object is, or that a number of 64 bits is equal to; None if there is none."""
    cdef PyObject *found = NULL
    if not is_index(key) or caught(<call_in_c>index_of, key, TypeError, &found):  # (TypeError: an array of NumPy)
        if caught(<call_in_c>equal_integer, key, (ArithmeticError, TypeError, ValueError), &found):
            return None
    integer = <object>found
    drop_reference(found)
    return integer
