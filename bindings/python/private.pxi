# The classes of the module that are no public names. Python code can't make instances of them; the module does so by `X.__new__(X)`.


cdef int hide(type kind) except -1:
    """Makes `kind()` and `kind.__new__(kind)` raise TypeError, also for a subclass of it, and takes its name out of the module."""
    (<PyTypeObject *>kind).tp_new = NULL
    (<dict>(<PyTypeObject *>kind).tp_dict).pop("__new__", None)
    forget_lookups(kind)
    globals().pop(kind.__name__, None)
    return 0


for kind in (Changes, Column, Differences, Entries, Gaps, Lookups, Ranges, Rows, Tree, Values, Walks):
    hide(kind)
del kind
