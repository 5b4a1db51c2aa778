# The signatures of classes and methods, for `inspect.signature` and `help`.
#
# Cython begins a docstring with `RangeMap.get(self, key, default=None)`. CPython takes a signature from `get($self, key, default=None)`
# that is followed by `--` and an empty line. Cython's own way to signatures, `binding=True`, makes calls slower, loses the defaults, and
# does not check that the first argument of `RangeMap.get(5, 1)` is a map.

cdef extern from "Python.h":
    ctypedef struct c_method "PyMethodDef":
        const char *ml_doc
    ctypedef struct c_descriptor "PyMethodDescrObject":
        c_method *d_method

cdef list written_docs = []  # keeps the docstrings alive


cdef const char *with_signature(str name, const char *doc) except NULL:
    """The docstring of a class or method with its signature as CPython reads it."""
    first, _, others = (<bytes>doc).decode().partition("\n")
    arguments = first.partition("(")[2].replace("type cls", "$type").replace("self", "$self").replace("_MISSING", "...")
    written = f"{name}({arguments}\n--\n\n{others}".encode()
    written_docs.append(written)
    return written


cdef int write_signatures(type kind) except -1:
    cdef c_method *method
    cdef PyTypeObject *c_kind = <PyTypeObject *>kind
    if c_kind.tp_doc != NULL and (<bytes>c_kind.tp_doc).startswith(kind.__name__.encode() + b"("):
        c_kind.tp_doc = with_signature(kind.__name__, c_kind.tp_doc)
    for name, item in vars(kind).items():
        if type(item) is type(dict.get) or type(item) is type(vars(dict)["fromkeys"]):  # a method or a class method
            method = (<c_descriptor *><PyObject *>item).d_method
            method.ml_doc = with_signature(name, method.ml_doc)
    return 0
