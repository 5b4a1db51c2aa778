# The C library and the parts of Python's C interface that Cython does not declare. No function here runs Python code, except
# hash_or_error and is_equal.

from cpython.buffer cimport PyBUF_RECORDS_RO, PyBuffer_Release
from cpython.bytes cimport PyBytes_FromStringAndSize
from cpython.long cimport PyLong_Check, PyLong_FromLongLong, PyLong_FromUnsignedLongLong
from cpython.object cimport (
    Py_EQ, Py_GE, Py_GT, Py_LE, Py_LT, Py_NE, PyObject, PyObject_RichCompare, PyTypeObject, hashfunc
)
from libc.stdint cimport INT64_MAX, INT64_MIN, UINT64_MAX, int32_t, int64_t, uint64_t
from libc.stdlib cimport calloc, free, malloc, realloc
from libc.string cimport memcpy, memset

cdef extern from "<stdbool.h>":
    ctypedef bint c_bool "bool"

cdef extern from "Python.h":
    ctypedef struct c_slice "PySliceObject":
        PyObject *start
        PyObject *stop
        PyObject *step
    bint is_slice "PySlice_Check"(object)
    long long as_key "PyLong_AsLongLongAndOverflow"(object, int *side) except? -1
    bint is_index "PyIndex_Check"(object)
    object index_of "PyNumber_Index"(object)
    PyTypeObject *type_of "Py_TYPE"(PyObject *)
    hashfunc no_hash "PyObject_HashNotImplemented"  # tp_hash of a type without a hash
    Py_hash_t hash_or_error "PyObject_Hash"(object)  # -1 with an exception set
    int is_equal "PyObject_RichCompareBool"(PyObject *, PyObject *, int)
    bint is_same_value "PyObject_RichCompareBool"(object, object, int) except -1
    PyObject *item_of "PyList_GET_ITEM"(list, Py_ssize_t)
    Py_ssize_t size_of "PyList_GET_SIZE"(list)
    void put_item "PyList_SET_ITEM"(list, Py_ssize_t, object)
    void add_reference "Py_INCREF"(PyObject *)
    void add_reference_to "Py_INCREF"(object)
    void drop_reference "Py_DECREF"(PyObject *)
    int enter_call "Py_EnterRecursiveCall"(const char *) except -1
    void leave_call "Py_LeaveRecursiveCall"()
    int enter_repr "Py_ReprEnter"(object) except -1
    void leave_repr "Py_ReprLeave"(object)
    list new_list "PyList_New"(Py_ssize_t)
    PyObject *slice_of_list "PyList_GetSlice"(list, Py_ssize_t, Py_ssize_t)
    PyObject *list_or_null "PyList_New"(Py_ssize_t)
    void clear_error "PyErr_Clear"()
    void forget_lookups "PyType_Modified"(type)
    void stop_process "Py_FatalError"(const char *)
    int run_signal_handlers "PyErr_CheckSignals"() except -1
    ctypedef struct c_thread "PyThreadState":
        pass
    c_thread *leave_interpreter "PyEval_SaveThread"()
    void enter_interpreter "PyEval_RestoreThread"(c_thread *)

cdef extern from "range_map.h" nogil:
    ctypedef struct c_map "struct range_map":
        pass
    const char *VERSION "RANGE_MAP_VERSION"
    int32_t DONE "RANGE_MAP_DONE"
    int32_t NO_MEMORY "RANGE_MAP_NO_MEMORY"

    void range_map_free_unchecked(c_map *)
    void range_map_clear(c_map *)
    int32_t range_map_paint_unchecked(c_map *, int64_t, int64_t, uint64_t, c_bool *)
    int32_t range_map_fill_unchecked(c_map *, int64_t, int64_t, uint64_t, c_bool *)
    int32_t range_map_remove_range_unchecked(c_map *, int64_t, int64_t, c_bool *)
    int32_t range_map_remove_unchecked(c_map *, int64_t, c_bool *, uint64_t *)
    int32_t range_map_pop_first_unchecked(c_map *, c_bool *, int64_t *, uint64_t *)
    int32_t range_map_pop_last_unchecked(c_map *, c_bool *, int64_t *, uint64_t *)
    int32_t range_map_paint_many_unchecked(c_map *, int64_t *, size_t, int64_t *, size_t, uint64_t *, size_t)
    c_bool range_map_get_unchecked(c_map *, int64_t, uint64_t *)
    c_bool range_map_entry_or_gap_at_unchecked(c_map *, int64_t, int64_t *, int64_t *, uint64_t *)
    c_bool range_map_find_gap_unchecked(c_map *, int64_t, int64_t, uint64_t, int64_t *)
    c_bool range_map_find_last_gap_unchecked(c_map *, int64_t, int64_t, uint64_t, int64_t *)
    void range_map_count_unchecked(c_map *, uint64_t *, uint64_t *)
    void range_map_count_within_unchecked(c_map *, int64_t, int64_t, uint64_t *, uint64_t *)
    uint64_t range_map_entries_unchecked(c_map *)
    uint64_t range_map_entries_into_unchecked(c_map *, int64_t, int64_t *, size_t, int64_t *, size_t, uint64_t *, size_t)
    uint64_t range_map_entries_back_into_unchecked(c_map *, int64_t, int64_t *, size_t, int64_t *, size_t, uint64_t *, size_t)
    int32_t range_map_copy_unchecked(c_map *, c_map *)
    int32_t range_map_symmetric_difference_unchecked(c_map *, c_map *, c_map *)
    int32_t range_map_complement_unchecked(c_map *, uint64_t, c_map *)
    int32_t range_map_split_off_unchecked(c_map *, int64_t, c_map *)
    int32_t range_map_extend_unchecked(c_map *, c_map *)
    int32_t range_map_intersect_unchecked(c_map *, c_map *)
    int32_t range_map_subtract_unchecked(c_map *, c_map *)
    int32_t range_map_union_many(c_map *, size_t, c_map *)
    c_bool range_map_equal_unchecked(c_map *, c_map *)
    int32_t range_map_from_table_unchecked(int64_t *, size_t, int64_t *, size_t, uint64_t *, size_t, c_map *)
    c_bool range_table_is_ordered_unchecked(int64_t *, size_t, int64_t *, size_t, uint64_t *, size_t)
    c_bool range_table_get_unchecked(int64_t *, size_t, int64_t *, size_t, uint64_t *, size_t, int64_t, uint64_t *)
    c_bool range_table_entry_or_gap_at_unchecked(int64_t *, size_t, int64_t *, size_t, uint64_t *, size_t, int64_t, int64_t *,
                                                 int64_t *, uint64_t *)
    void range_table_count_within_unchecked(int64_t *, size_t, int64_t *, size_t, uint64_t *, size_t, int64_t, int64_t,
                                            uint64_t *, uint64_t *)
