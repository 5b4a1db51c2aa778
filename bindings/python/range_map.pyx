# cython: language_level=3, boundscheck=False, wraparound=False, initializedcheck=False, embedsignature=True, cdivision=True, autotestdict=False, auto_pickle=False
"""Maps from ranges of integers to values. Every range is half open, as in `range` and in slices: `start` belongs to it, `stop` does
not. Keys are the integers from -2**63 to 2**63 - 1, so a stop may be 2**63.

    >>> from range_map import RangeMap
    >>> m = RangeMap()
    >>> m[2:6] = "a"
    >>> m[4:10] = "b"
    >>> m
    RangeMap([(2, 4, 'a'), (4, 10, 'b')])
    >>> m[3], 10 in m, len(m), m.count()
    ('a', False, 2, 8)
    >>> del m[3:5]
    >>> list(m), list(m.gaps(0, 10))
    ([(2, 3, 'a'), (5, 10, 'b')], [(0, 2), (3, 5)])

Ranges. A range whose start is at or above its stop has no keys, and no call raises for it. A negative end is a key, not a position
from the end. An end that is None, or left out of a slice, is the first or the last end that there is. A lookup outside of the keys
finds nothing; a call that would set a value there raises OverflowError.

Columns. `get_many`, `paint_many` and `from_arrays` read integers from columns. A column is an array of NumPy of any integer type, an
`array`, a Series of pandas, a list, a `range`, or any other iterable. A column of starts and a column of stops give half-open ranges;
`to_arrays` returns such columns, as `array("q")`. The stop 2**63 is no signed number of 64 bits, so -2**63 stands for it in a column of
stops. No range with a key stops at -2**63, and `lasts + 1` of NumPy gives the same number. A column that is read may also have 2**63.

    >>> n = RangeMap([(5, None, "c")])
    >>> n.to_arrays()
    (array('q', [5]), array('q', [-9223372036854775808]), ['c'])
    >>> RangeMap.from_arrays([5], [2**63], ["c"]) == RangeMap.from_arrays(*n.to_arrays()) == n
    True

Values are any objects. One object is the same value as itself. Two objects with hashes are the same value if they have the same type
and are equal. So `1`, `True` and `1.0` are three values, and a NaN is the same value as itself alone. An object for which `hash` raises
TypeError is compared by identity, such as a list, a dictionary, or a tuple with a list in it. It may change, and then it may no longer
be equal to another list. Adjacent ranges with the same value are one entry.

    >>> kept = []
    >>> RangeMap([(1, 3, kept), (3, 6, kept), (6, 8, [])])
    RangeMap([(1, 6, []), (6, 8, [])])

A map gives back one of the equal objects that were put into it. It drops values that no entry has by itself: it keeps at most twice as
many values as it has entries, and 16. If most entries are removed, it frees the room for their values.

Iterators. An iterator raises RuntimeError if its map has changed since it was made. It can't be copied or pickled.

Exceptions. A call that raises leaves the map as it was. If an allocation fails, it raises MemoryError. What a value's `__eq__`
raises is raised by the call that compares it, and so is what its `__hash__` raises, except TypeError. These, and `__del__`, may use and
change the map themselves.

Threads. Several threads may use one map, whichever thread made it: tested, not proved. Calls run one after another, with two exceptions.
Other threads run during `FrozenRangeMap.get_many`. They also run while a map of more than 4096 entries is copied, read as a whole, or
combined with another one. Meanwhile they may look up its keys. A call that would change the map waits. Calls that change a map in place hold Python's lock: to set or remove a range, few ranges of a large map, or the keys above one.

Signals. Calls that visit all entries or many rows see a signal, such as that of Ctrl-C, every 4096 rows. A call that raises what the
handler raises leaves the map as it was. A single call of the library is not interrupted: a copy, a union, or one range over many entries.
"""
cimport cython

include "library.pxi"

cdef object GenericAlias, __newobj__, _slotnames, array  # in C, so that they are no names of the module
from array import array
from copyreg import __newobj__, _slotnames
from types import GenericAlias

__all__ = ["FrozenRangeMap", "RangeMap"]
__version__ = VERSION.decode()

include "values.pxi"
include "rows.pxi"
include "integers.pxi"
include "columns.pxi"
include "lookups.pxi"
include "walks.pxi"
include "comparison.pxi"
include "iterators.pxi"
include "differences.pxi"
include "tree.pxi"
include "changes.pxi"
include "map.pxi"
include "renumber.pxi"
include "few.pxi"
include "threads.pxi"
include "operators.pxi"
include "pieces.pxi"
include "frozen.pxi"
include "signatures.pxi"

for kind in (Lookups, Walks, Tree, Changes, RangeMap, FrozenRangeMap):
    write_signatures(kind)
del kind
include "private.pxi"
