"""Columns of integers: what each call that takes or returns many ranges gives to each other one, and what is read as a column."""
import ctypes
import pickle
import random
from array import array
from collections import deque

from model import END, LEAST, gaps_of, marked, result_of, runs_of, same
from range_map import FrozenRangeMap, RangeMap

try:
    import numpy
except ImportError:
    numpy = None
try:
    import pandas
except ImportError:
    pandas = None

KINDS = (RangeMap, FrozenRangeMap)


def in_column(stop):
    return LEAST if stop == END else stop


def columns_of(runs):
    """The columns of entries, in each form that a call reads: arrays, lists, and what NumPy and pandas have."""
    starts, stops, values = [run[0] for run in runs], [run[1] for run in runs], [run[2] for run in runs]
    written = [in_column(stop) for stop in stops]
    made = [(array("q", starts), array("q", written), values), (starts, written, values), (tuple(starts), deque(stops), iter(values)),
            (starts, stops, values)]
    if numpy:
        made.append((numpy.array(starts, "int64"), numpy.array(stops, object), values))
        made.append((numpy.array(starts, ">i8"), numpy.repeat(numpy.array(written, "int64"), 2)[::2], values))
        if all(start >= 0 for start in starts):
            made.append((numpy.array(starts, "uint64"), numpy.array(stops, "uint64"), values))
    if pandas:
        made.append((pandas.Series(starts, dtype="int64"), pandas.Series(written, dtype="int64"), values))
    return made


def samples():
    """Entries in all positions: around 0, at both ends of the keys, at all keys, and none."""
    choose = random.Random(13)
    made = [[], [(LEAST, END, "a")], [(LEAST, LEAST + 1, "a")], [(END - 1, END, "a")], [(LEAST, 0, "a"), (0, END, "b")]]
    for base in (0, -12, LEAST, END - 24):
        for _ in range(10):
            plain = {base + choose.randrange(24): choose.choice("abc") for _ in range(choose.randrange(1, 24))}
            made.append(runs_of(plain))
    return made


def columns_go_round():
    """Each result of one call is passed to each call that reads it."""
    passed = 0
    for runs in samples():
        first = RangeMap(runs)
        for m in (first, first.freeze()):
            starts, stops, values = m.to_arrays()
            same(list(zip(starts, stops, values)), [(start, in_column(stop), value) for start, stop, value in runs], "to_arrays")
            same((starts.typecode, stops.typecode), ("q", "q"), "the types of to_arrays")
            made = [kind.from_arrays(*columns) for kind in KINDS for columns in [m.to_arrays(), *columns_of(runs)]]
            for columns in [m.to_arrays(), *columns_of(runs)]:
                painted = RangeMap()
                painted.paint_many(*columns)
                made.append(painted)
            for entries in (m, list(m), iter(m), tuple(m.overlapping()), made[0], made[-1]):
                updated = RangeMap()
                updated.update(entries)
                made.append(updated)
            made += [kind(entries) for kind in KINDS for entries in (m, list(m), iter(m))]
            made += [pickle.loads(pickle.dumps(m)), m.copy(), m.freeze(), m[:]]
            for each in made:
                same(list(each), runs, "a map from the result of another call")
                same(each.to_arrays(), (starts, stops, values), "the columns of such a map")
                same((each.get_many(starts), each.get_many([stop - 1 for _, stop, _ in runs])), (values, values), "get_many")
                passed += 1
    return passed


def painted_columns():
    """Ranges in random order, some without keys, beside a dictionary."""
    choose = random.Random(31)
    for number in range(300):
        base = choose.choice([0, -12, LEAST, END - 24])
        plain, m = {}, RangeMap()
        for _ in range(3):
            ends = [(base + choose.randrange(24), base + choose.randrange(25)) for _ in range(choose.randrange(8))]
            ends = [(start, stop) for start, stop in ends if stop != LEAST]
            values = [choose.choice(["a", "b", 1, 1.0]) for _ in ends]
            for (start, stop), value in zip(ends, values):
                plain.update(dict.fromkeys(range(start, stop), value))
            starts, stops = [start for start, _ in ends], [in_column(stop) for _, stop in ends]
            kind = number % 3
            if kind == 0 and numpy:
                starts, stops = numpy.array(starts, "int64"), numpy.array(stops, "int64")
            elif kind == 1:
                starts, stops = array("q", starts), array("q", stops)
            m.paint_many(starts, stops, values)
            same(marked(m), marked(runs_of(plain)), "paint_many")
            same(list(m.gaps(base, base + 24)), gaps_of(plain, base, base + 24), "the gaps after paint_many")


class Unhashed:
    """A value whose hash raises, but no TypeError."""

    def __hash__(self):
        raise ArithmeticError


def rejected_columns():
    m = RangeMap([(1, 6, "a")])
    before = list(m)
    wrong = [([1], [], ["b"], ValueError), ([1], [2], [], ValueError), ([1, 2], [3, 4], ["b"], ValueError),
             ([END + 1], [END], ["b"], OverflowError), ([LEAST - 1], [3], ["b"], OverflowError), ([1], [END + 1], ["b"], OverflowError),
             ([1], [LEAST - 1], ["b"], OverflowError), ([2**70], [2**71], ["b"], OverflowError), (["1"], [2], ["b"], TypeError),
             ([1], [2.0], ["b"], TypeError), ([1], [None], ["b"], TypeError), (1, 2, ["b"], TypeError), ([1], [2], 5, TypeError),
             ([1], [2], [Unhashed()], ArithmeticError), ([5, 1], [7, 2**64], ["b", "c"], OverflowError),
             ([5, 1], [7, 2], ["b", Unhashed()], ArithmeticError)]
    for starts, stops, values, error in wrong:
        same(result_of(lambda: m.paint_many(starts, stops, values), Exception), error, f"paint_many of {starts} {stops} {values}")
        same(list(m), before, "the map after that")
        for kind in KINDS:
            same(result_of(lambda: kind.from_arrays(starts, stops, values), Exception) in (error, ValueError), True, "from_arrays")
    for starts, stops in (([1, 3], [4, 5]), ([3], [3]), ([3], [2]), ([5, 1], [7, 3]), ([END], [END]), ([1, 3], [3, 3])):
        for kind in KINDS:
            same(result_of(lambda: kind.from_arrays(starts, stops, "ab"[:len(starts)]), ValueError), ValueError, "from_arrays")
    m.paint_many([3, 4, END, END, 9], [3, 2, END, 5, LEAST + 1], [[], [], [], [], []])
    same(list(m), before, "ranges without keys")
    m.paint_many([END - 1, 1], [END, 2], ["z", "b"])
    same(list(m), [(1, 2, "b"), (2, 6, "a"), (END - 1, END, "z")], "the last key")


PLAIN = [0, 5, 6, 8, 100, 127]


def plain_columns():
    """Columns without NumPy: those to read, and others."""
    columns = [PLAIN, tuple(PLAIN), deque(PLAIN), dict.fromkeys(PLAIN), range(0, 300, 7), range(9, -9, -1), [True, False], [], ()]
    columns += [bytes(PLAIN), bytearray(PLAIN), memoryview(bytes(PLAIN)), memoryview(bytes(PLAIN))[::-2], (ctypes.c_int16 * 6)(*PLAIN)]
    columns += [(ctypes.c_uint64 * 2)(2**63 - 1, 2**64 - 1), [2**63, 2**63 - 1, -(2**63), -(2**63) - 1, 2**100, -(2**100)]]
    columns += [array(kind, PLAIN) for kind in "bBhHiIlLqQ"] + [array(kind, [-3, -4, -1]) for kind in "bhilq"]
    columns += [array("Q", [2**63 - 1, 2**63, 2**64 - 1]), array("L", [2**63]), array("q")]
    wrong = ["05", ["0"], [1.0], [None], [[1]], [1, 2, "3"], 5, None, 1.5, object(), lambda: 1, array("d", [1.0]), array("f")]
    wrong += [memoryview(bytes(8)).cast("B", (2, 4)), memoryview(b"a").cast("c"), memoryview(b"\1").cast("?"), (ctypes.c_double * 2)()]
    return columns, wrong


def columns_of_numpy():
    """Arrays of each integer type in both orders of bytes, with gaps between the numbers; and arrays of other things."""
    columns = []
    for name in ("int8", "int16", "int32", "int64", "uint8", "uint16", "uint32", "uint64", "longlong", "ulonglong", "intp"):
        for order in "<>":
            keys = numpy.array(PLAIN, numpy.dtype(name).newbyteorder(order))
            ends = numpy.array([numpy.iinfo(keys.dtype).min, numpy.iinfo(keys.dtype).max], keys.dtype)
            columns += [keys, keys[::2], keys[::-1], keys[1:1], ends, numpy.repeat(keys, 3).reshape(-1, 3)[:, 1], keys.astype(object)]
            if keys.dtype.kind == "i":
                columns.append(numpy.array([-1, -3, -4, 5], keys.dtype))
    record = numpy.zeros(5, dtype=[("a", "i1"), ("b", "<i4")])
    record["b"] = [-3, 5, 6, 8, 199]
    read_only = numpy.array(PLAIN)
    read_only.flags.writeable = False
    columns += [record["b"], read_only, numpy.arange(3) + LEAST, numpy.broadcast_to(numpy.int16(5), 4)]
    columns.append([numpy.int8(3), numpy.uint64(2**64 - 1)])
    wrong = [numpy.array(items) for items in ([1.0], [True], ["1"], [b"1"], [1j], 3)]
    wrong += [numpy.array([1], kind) for kind in ("datetime64[s]", "timedelta64[s]", "float16")]
    wrong += [numpy.zeros((2, 2), int), numpy.zeros((0, 3), int), record, numpy.int64(3), RangeMap([(1, 2, 3)])]
    return columns, wrong + [numpy.array([1, 2.5], object), numpy.array([[1], [2]], object)]


def columns_of_pandas():
    columns = [pandas.Index(PLAIN), pandas.array(PLAIN), pandas.RangeIndex(9), pandas.Series(range(5), index=list("abcde"))]
    columns.append(pandas.Series([1, 2**63, -(2**70)], dtype=object))
    for name in ("int8", "int64", "uint16", "uint64", "Int64", "UInt8"):
        columns += [pandas.Series(PLAIN, dtype=name), pandas.Series(PLAIN, dtype=name)[::-2]]
    wrong = [pandas.Series(items) for items in ([1.5], ["1"], [True], [1, None])]
    wrong += [pandas.Series([1, None], dtype="Int64"), pandas.DataFrame({"a": [1]}), pandas.to_datetime(pandas.Series(["2020-01-01"]))]
    return columns, wrong


def columns_of_all_kinds():
    """get_many of each kind of column, and the TypeError that the docstring names."""
    columns, wrong = plain_columns()
    for name, there, make in (("numpy", numpy, columns_of_numpy), ("pandas", pandas, columns_of_pandas)):
        if there is None:
            print(f"bindings: there is no {name} here: left out")
        else:
            columns, wrong = columns + make()[0], wrong + make()[1]
    m = RangeMap([(-3, 6, "a"), (8, 200, "b"), (2**63 - 5, None, "c")])
    for each in (m, m.freeze()):
        for column in columns:
            same(each.get_many(column), [each.get(int(key)) for key in column], f"get_many of {column!r}")
        for column in wrong:
            same(result_of(lambda: each.get_many(column), Exception), TypeError, f"get_many of {column!r}")
        same(each.get_many(iter(PLAIN)), [each.get(key) for key in PLAIN], "get_many of an iterator")
    return len(columns) + len(wrong)
