"""What the docstrings claim of single calls: `in`, states of pickles, and how often an argument is asked for its integer."""
import copy
import itertools
import pickle
from array import array
from decimal import Decimal
from fractions import Fraction

from model import END, LEAST, result_of, same
from range_map import FrozenRangeMap, RangeMap

try:
    import numpy
except ImportError:
    numpy = None

KINDS = (RangeMap, FrozenRangeMap)


class Index:
    """An integer that is no int, and counts how often it is asked for it."""

    def __init__(self, number):
        self.number, self.asked = number, 0

    def __index__(self):
        self.asked += 1
        return self.number


def numbers_of_all_kinds():
    """Objects that may be in a range."""
    keys = [True, False, 5.0, -0.0, 5.5, 1e300, -1e300, float("nan"), float("inf"), 2.0**63, -(2.0**63), 5 + 0j, 5 + 1j, 5, 6, 99]
    keys += [Decimal(text) for text in ("5", "5.0", "5.5", "1E+999999999", "-1E-999", "NaN", "Infinity")]
    keys += [Fraction(5), Fraction(11, 2), Fraction(2**80), 2**64, -(2**64), "5", b"5", "x" * 9999, None, (), (5,), [5], object(), range(3)]
    if numpy:
        keys += [numpy.int8(5), numpy.uint64(2**64 - 1), numpy.float32(5), numpy.float64(5.5), numpy.array(5), numpy.array([5])]
        keys.append(numpy.float16("nan"))
    return keys


def contains():
    """`in` agrees with `in` of a range, and finds what `[]` finds."""
    for kind in KINDS:
        for keys in (range(0, 6), range(LEAST, LEAST + 1), range(END - 1, END)):
            m = kind([(keys.start, keys.stop, "a")])
            for key in numbers_of_all_kinds():
                same(key in m, key in keys, f"{key!r} in {m!r}")
            for number in (5, 6, 2**64, LEAST):
                key = Index(number)
                same((key in m, key.asked), (number in keys, 1), "an object that is an integer")
        same(Decimal("sNaN") in m, False, "what can't be compared")

    class Raises:
        def __index__(self):
            raise ZeroDivisionError

    same(result_of(lambda: Raises() in m, ZeroDivisionError), ZeroDivisionError, "an integer that raises")


LOOKUPS = [
    lambda m, k: m.get(k), lambda m, k: m[k], lambda m, k: k in m, lambda m, k: m.entry_at(k), lambda m, k: m.gap_at(k), lambda m, k: m[k:],
    lambda m, k: m[:k], lambda m, k: m.count(k), lambda m, k: m.count(stop=k), lambda m, k: list(m.overlapping(k)),
    lambda m, k: list(m.overlapping(stop=k, reverse=True)), lambda m, k: list(m.gaps(k)), lambda m, k: list(m.gaps(None, k)),
    lambda m, k: m.get_many([k]), lambda m, k: m.get_many((k, 5)), lambda m, k: m.entry_at_or_above(k), lambda m, k: m.entry_at_or_below(k),
    lambda m, k: m.has_any(k), lambda m, k: m.has_any(stop=k), lambda m, k: m.has_all(k), lambda m, k: m.has_all(None, k),
    lambda m, k: list(m.ranges(k)), lambda m, k: list(m.ranges(stop=k)), lambda m, k: m.find_gap(k), lambda m, k: m.find_gap(1, k),
    lambda m, k: m.find_gap(1, None, k, last=True),
]
CHANGES = [
    lambda m, k: m.__setitem__(k, 1), lambda m, k: m.__delitem__(k), lambda m, k: m.__setitem__(slice(k, None), 1),
    lambda m, k: m.__setitem__(slice(None, k), 1), lambda m, k: m.__delitem__(slice(k, None)), lambda m, k: m.pop(k),
    lambda m, k: m.pop(k, None), lambda m, k: m.setdefault(k, None, 1), lambda m, k: m.setdefault(None, k, 1), lambda m, k: m.split(k),
    lambda m, k: m.update([(k, None, 1)]), lambda m, k: m.update([(None, k, 1), (5, 6, 2)]), lambda m, k: RangeMap([(k, None, 1)]),
    lambda m, k: FrozenRangeMap([(None, k, 1)]), lambda m, k: m.update_range(k, None, lambda old: 1),
    lambda m, k: m.update_range(None, k, lambda old: 1), lambda m, k: m.paint_many([k], [END], [1]),
    lambda m, k: m.paint_many([0], [k], [1]), lambda m, k: RangeMap.from_arrays([k], [END], [1]),
    lambda m, k: FrozenRangeMap.from_arrays([LEAST], [k], [1]),
]
ON_RANGES = [
    lambda m, a, b: m[a:b], lambda m, a, b: m.count(a, b), lambda m, a, b: m.__setitem__(slice(a, b), 1),
    lambda m, a, b: m.__delitem__(slice(a, b)), lambda m, a, b: m.setdefault(a, b, 1), lambda m, a, b: m.update([(a, b, 1)]),
    lambda m, a, b: m.update_range(a, b, lambda old: 1), lambda m, a, b: m.find_gap(3, a, b), lambda m, a, b: list(m.gaps(a, b)),
    lambda m, a, b: m.has_any(a, b), lambda m, a, b: m.has_all(a, b), lambda m, a, b: list(m.ranges(a, b)),
]


def asked_once():
    """Each call asks each argument once, where the integer is among the keys, below and above them."""
    numbers = [3, -3, 0, LEAST, END - 1, END, END + 1, LEAST - 1, 2**70, -(2**70)]
    for kind, calls in ((RangeMap, LOOKUPS + CHANGES), (FrozenRangeMap, LOOKUPS)):
        for at, call in enumerate(calls):
            for number in numbers:
                key = Index(number)
                result_of(lambda: call(kind([(0, 6, "a")]), key), KeyError, OverflowError, ValueError)
                same(key.asked, 1, f"how often call {at} asks {number}")
    for at, call in enumerate(ON_RANGES):
        for start, stop in itertools.product(numbers, numbers):
            ends = Index(start), Index(stop)
            result_of(lambda: call(RangeMap([(0, 6, "a")]), *ends), OverflowError)
            same([end.asked for end in ends], [1, 1], f"how often call {at} asks {start} and {stop}")


class Named(RangeMap):
    __slots__ = ("__dict__", "slot")


class NamedFrozen(FrozenRangeMap):
    pass


class Slotted(RangeMap):
    __slots__ = ("slot",)


class Unequal:
    """A value that can't be compared."""

    def __hash__(self):
        return 1

    def __eq__(self, other):
        raise ZeroDivisionError


ONE, TWO, NONE = array("q", [1]), array("q", [2]), array("Q", [0])
VALID = (ONE, TWO, NONE, ["a"], None)
STATES = [
    None, 5, "", "abcde", b"abcde", (), [], {}, object(), (1, 2, 3, 4, 5), (ONE, TWO), VALID[:4], (*VALID, None), range(5), range(4),
    # ranges that are empty, share keys, do not ascend, or are too many
    (ONE, ONE, NONE, ["a"], None), (TWO, ONE, NONE, ["a"], None), ([1, 1], [2, 2], [0, 0], ["a"], None),
    ([3, 1], [4, 2], [0, 0], ["a"], None), ([1, 2], [3, 4], [0, 0], ["a"], None), ([1], [2, 3], [0], ["a"], None),
    (ONE, TWO, array("Q"), ["a"], None),
    # numbers that have no value
    (ONE, TWO, array("Q", [1]), ["a"], None), (ONE, TWO, array("q", [-1]), ["a"], None), (ONE, TWO, [2**70], ["a"], None),
    (ONE, TWO, array("Q", [2**64 - 1]), ["a"], None), (ONE, TWO, NONE, [], None), (ONE, TWO, NONE, None, None), (ONE, TWO, NONE, 7, None),
    # columns that are none
    (ONE, TWO, None, ["a"], None), (None, TWO, NONE, ["a"], None), (ONE, None, NONE, ["a"], None),
    (array("d", [1]), TWO, NONE, ["a"], None), (ONE, ["2"], NONE, ["a"], None), (ONE, [2**70], NONE, ["a"], None), ([-(2**70)], TWO, NONE, ["a"], None),
    (ONE, [2.5], NONE, ["a"], None),
    # values that can't be compared
    (ONE, TWO, NONE, [Unequal()], 5), ([1, 4], [2, 5], [0, 1], [Unequal(), Unequal()], None),
]
STATES += [(ONE, TWO, NONE, ["a"], attributes) for attributes in (
    5, (), (1,), (1, 2), "ab", ({},), ({}, {}, {}), ({}, 5), (5, {}), (None, {}), ([], []), ({}, {"copy": 5}), ({}, {"other": 5}),
    ({}, {5: 5}), ({}, {"__class__": Named}), ({}, {"slot": 1, "none": 2}))]
RAISED = (TypeError, ValueError, OverflowError, ZeroDivisionError)


def rejected_states():
    """A state of a pickle that is none leaves the map as it was, and its attributes."""
    for kind, more in ((RangeMap, [({"name": 1}, {}), ({}, {"slot": 1})]), (Named, []), (Slotted, [({"name": 1}, {})])):
        for state in STATES + [(*VALID[:4], attributes) for attributes in more]:
            m = kind([(5, 6, 1), (7, 9, Unequal), (20, None, "b")])
            if kind is not RangeMap:
                m.slot = "kept"
            before, walk = list(m), iter(m)
            same(result_of(lambda: m.__setstate__(state), Exception) in RAISED, True, f"{kind.__name__}, the state {state!r}")
            same((list(m), list(walk)), (before, before), f"the map after the state {state!r}")
            attributes = getattr(m, "slot", "kept"), getattr(m, "__dict__", {})
            same(attributes, ("kept", {}), f"the attributes after the state {state!r}")
    for kind in (FrozenRangeMap, NamedFrozen):
        for state in STATES:
            f = kind.__new__(kind)
            same(result_of(lambda: f.__setstate__(state), Exception) in RAISED, True, f"{kind.__name__}, the state {state!r}")
            same((list(f), hash(f), getattr(f, "__dict__", {})), ([], hash(kind()), {}), f"the map after the state {state!r}")
            f.__setstate__(VALID)
            same(list(f), [(1, 2, "a")], "a frozen map after a valid state")
    return 5 * len(STATES)


def pickled():
    """Pickles and deep copies of maps at both ends of the keys."""
    for kind in (RangeMap, Named, Slotted, FrozenRangeMap, NamedFrozen):
        for entries in ([], [(1, 2, "a")], [(LEAST, 4, "a"), (9, END, None)], [(1, 2, 1), (2, 3, True), (3, 4, 1.0)]):
            m = kind(entries)
            if kind in (Named, Slotted):
                m.slot = [5]
            for again in [copy.deepcopy(m), *(pickle.loads(pickle.dumps(m, protocol)) for protocol in range(6))]:
                same((type(again), list(again), getattr(again, "slot", 0)), (kind, entries, getattr(m, "slot", 0)), "a pickle")
