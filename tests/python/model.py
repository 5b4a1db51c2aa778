"""Plain dictionaries in place of maps: which values are one value, and what entries and gaps a dictionary has. The module `range_map` is
that in bindings/python, or in the folder that RANGE_MAP_PYTHON names."""
import os
import sys
from dataclasses import dataclass
from pathlib import Path

root = Path(__file__).resolve().parent.parent.parent
module = os.environ.get("RANGE_MAP_PYTHON") or str(root / "bindings" / "python")
sys.path.insert(0, module)

LEAST, END = -(2**63), 2**63
KEYS = 24


class Equal:
    """Instances with one number are equal, and told apart by identity."""

    def __init__(self, number):
        self.number = number

    def __eq__(self, other):
        return isinstance(other, Equal) and self.number == other.number

    def __lt__(self, other):
        return self.number < other.number if isinstance(other, Equal) else NotImplemented

    def __hash__(self):
        return self.number % 2

    def __repr__(self):
        return f"Equal({self.number})"


@dataclass
class Point:
    """A value without a hash, as a dataclass has none unless it is frozen."""

    x: int = 0


MISSING = object()
NAN, OTHER_NAN = float("nan"), float("nan")
# Values without a hash, in pairs that are equal.
WITHOUT_HASH = [[1], [1], {"a": 1}, {"a": 1}, {1}, {1}, ([1], 2), ([1], 2), Point(), Point(), bytearray(b"a"), bytearray(b"a")]
VALUES = ["a", "b", None, (1, "d"), 0, False, 0.0, 1, True, 1.0, NAN, OTHER_NAN, *WITHOUT_HASH[:2], *WITHOUT_HASH[6:10]]


def has_hash(value):
    try:
        hash(value)
    except TypeError:
        return False
    return True


def mark(value):
    """What is equal for values that are one value to a map."""
    return (type(value), value) if has_hash(value) and value == value else id(value)


def runs_of(plain):
    """The entries of a dictionary."""
    runs = []
    for key in sorted(plain):
        if runs and runs[-1][1] == key and mark(runs[-1][2]) == mark(plain[key]):
            runs[-1][1] = key + 1
        else:
            runs.append([key, key + 1, plain[key]])
    return [tuple(run) for run in runs]


def gaps_of(plain, start, stop):
    """The gaps of a dictionary within a range, which may be long beside it."""
    gaps = []
    for key in sorted(key for key in plain if start <= key < stop):
        if start < key:
            gaps.append((start, key))
        start = key + 1
    return gaps + [(start, stop)] if start < stop else gaps


def ranges_of(plain):
    """The longest ranges of keys of a dictionary."""
    return [(start, stop) for start, stop, _ in runs_of(dict.fromkeys(plain, "any"))]


def differences_of(old, new, missing):
    """The longest ranges on which two dictionaries differ, with both values."""
    pairs = {}
    for key in old.keys() | new.keys():
        one, other = old.get(key, MISSING), new.get(key, MISSING)
        if one is not other and one != other:
            pairs[key] = one, other
    runs = []
    for key in sorted(pairs):
        marks = [mark(value) for value in pairs[key]]
        if runs and runs[-1][1] == key and runs[-1][3] == marks:
            runs[-1][1] = key + 1
        else:
            runs.append([key, key + 1, pairs[key], marks])
    return [(start, stop, *(missing if value is MISSING else value for value in pair)) for start, stop, pair, _ in runs]


def marked(rows):
    return [(start, stop, mark(value)) for start, stop, value in rows]


def same(got, wanted, what):
    if got != wanted:
        raise AssertionError(f"{what}: wanted {wanted}, got {got}")


def result_of(call, *exceptions):
    """What a call returns, or the type of what it raises."""
    try:
        return call()
    except exceptions as exception:
        return type(exception)


def contents(m):
    return [(start, stop, id(value)) for start, stop, value in m]
