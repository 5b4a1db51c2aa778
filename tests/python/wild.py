"""Values whose __hash__, __eq__ and __del__ raise, or change the maps that call them."""
import copy
import gc
import os
import pickle
import random
from array import array

from model import contents, result_of, same
from range_map import RangeMap


class Wild:
    """A value whose __hash__, __eq__ and __del__ do what `act` does, which may raise or change maps."""

    act = None
    depth = 0

    def __init__(self, number):
        self.number = number

    def wild(self):
        if Wild.act is not None and Wild.depth < 3:
            Wild.depth += 1
            try:
                Wild.act()
            finally:
                Wild.depth -= 1

    def __hash__(self):
        self.wild()
        return self.number % 3

    def __eq__(self, other):
        self.wild()
        return isinstance(other, Wild) and self.number == other.number

    def __lt__(self, other):
        self.wild()
        return self.number < other.number

    def __del__(self):
        try:
            self.wild()
        except ZeroDivisionError:
            pass


class WildWithoutHash(Wild):
    """A wild value that is compared by identity."""

    __hash__ = None


def wild_value(choose):
    return choose.choice([Wild, Wild, WildWithoutHash])(choose.randrange(12))


def wild_calls(choose, m, n):
    """One random call on two maps."""
    start = choose.randrange(-10, 30)
    stop = start + choose.randrange(1, 12)
    value = wild_value(choose)
    calls = [
        lambda: m.__setitem__(slice(start, stop), value), lambda: m.__setitem__(start, value), lambda: m.__delitem__(slice(start, stop)),
        lambda: m.setdefault(start, stop, value), lambda: m.pop(start, None), lambda: m.update([(start, stop, value),
        (stop, stop + 2, wild_value(choose)), (start, start + 1, Wild(3))]), lambda: m.__ior__(n), lambda: m.__iand__(n),
        lambda: m.__ixor__(n), lambda: m.__isub__(n), lambda: m | n, lambda: m & n, lambda: n ^ m, lambda: m == n, lambda: m < n,
        lambda: m.update_range(start, stop, lambda old: choose.choice([None, old, value])), lambda: m.copy(), lambda: m[start:stop],
        lambda: m.update_range(start, stop, lambda old: choose.choice([0, old, value, wild_value(choose)]), 0),
        lambda: m.freeze(), lambda: result_of(lambda: hash(n.freeze()), TypeError), lambda: m.complement(value)[start:stop], lambda: m.split(25), lambda: m.get(start),
        lambda: copy.deepcopy(m), lambda: pickle.loads(pickle.dumps(m)), lambda: list(m), lambda: list(m.gaps(0, 30)), m.to_arrays,
        lambda: RangeMap.from_arrays(*m.to_arrays()), lambda: m.entry_at(start), lambda: m.get_many(array("q", range(30))),
        lambda: m.union(n, m, n.freeze()), lambda: list(m.diff(n)), lambda: n.freeze() | m, lambda: n.freeze() ^ m, lambda: m.freeze() < n,
        lambda: list(m.ranges()),
    ]
    return choose.choice(calls)


def well_formed(m):
    rows = list(m)
    for (_, stop, value), (start, _, other) in zip(rows, rows[1:]):
        if start < stop or start == stop and value is other:
            raise AssertionError(f"entries that are not in order: {rows}")
    if not all(isinstance(value, Wild) for _, _, value in rows):
        raise AssertionError(f"values that were never put into the map: {rows}")


def wild_values():
    count = 500 if "RANGE_MAP_PYTHON" in os.environ else 2000
    choose = random.Random(7)

    def raises():
        if choose.random() < 0.1:
            raise ZeroDivisionError

    m, n = RangeMap(), RangeMap()
    for _ in range(count):
        call, before, other_before = wild_calls(choose, m, n), contents(m), contents(n)
        Wild.act = raises
        try:
            call()
        except ZeroDivisionError:
            same((contents(m), contents(n)), (before, other_before), "maps after a value has raised")
        finally:
            Wild.act = None
        well_formed(m)
        if choose.random() < 0.3:
            m, n = n, m

    def changes():
        if choose.random() < 0.3:
            try:
                wild_calls(choose, *choose.choice([(m, n), (n, m), (m, m)]))()
            except RuntimeError:
                pass
        if choose.random() < 0.02:
            gc.collect()

    m, n = RangeMap(), RangeMap()
    for number in range(count):
        call = wild_calls(choose, m, n)
        Wild.act = changes
        try:
            call()
        except RuntimeError:
            pass
        finally:
            Wild.act = None
        del call
        if number % 8 == 0:
            well_formed(m)
            well_formed(n)
        if choose.random() < 0.3:
            m, n = n, m
        if len(m) > 60:
            m.clear()
