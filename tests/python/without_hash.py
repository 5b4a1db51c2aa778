"""Values without a hash, such as lists, which a map compares by identity; and what hash() raises besides TypeError."""
import copy
import gc
import pickle
import random

from model import END, LEAST, Point, WITHOUT_HASH, contents, result_of, same
from range_map import FrozenRangeMap, RangeMap

try:
    import numpy
except ImportError:
    numpy = None

KINDS = (RangeMap, FrozenRangeMap)


class Raising:
    """A value whose hash raises, and which is equal to all others."""

    def __init__(self, error):
        self.error = error

    def __hash__(self):
        raise self.error

    def __eq__(self, other):
        return True


class Counted(list):
    """A list that counts how many of its kind are alive."""

    alive = 0

    def __init__(self):
        Counted.alive += 1

    def __del__(self):
        Counted.alive -= 1


def ways_to_put(entries):
    """Maps with entries that ascend, made by each call that takes a value."""
    starts, stops, values = zip(*entries)
    made = [kind(entries) for kind in KINDS] + [kind.from_arrays(starts, stops, values) for kind in KINDS]
    made += [RangeMap() for _ in range(5)]
    for start, stop, value in entries:
        made[4][start:stop] = value
        same(made[5].setdefault(start, stop, value), True, "setdefault")
        made[6].update([(start, stop, value)])
        made[7].update_range(start, stop, lambda old: value)
        made[8] |= RangeMap([(start, stop, value)])
    painted = RangeMap()
    painted.paint_many(starts, stops, values)
    large = RangeMap((key, key + 1, key) for key in range(1000, 3000))  # (few rows are set one by one)
    large.update(entries)
    return made + [painted, large[:1000], RangeMap(made[0]), made[0].copy(), made[0].freeze(), made[0] | RangeMap(), RangeMap() | made[1]]


def values_without_hash():
    passed = 0
    for one, other in zip(WITHOUT_HASH[::2], WITHOUT_HASH[1::2]):
        same((one == other, one is other, result_of(lambda: hash(one), TypeError)), (True, False, TypeError), "two equal values")
        for entries, wanted in (
            ([(2, 6, one)], [(2, 6, one)]),
            ([(2, 6, one), (6, 9, one)], [(2, 9, one)]),
            ([(2, 6, one), (6, 9, other)], [(2, 6, one), (6, 9, other)]),
            ([(2, 6, one), (6, 9, other), (9, 10, one)], [(2, 6, one), (6, 9, other), (9, 10, one)]),
        ):
            for m in ways_to_put(entries):
                same(contents(m), [(start, stop, id(value)) for start, stop, value in wanted], "entries by identity")
                same(m[2] is one and m.get(3) is one and m.entry_at(2)[2] is one and m.first()[1] is one, True, "the value itself")
                passed += 1
        m = RangeMap([(LEAST, 0, one)])
        same(contents(m.complement(other) | m), [(LEAST, 0, id(one)), (0, END, id(other))], "a complement")
        m.update_range(None, None, lambda old: one if old is None else old)
        same(contents(m), [(LEAST, END, id(one))], "all keys")
    return passed


def changed_values():
    """A list in a map changes: entries stay what they are, and == of maps sees it."""
    one, other = [1], [1]
    m, n = RangeMap([(0, 5, one), (5, 9, other)]), RangeMap([(0, 9, [1])])
    same((m == n, m == m.copy(), m.freeze() == n, m != n, m <= n), (True, True, True, False, True), "== by the lists' own ==")
    one.append(2)
    same((m == n, m == m.copy(), m > n, len(m), m[4]), (False, True, True, 2, [1, 2]), "after a list has changed")
    m[5:9] = one
    same(contents(m), [(0, 9, id(one))], "one list on both ranges")
    m[3] = other
    other.append(2)
    same((len(m), m == RangeMap([(0, 9, one)])), (3, True), "lists that are equal later")
    m.setdefault(0, 20, one)
    same([m.pop(3) is other, m.popitem()[1] is one, m.split(3).first()[1] is one], 3 * [True], "what is removed")


def copied_and_pickled():
    one, other = [1], [1]
    entries = [(0, 5, one), (5, 9, other), (20, 21, one), (30, 31, (one, other))]
    for kind in KINDS:
        m = kind(entries)
        for again in (m.copy(), copy.copy(m), m[:], kind(m), kind(list(m)), m.freeze()):
            same(contents(again), contents(m), "a copy has the lists themselves")
        for again in (copy.deepcopy(m), *(pickle.loads(pickle.dumps(m, protocol)) for protocol in range(6))):
            same((again == m, len(again), type(again)), (True, 4, kind), "a pickle is equal, and has as many entries")
            same((again[0] is again[20], again[0] is again[5], again[30][1] is again[5], again[0] is one), (True, False, True, False),
                 "a pickle has as many lists")
    cycle = RangeMap()
    cycle[0:5] = cycle[7:9] = [cycle]
    again = pickle.loads(pickle.dumps(cycle))
    same((again[0][0] is again, again[7] is again[0], len(again)), (True, True, 2), "a map in itself")
    cycle[1:3] = cycle
    same((cycle == cycle, cycle[1] is cycle, repr(cycle).count("RangeMap(...)")), (True, True, 4), "a map that is its own value")


def operators_of_lists():
    one, other = [1], [1]
    m, n = RangeMap([(0, 6, one)]), RangeMap([(3, 6, one), (6, 9, other)])
    for left in (m, m.freeze()):
        for right in (n, n.freeze()):
            same(contents(left | right), [(0, 6, id(one)), (6, 9, id(other))], "|")
            same((contents(left & right), contents(left - right), contents(left ^ right)), ([(3, 6, id(one))], [(0, 3, id(one))], [
                (0, 3, id(one)), (6, 9, id(other))]), "& - ^")
            same(contents(right ^ RangeMap([(9, 12, other)])), [(3, 6, id(one)), (6, 12, id(other))], "^ beside the same list")
            same(contents(left.union(right, RangeMap([(9, 10, one)]))), [(0, 6, id(one)), (6, 9, id(other)), (9, 10, id(one))], "union")
            same(list(left.diff(right)), [(0, 3, one, None), (6, 9, None, other)], "diff")
            same(list(left.diff(RangeMap([(0, 6, other)]))), [], "diff by the lists' own ==")


def no_hash_of_a_map():
    for value in WITHOUT_HASH:
        f = FrozenRangeMap([(0, 1, "a"), (2, 3, value)])
        for _ in range(2):
            same(result_of(lambda: hash(f), TypeError), TypeError, "the hash of a map with a list")
        same(hash(f[:2]), hash(FrozenRangeMap([(0, 1, "a")])), "the hash of a part without it")
        m = RangeMap([(0, 2, f), (2, 4, f), (4, 5, f[:])])
        same((len(m), m[0] == m[4]), (2, True), "a frozen map without a hash is compared by identity")
    m = RangeMap([(0, 2, RangeMap()), (2, 3, RangeMap())])
    same(len(m), 2, "maps as values")


def hashes_that_raise():
    """TypeError makes a value one that is compared by identity. What else hash() raises leaves the map as it was."""
    value, other = Raising(TypeError), Raising(TypeError("no"))
    m = RangeMap([(0, 3, value), (3, 5, other), (5, 7, value), (7, 9, value)])
    same(contents(m), [(0, 3, id(value)), (3, 5, id(other)), (5, 9, id(value))], "values that are equal, and have no hash")
    before = contents(m)
    for error in (ZeroDivisionError, ValueError, MemoryError, KeyboardInterrupt):
        wrong = Raising(error)
        for call in (lambda: m.__setitem__(0, wrong), lambda: m.update([(0, 1, "a"), (1, 2, wrong)]), lambda: m.setdefault(0, 90, wrong),
                     lambda: m.complement(wrong), lambda: m.update_range(0, 90, lambda old: wrong), lambda: RangeMap([(0, 1, wrong)]),
                     lambda: m.paint_many([0], [1], [wrong]), lambda: FrozenRangeMap.from_arrays([0], [1], [wrong])):
            same(result_of(call, BaseException), error, "what a hash raises")
            same(contents(m), before, "the map after that")


def lists_are_dropped():
    """New lists in place of others, whose addresses they may have: each key has its own list, and no other list is kept."""
    choose = random.Random(5)
    m, plain = RangeMap(), {}
    for number in range(6000):
        key = choose.randrange(60)
        plain.pop(key, None)
        m.pop(key, None)
        if choose.random() < 0.7:
            m[key] = plain[key] = Counted()
        if number % 50 == 0:
            same([(key, id(value)) for key, value in sorted(plain.items())],
                 [(key, id(value)) for start, stop, value in m for key in range(start, stop)], "lists")
            same(Counted.alive <= 2 * len(plain) + 20, True, f"{Counted.alive} lists are alive for {len(plain)} keys")
    plain.clear()
    m.clear()
    m.update((key, key + 1, Counted()) for key in range(2000))  # (renumbered when most are removed)
    kept = m[1999]
    del m[:1999]
    m[1998] = kept
    same(contents(m), [(1998, 2000, id(kept))], "a list after the table of values got new numbers")
    for _ in range(100):
        m[5] = Counted()
    same((m[1998] is kept, len(m)), (True, 2), "a list after many others")
    del m, kept
    gc.collect()
    same(Counted.alive, 0, "lists of maps that are gone")


def points():
    """A dataclass as a value, as users have it."""
    m = RangeMap()
    m[0:10] = Point(1)
    m[3:5] = Point(1)
    m[0].x = 7
    same([(start, stop, value.x) for start, stop, value in m], [(0, 3, 7), (3, 5, 1), (5, 10, 7)], "points")


def arrays_as_values():
    """Arrays of NumPy, whose == returns an array: no call compares them, except == of maps, which raises what the array raises."""
    if numpy is None:
        print("bindings: there is no numpy here: left out")
        return
    one, other = numpy.arange(3), numpy.arange(3)
    m = RangeMap([(0, 5, one), (5, 7, other), (7, 9, other)])
    m.update_range(2, 8, lambda old: one if old is other else old)
    same(contents(m | m.copy()), [(0, 8, id(one)), (8, 9, id(other))], "arrays")
    same((m == m.copy(), list(m.diff(m.freeze()))), (True, []), "the same arrays")
    again = pickle.loads(pickle.dumps(m))
    same(len(again), 2, "a pickle")
    for call in (lambda: m == again, lambda: m < again, lambda: list(m.diff(again))):
        same(result_of(call, ValueError), ValueError, "two arrays")
