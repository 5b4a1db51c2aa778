"""Two maps and more: comparisons around the number of rows that are read at a time, differences, unions, and what values do meanwhile."""
import itertools
import operator
import random
import time

from model import END, LEAST, contents, differences_of, marked, result_of, runs_of, same
from range_map import FrozenRangeMap, RangeMap

SIGNS = (operator.eq, operator.ne, operator.lt, operator.le, operator.gt, operator.ge)


class Counting:
    """A value that counts comparisons of its kind, and does something in each."""

    asked, act = 0, None

    def __init__(self, number):
        self.number = number

    def __hash__(self):
        return self.number

    def __eq__(self, other):
        Counting.asked += 1
        if Counting.act is not None:
            Counting.act()
        return isinstance(other, Counting) and self.number == other.number


class Named(RangeMap):
    """A subclass with attributes."""


class NamedFrozen(FrozenRangeMap):
    """A subclass with attributes."""


def pairs_of(entries):
    return [(key, value) for start, stop, value in entries for key in range(start, stop)]


def variants(entries):
    """Lists of entries that differ from others in a few rows, or in how these are cut."""
    yield entries
    yield entries[1:]
    yield entries[:-1]
    for row in sorted({0, len(entries) // 2, len(entries) - 2, len(entries) - 1}):
        if 0 <= row < len(entries):
            before, (start, stop, value), after = entries[:row], entries[row], entries[row + 1:]
            yield before + [(start, stop, value + 1)] + after
            yield before + [(start, stop, value - 1)] + after
            yield before + [(start, stop, float(value))] + after
            yield before + [(start, start + 1, value), (start + 1, stop, float(value))] + after
            yield before + [(start, stop - 1, value)] + after
            yield before + [(start, stop + 1, value)] + after
            yield before + [(start + 1, stop, value)] + after
            yield before + after
            yield before + [(start, stop, value), (stop, stop + 1, 99)] + after


def compared_maps():
    """Each sign, as of the lists of pairs, for maps with as many rows as are read at a time, one less and one more."""
    passed = 0
    for size, base in itertools.product((0, 1, 2, 127, 128, 129, 255, 256, 257, 390), (0, LEAST, END - 5 * 390)):
        entries = [(base + 5 * key, base + 5 * key + 3, key % 7) for key in range(size)]
        if base > 0:
            entries = [(start + 5 * (390 - size), stop + 5 * (390 - size) + 1, value) for start, stop, value in entries]
        every = list(variants(entries))
        for one, other in ((entries, each) for each in every):
            for m, n in ((RangeMap(one), RangeMap(other)), (FrozenRangeMap(one), RangeMap(other)), (RangeMap(one), FrozenRangeMap(other))):
                for left, right, rows, others in ((m, n, one, other), (n, m, other, one)):
                    a, b = pairs_of(rows), pairs_of(others)
                    for sign in SIGNS:
                        same(sign(left, right), sign(a, b), f"{sign.__name__} of {size} rows from {base}")
                same((list(m.diff(n)) == [], list(n.diff(m)) == []), 2 * (m == n,), "a difference")
                passed += 1
    return passed


def compared_once():
    """Equal values of two maps are compared once each, and one object with itself never."""
    one, other = [[Counting(number) for number in range(10)] for _ in range(2)]
    m = RangeMap((2 * key, 2 * key + 1, one[key % 10]) for key in range(1000))
    n = RangeMap((2 * key, 2 * key + 1, other[key % 10]) for key in range(1000))
    Counting.asked = 0
    same((m == m.copy(), m == RangeMap(m.freeze()), m.freeze() <= m, list(m.diff(m[:]))), (True, True, True, []), "one object")
    same(Counting.asked, 0, "comparisons of one object with itself")
    same((m == n, Counting.asked), (True, 10), "comparisons of equal values")
    n[1500] = Counting(77)
    Counting.asked = 0
    same((m == n, Counting.asked), (False, 11), "comparisons up to a value that is not equal")


def compared_in_one_pass():
    """Two maps of many rows are compared in less time than the objects for the rows take."""
    count = 50_000
    m = RangeMap((2 * key, 2 * key + 1, key) for key in range(count))
    others = [m.copy(), RangeMap(list(m)), m.freeze()]

    def least_time(call):
        times = []
        for _ in range(7):
            started = time.process_time()
            call()
            times.append(time.process_time() - started)
        return min(times)

    listed = least_time(lambda: list(m))
    for other in others:
        taken = least_time(lambda: m == other)
        same((taken < listed / 2, m == other), (True, True), f"{taken} s for ==, {listed} s for a list of the rows")


def changed_meanwhile():
    """An == of values that changes or frees the maps, or raises."""
    def maps():
        return [RangeMap((2 * key, 2 * key + 1, Counting(key)) for key in range(300)) for _ in range(2)]

    def raises():
        raise ZeroDivisionError

    for at in (1, 2, 129, 300):
        for change, wanted in ((lambda m, n: m.clear(), False), (lambda m, n: n.clear(), False), (lambda m, n: (m.clear(), n.clear()), True),
                               (lambda m, n: m.__delitem__(599 - 1), False), (lambda m, n: (m.pop(0, 0), n.pop(0, 0)), True),
                               (lambda m, n: raises(), ZeroDivisionError), (lambda m, n: m.setdefault(0, 1, object()), True),
                               (lambda m, n: list(m), True), (lambda m, n: m.__setitem__(slice(600, 700), 5) or m.clear() or m.update(n), True)):
            m, n = maps()
            count = itertools.count(1)
            Counting.act = lambda: change(m, n) if next(count) == at else None
            try:
                got = result_of(lambda: m == n, ZeroDivisionError)
            finally:
                Counting.act = None
            same(got, wanted, f"== with a change at comparison {at}")
            m, n = maps()
            count = itertools.count(1)
            walk = m.diff(n)
            Counting.act = lambda: change(m, n) if next(count) == at else None
            try:
                got = result_of(lambda: list(walk), ZeroDivisionError, RuntimeError)
            finally:
                Counting.act = None
            same(got in ([], ZeroDivisionError, RuntimeError), True, f"diff with a change at comparison {at}")
            same(got == [] or wanted is not True or len(m) != 300 or got is RuntimeError, True, "diff after a change")
    m, n = maps()
    walk, count = m.diff(n), itertools.count(1)
    Counting.act = lambda: raises() if next(count) == 5 else None
    same(result_of(lambda: next(walk, None), ZeroDivisionError), ZeroDivisionError, "an == that raises")
    Counting.act = None
    same(list(walk), [], "the iterator after that")
    m, n = maps()
    m[598] = "last"
    count = itertools.count(1)
    Counting.act = lambda: (m.update([(0, 1, "first"), (598, 599, n[598])])) if next(count) == 200 else None
    got, Counting.act = m == n, None
    same(got, False, "maps that are equal at no moment")
    m, n = RangeMap(), RangeMap()
    m[0:5], n[0:5] = n, m
    for call in (lambda: m == n, lambda: m < n, lambda: list(m.diff(n))):
        same(result_of(call, RecursionError), RecursionError, "maps that are each other's values")
    m, n = maps()
    m[:], n[598:] = 5, "last"
    m.update(n[:500])
    walk, count = m.diff(n), itertools.count(1)
    Counting.act = lambda: next(walk, None) if next(count) == 5 else None
    got = list(walk)
    Counting.act = None
    same((len(got) >= 1, all(start < stop for start, stop, _, _ in got), got == sorted(got, key=lambda row: row[0])), (True, True, True),
         "an iterator that the values use")


def differences():
    m = RangeMap([(LEAST, 0, "a"), (5, 8, None), (8, 9, 1), (20, END, "z")])
    n = RangeMap([(LEAST, -5, "a"), (-5, 2, "b"), (8, 9, 1.0), (30, END, "z")])
    wanted = [(-5, 0, "a", "b"), (0, 2, None, "b"), (5, 8, None, None), (20, 30, "z", None)]
    for left, right in itertools.product((m, m.freeze()), (n, n.freeze())):
        same(list(left.diff(right)), wanted, "diff")
        same(list(right.diff(left, "gap")), [(start, stop, "gap" if new is None else new, "gap" if old is None and start != 5 else old)
             for start, stop, old, new in wanted], "diff, the other way")
        same(list(left.diff(right, missing="gap"))[2], (5, 8, None, "gap"), "a value that is None")
    same(list(RangeMap([(None, None, 1)]).diff(RangeMap())), [(LEAST, END, 1, None)], "all keys")
    same(list(RangeMap().diff(RangeMap([(END - 1, END, 1), (LEAST, LEAST + 1, 2)]))), [(LEAST, LEAST + 1, None, 2), (END - 1, END, None, 1)], "ends")
    for other in ([], {}, None, 5, [(1, 2, 3)], iter(m)):
        same(result_of(lambda: m.diff(other), TypeError), TypeError, "diff of another type")
        same(result_of(lambda: m.union(n, other), TypeError), TypeError, "union of another type")
    walk = RangeMap([(0, 1, 1), (2, 3, 1)]).diff(RangeMap())
    same((iter(walk) is walk, next(walk), next(walk), next(walk, "end"), next(walk, "end")), (True, (0, 1, 1, None), (2, 3, 1, None), "end", "end"),
         "an iterator")


def unions():
    choose = random.Random(8)
    for count in (0, 1, 2, 3, 7, 40):
        maps, plain = [], {}
        for _ in range(count):
            rows = [(start, start + choose.randrange(1, 9), choose.choice(["a", "b", 1, 1.0])) for start in choose.sample(range(90), 6)]
            maps.append(choose.choice([RangeMap, FrozenRangeMap])(rows))
            plain.update(pairs_of(maps[-1]))
        before = [contents(each) for each in maps]
        for first in (RangeMap(), FrozenRangeMap(), *maps[:1]):
            same(marked(first.union(*maps)), marked(runs_of(plain)), f"the union of {count} maps")
        same([contents(each) for each in maps], before, "the maps after that")
        if maps:
            same(type(maps[0]).union(*maps) == RangeMap().union(*maps), True, "union as a function")
    m = Named([(0, 5, "a")])
    m.name = "m"
    f = NamedFrozen([(0, 5, "a")])
    f.name = "f"
    got = m.union(f, RangeMap([(4, 6, "b")]))
    same((type(got), got.name, list(got)), (Named, "m", [(0, 4, "a"), (4, 6, "b")]), "the class of a union")
    got = f.union(m)
    same((type(got), got.name, got is f, list(got)), (NamedFrozen, "f", False, [(0, 5, "a")]), "the class of a frozen union")
    values = [(number,) for number in range(500)]
    m = RangeMap((key, key + 1, value) for key, value in enumerate(values))
    n = m.union(RangeMap([(2, 500, "x")]))
    same((len(n), len(m)), (3, 500), "a union that drops values")
    n[5] = "y"
    same(list(n), [(0, 1, (0,)), (1, 2, (1,)), (2, 5, "x"), (5, 6, "y"), (6, 500, "x")], "a union that changes")


def frozen_operators():
    f = NamedFrozen([(0, 6, "a"), (8, 9, 1)])
    f.name = "f"
    n = RangeMap([(4, 8, "b"), (8, 9, 1.0)])
    kept = hash(f)
    for right in (n, n.freeze()):
        made = {"|": f | right, "&": f & right, "-": f - right, "^": f ^ right}
        same({sign: list(each) for sign, each in made.items()}, {
            "|": [(0, 4, "a"), (4, 8, "b"), (8, 9, 1.0)], "&": [(4, 6, "b"), (8, 9, 1.0)], "-": [(0, 4, "a")],
            "^": [(0, 4, "a"), (6, 8, "b")]}, "operators of a frozen map")
        same({(type(each), each.name) for each in made.values()}, {(NamedFrozen, "f")}, "their class")
        same(hash(made["-"]), hash(FrozenRangeMap([(0, 4, "a")])), "their hash")
        for sign in (operator.or_, operator.and_, operator.sub, operator.xor):
            same((type(sign(n, f)), type(sign(n, right)), type(sign(n.freeze(), f))), (RangeMap, RangeMap, FrozenRangeMap), "the left map's class")
    g = f
    g |= n
    same((g == f, g == (f | n), type(g)), (False, True, NamedFrozen), "|= makes another map")
    same((list(f), hash(f), f.name), ([(0, 6, "a"), (8, 9, 1)], kept, "f"), "the frozen map")
    same(result_of(lambda: f.__init__([(0, 1, 2)]) or f.__setstate__(None), TypeError), TypeError, "it can't change")
    for other in ({}, 5, [], None, {1}, frozenset()):
        for sign in (operator.or_, operator.and_, operator.sub, operator.xor):
            same([result_of(lambda: sign(*each), TypeError) for each in ((f, other), (other, f))], 2 * [TypeError], "another operand")


def frozen_gaps():
    """find_gap of both kinds of map, for ranges and lengths of all sizes."""
    choose, passed = random.Random(3), 0
    for base in (0, LEAST, END - 60):
        for _ in range(40):
            m = RangeMap()
            for _ in range(choose.randrange(8)):
                start = base + choose.randrange(60)
                m[start : min(END, start + choose.randrange(1, 9))] = choose.choice("ab")
            f = m.freeze()
            edges = [LEAST, END, base, base + 60, None, *(base + choose.randrange(60) for _ in range(3))]
            for start, stop in itertools.product(edges, edges):
                for length in (-1, 0, 1, 2, 5, 30, 2**63 - 61, 2**63, 2**64 - 61, 2**64 - 1, 2**64, 2**64 + 1):
                    for last in (False, True):
                        got = f.find_gap(length, start, stop, last=last)
                        lo, hi = (LEAST if start is None else start), (END if stop is None else stop)
                        starts = [hi - length if last else lo] if m[lo:hi] == RangeMap() and 1 <= length <= hi - lo else [
                            gap[1] - length if last else gap[0] for gap in m.gaps(lo, hi) if 1 <= length <= gap[1] - gap[0]]
                        same(got, (max if last else min)(starts, default=None), f"find_gap of {length} keys in {start} to {stop} of {f}")
                        same(m.find_gap(length, start, stop, last=last), got, "find_gap of a RangeMap")
                        passed += 1
    return passed


def spread_hashes():
    """Values whose hashes differ in some bits alone take about as long as others."""
    count = 4096

    def least_time(values):
        times = []
        for _ in range(4):
            m = RangeMap()
            started = time.process_time()
            m.paint_many(range(count), range(1, count + 1), values)
            times.append(time.process_time() - started)
            same(len(m), count, "entries")
        return min(times)

    plain = least_time(list(range(count)))
    for values in ([key << 16 for key in range(count)], [key << 32 for key in range(count)], [key << 40 for key in range(count)],
                   [key << 48 for key in range(count)], [key / count for key in range(count)], [float(key) for key in range(count)],
                   [[] for _ in range(count)]):
        taken = least_time(values)
        same(taken < 5 * plain, True, f"{taken} s for values such as {values[5]!r}, {plain} s for small numbers")
