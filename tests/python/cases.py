"""Single cases: values of all kinds, iterators after changes, functions of values, subclasses, arrays, threads."""
import copy
import pickle
import sys
import threading
from array import array

from model import END, Equal, LEAST, NAN, OTHER_NAN, result_of, same
from range_map import FrozenRangeMap, RangeMap


def values_of_all_kinds():
    m = RangeMap([(0, 1, 1), (1, 2, True), (2, 3, 1.0), (3, 4, "1"), (4, 5, frozenset({1})), (5, 6, None)])
    same([type(value) for _, _, value in m], [int, bool, float, str, frozenset, type(None)], "values")
    m = RangeMap([(0, 1, NAN), (1, 2, OTHER_NAN), (2, 3, NAN), (3, 4, NAN)])
    same([(start, stop, id(value)) for start, stop, value in m], [(0, 1, id(NAN)), (1, 2, id(OTHER_NAN)), (2, 4, id(NAN))], "NaN")
    same(result_of(lambda: hash(m), TypeError), TypeError, "hash")
    same(result_of(lambda: m | {}, TypeError), TypeError, "| of another type")
    same(result_of(lambda: m < {}, TypeError), TypeError, "< of another type")
    same((m == {}, m != {}), (False, True), "== of another type")
    same(result_of(lambda: m[0:4:2], ValueError), ValueError, "a step")
    for call in (lambda: m["a"], lambda: m.get("a"), lambda: m.get(1.0), lambda: m["a":], lambda: m.find_gap("a")):
        same(result_of(call, TypeError), TypeError, "what is no number")
    same(["a" in m, 1.5 in m, NAN in m, 2**70 in m, None in m, True in m, 1.0 in m], 5 * [False] + [True, True], "in")
    same(RangeMap([(0, 6, 1)]) == RangeMap([(0, 3, True), (3, 6, 1.0)]), True, "== of equal values of other types")
    same(RangeMap().find_gap(2**64), LEAST, "the gap of all keys")
    same((RangeMap([(0, 1, 1)]).find_gap(2**64), RangeMap().find_gap(2**65)), (None, None), "gaps that are too long")
    same(RangeMap([(None, None, 1)]).count(), 2**64, "all keys")


def changed_while_iterated():
    m = RangeMap([(2 * key, 2 * key + 1, key) for key in range(100)])
    no_changes = [
        lambda: m.__setitem__(slice(2, 3), 1), lambda: m.__delitem__(slice(1, 2)), lambda: m.setdefault(2, 3, "x"),
        lambda: m.pop(1, None), lambda: m.update([(2, 3, 1), (4, 5, 2)]), lambda: m.update(RangeMap()), lambda: m.update_range(
            0, 50, lambda old: old), lambda: m.__ior__(m), lambda: m.__isub__(RangeMap()), lambda: m.__iand__(m.copy()),
        lambda: m.split(1000), lambda: m.copy(), lambda: m[3:9], lambda: m.__setitem__(slice(3, 1), 1), lambda: m.find_gap(1),
    ]
    changes = [
        lambda: m.__setitem__(2, "new"), lambda: m.__delitem__(2), lambda: m.setdefault(2, 3, "x"), lambda: m.pop(4), m.popitem,
        lambda: m.update([(6, 7, "y"), (8, 9, "z")]), lambda: m.update(RangeMap([(6, 7, "z")])), lambda: m.update_range(
            10, 14, lambda old: None), lambda: m.__isub__(RangeMap([(16, 17, 0)])), lambda: m.__ixor__(RangeMap([(16, 17, 0)])),
        lambda: m.__iand__(m[18:]), lambda: m.split(100), m.clear,
    ]
    other = RangeMap([(-1, 300, "other")])
    makers = [iter, reversed, lambda m: m.overlapping(0, 200), lambda m: m.gaps(0, 200), lambda m: m.ranges(0, 200),
              lambda m: m.diff(other), lambda m: other.diff(m)]
    for call in no_changes:
        iterators = [make(m) for make in makers]
        call()
        same([type(next(each)) for each in iterators], len(makers) * [tuple], "an iterator after a call that changed nothing")
    for number, call in enumerate(changes):
        iterators = [make(m) for make in makers]
        for each in iterators:
            next(each)
        call()
        same([result_of(lambda: next(each), RuntimeError) for each in iterators], len(makers) * [RuntimeError], f"an iterator after change {number}")
    done = iter(m)
    same(list(done), [], "an empty iterator")
    m[1] = 1
    same(list(done), [], "an iterator that has ended")


def updated_ranges():
    class Stop(Exception):
        pass

    class NoHash:
        def __hash__(self):
            raise ArithmeticError

    entries = [(1, 4, "a"), (6, 8, None), (8, 9, "b"), (12, 20, "c")]
    pieces = ["gap", "a", "gap", None, "b", "gap", "c"]

    def called(act, *more):
        """A map, and what its function was given, where each call of the function acts."""
        m, given = RangeMap(entries), []

        def function(old):
            given.append(old)
            return act(m, old, len(given))

        result = result_of(lambda: m.update_range(0, 15, function, *more), Stop, RuntimeError, ArithmeticError)
        return result, list(m), given

    def raising(at):
        def act(m, old, number):
            if number == at:
                raise Stop
            return number
        return act

    for at in range(1, len(pieces) + 1):
        same(called(raising(at), "gap"), (Stop, entries, pieces[:at]), f"a function that raises at call {at}")
    same(called(raising(0), "gap"), (None, [(0, 1, 1), (1, 4, 2), (4, 6, 3), (6, 8, 4), (8, 9, 5), (9, 12, 6), (12, 15, 7), (15, 20, "c")],
                                     pieces), "a function that does not raise")

    def changing(at, change):
        def act(m, old, number):
            if number == at:
                change(m)
            return "new"
        return act

    for change in (lambda m: m.__setitem__(30, "x"), lambda m: m.clear(), lambda m: m.__delitem__(slice(2, 3)), lambda m: m.pop(13),
                   lambda m: m.update_range(0, 15, lambda old: "y"), lambda m: (m.__setitem__(30, "x"), m.pop(30))):
        wanted = RangeMap(entries)
        change(wanted)
        for at in range(1, len(pieces) + 1):
            same(called(changing(at, change), "gap"), (RuntimeError, list(wanted), pieces[:at]), f"a function that changes the map at call {at}")
    for change in (list, len, lambda m: m.update_range(0, 15, lambda old: old, "gap"), lambda m: m.__setitem__(2, "a"), lambda m: m.copy()):
        same(called(changing(3, change), "gap"), (None, [(0, 15, "new"), (15, 20, "c")], pieces), "a function that changes nothing")
    for at in range(1, len(pieces) + 1):
        same(called(lambda m, old, number: NoHash() if number == at else 1), (ArithmeticError, entries, [None if old == "gap" else old
             for old in pieces]), f"a result whose hash raises at call {at}")
    same(called(lambda m, old, number: old, "gap"), (None, entries, pieces), "what is there")
    same(called(lambda m, old, number: old), (None, [row for row in entries if row[2] is not None], [None if old == "gap" else old
         for old in pieces]), "None in place of no value")
    same(called(lambda m, old, number: "gap", "gap"), (None, [(15, 20, "c")], pieces), "no value")
    m = RangeMap(entries)
    for ends in ((5, 5), (7, 2), (2**70, 2**69), (None, LEAST), (END, None)):
        same(result_of(lambda: m.update_range(*ends, raising(1)), Stop), None, "no keys")
    for ends in ((LEAST - 1, 3), (3, END + 1), (2**70, 2**71)):
        same(result_of(lambda: m.update_range(*ends, raising(1)), OverflowError), OverflowError, "a range with other keys")
    same(result_of(lambda: m.update_range("a", 3, raising(1)), TypeError), TypeError, "an end that is no number")
    all_keys = []
    m.update_range(None, None, lambda old: all_keys.append(old) or "all")
    same((all_keys, list(m)), ([None, "a", None, None, "b", None, "c", None], [(LEAST, END, "all")]), "all keys")


class Named(RangeMap):
    """A subclass with attributes."""

    __slots__ = ("__dict__", "slot")

    def __init__(self, name, entries=()):
        super().__init__(entries)
        self.name, self.slot = name, [name]


class NamedFrozen(FrozenRangeMap):
    pass


def subclasses():
    m = Named("n", [(1, 6, "a")])
    m.itself = m
    made = [m.copy(), copy.copy(m), copy.deepcopy(m), m[:], m | m, m & m, m.complement("b").complement("a"), m.copy().split(-5)]
    made += [pickle.loads(pickle.dumps(m, protocol)) for protocol in range(6)]
    for each in made:
        same((type(each), each.name, each.slot, list(each)), (Named, "n", ["n"], list(m)), "a map of a subclass")
    same((made[2].itself is made[2], made[2].slot is m.slot), (True, False), "a deep copy")
    f = NamedFrozen(m)
    f.name = "f"
    made = [f.copy(), copy.copy(f), copy.deepcopy(f), f[:], *(pickle.loads(pickle.dumps(f, protocol)) for protocol in range(6))]
    for each in made:
        same((type(each), each.name, each, hash(each) == hash(f)), (NamedFrozen, "f", f, True), "a frozen map of a subclass")
    same(result_of(lambda: f.__setstate__(f.__reduce__()[2]), TypeError), TypeError, "the state of a frozen map")
    f.__init__([(7, 9, "c")])
    same(list(f), [(1, 6, "a")], "a frozen map that is made twice")

    class Holder:
        pass

    holder = Holder()
    holder.map = RangeMap([(1, 2, holder)])
    again = copy.deepcopy(holder)
    same(again.map[1] is again and again is not holder, True, "a deep copy of a cycle")
    same(RangeMap[str].__origin__, RangeMap, "RangeMap[str]")


def arrays():
    m = RangeMap([(1, 6, "a"), (8, END, "b")])
    for starts, stops, values in (([1, 3], [4, 5], "ab"), ([3], [3], "a"), ([3], [4, 5], "a"), ([3], [5], "ab"), ([5, 1], [7, 3], "ab")):
        for kind in (RangeMap, FrozenRangeMap):
            same(result_of(lambda: kind.from_arrays(array("q", starts), array("q", stops), values), ValueError), ValueError, "rows")
    same(list(FrozenRangeMap.from_arrays(array("q", [1, 3]), array("q", [3, 5]), "aa")), [(1, 5, "a")], "rows that touch")
    same(m.get_many(memoryview(array("q", range(10)))[::3]), [None, "a", None, "b"], "every third key")
    try:
        import numpy
    except ImportError:
        print("bindings: there is no numpy here: left out")
        return
    keys = numpy.arange(0, 12, dtype="int64")
    for each in (m, m.freeze()):
        same(each.get_many(keys), [each.get(int(key)) for key in keys], "keys of NumPy")
        same(each.get_many(keys[::-3]), [each.get(int(key)) for key in keys[::-3]], "some keys of NumPy")
        same((each[numpy.int64(3)], numpy.int64(3) in each), ("a", True), "a key of NumPy")
        same(result_of(lambda: each.get_many(keys.reshape(3, 4)), TypeError), TypeError, "two dimensions")
    m.paint_many(keys[:3], keys[3:6], ["x", "y", "z"])
    same(list(m), [(0, 1, "x"), (1, 2, "y"), (2, 5, "z"), (5, 6, "a"), (8, END, "b")], "arrays of NumPy")


def many_entries():
    count = 20_000
    entries = [(2 * key, 2 * key + 1, key) for key in range(count)]
    m = RangeMap(reversed(entries))
    same((list(m), list(reversed(m))), (entries, entries[::-1]), "many entries")
    same((len(m), m.count(), sum(1 for _ in m.gaps(0, 2 * count - 1))), (count, count, count - 1), "their counts")
    same(m.freeze().get_many(array("q", range(2 * count)))[::2], list(range(count)), "their values")
    same(list(m.overlapping(777, 9999)), entries[389:5000], "a part of them")
    same(list(m.ranges()), [entry[:2] for entry in entries], "their ranges")
    touching = RangeMap((key, key + 1, key) for key in range(count))
    del touching[777], touching[12_345]
    changed = m.copy()
    changed[1000], changed[1001] = "x", "y"
    del changed[20_000]
    wanted = [(1000, 1001, 500, "x"), (1001, 1002, None, "y"), (20_000, 20_001, 10_000, None)]
    for each in (touching, touching.freeze()):
        same(list(each.ranges()), [(0, 777), (778, 12_345), (12_346, count)], "ranges of entries that touch")
        same(list(each.ranges(600, 13_000)), [(600, 777), (778, 12_345), (12_346, 13_000)], "a part of these")
        same((each.has_all(778, 12_345), each.has_all(778, 12_346), each.find_gap(1), each.find_gap(1, 0, count, last=True)), (
            True, False, LEAST, 12_345), "full parts of them")
    for one, other in ((m, changed), (m.freeze(), changed), (m, changed.freeze())):
        same(list(one.diff(other)), wanted, "what changed in them")
        same((one == other, one == m, other == changed[:]), (False, True, True), "== of them")
    same(m.union(changed, touching)[1001:12_345] == touching[1001:12_345], True, "their union")


def threads():
    wrong, m = [], RangeMap()
    frozen = FrozenRangeMap((key, key + 1, key % 7) for key in range(0, 20_000, 2))

    def work(number):
        try:
            for at in range(1500):
                m[1000 * number + at % 50] = (number, at)
                same(m.pop(1000 * number + at % 50), (number, at), "a value in a thread")
                m[1000 * number : 1000 * number + 9] = Equal(at)
                if at % 100 == 0:
                    same(frozen.get_many(array("q", range(20_000)))[:3], [0, None, 2], "a frozen map in a thread")
        except Exception as failure:
            wrong.append(failure)

    interval = sys.getswitchinterval()
    sys.setswitchinterval(1e-6)
    workers = [threading.Thread(target=work, args=(number,)) for number in range(4)]
    for worker in workers:
        worker.start()
    for worker in workers:
        worker.join()
    sys.setswitchinterval(interval)
    same((wrong, m.count()), ([], 36), "threads")


def printed():
    m = Named("n", [(1, 6, "a")])
    same((repr(m), repr(m.freeze()), repr(RangeMap())), ("Named([(1, 6, 'a')])", "FrozenRangeMap([(1, 6, 'a')])", "RangeMap()"), "repr")

    class Holder:
        def __repr__(self):
            return repr(self.map)

    holder = Holder()
    holder.map = RangeMap([(1, 2, holder)])
    same(repr(holder), "RangeMap([(1, 2, RangeMap(...))])", "repr of a map in itself")
