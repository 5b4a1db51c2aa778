"""Each allocation that Python itself makes fails in turn, in each public call: alone, and with all later ones. Each call runs in a
process of its own, so that a crash is told of that call. No reference may be lost, and none may be kept."""
import copy
import functools
import gc
import os
import sys
from array import array

from model import Equal, contents, same
from range_map import FrozenRangeMap, RangeMap

try:
    import _testcapi
except ImportError:
    _testcapi = None

SINGLES = [True, False, None, NotImplemented, "a", (), 1, 0]
KEYS = array("q", range(0, 60, 7))
COPIES_LISTS = {"list", "from_arrays", "get_many", "paint_many", "__setstate__"}  # the names of calls that copy a list
EXPECTED = (TypeError, ValueError, KeyError, OverflowError, SystemError)  # (SystemError: of Python itself, as for `[] < {}`)
RUNS = 12  # so many runs of a call lose fewer references


class Named(RangeMap):
    """A subclass with attributes."""


def ends(m, n):
    for each in (iter(m), reversed(m), m.overlapping(3, 20), m.gaps(0, 30)):
        for _ in range(6):
            next(each, None)


# By the name of the method that is called: calls of a map and another one that have no effect on either.
LOOKUPS = {
    "__getitem__": [lambda m, n: m[4], lambda m, n: m[2:90]], "__contains__": [lambda m, n: (3 in m, 2.0 in m, "a" in m, 2**70 in m)],
    "__len__": [lambda m, n: len(m)], "__iter__": [lambda m, n: list(m), ends], "__reversed__": [lambda m, n: list(reversed(m))],
    "__eq__": [lambda m, n: (m == n, m == m.copy(), m == 3)], "__ne__": [lambda m, n: m != n], "__lt__": [lambda m, n: m < n],
    "__le__": [lambda m, n: m <= n], "__gt__": [lambda m, n: m > n], "__ge__": [lambda m, n: m >= n], "__repr__": [lambda m, n: repr(m)],
    "__class_getitem__": [lambda m, n: type(m)[int]], "__copy__": [lambda m, n: copy.copy(m)], "copy": [lambda m, n: m.copy()],
    "__reduce__": [lambda m, n: m.__reduce__()],
    "__init__": [lambda m, n: type(m)(m), lambda m, n: type(m)([(1, 5, "x"), (3, 9, Equal(5))]), lambda m, n: type(m)(iter(m)),
                 lambda m, n: type(m)([(1, 5, []), (3, 9, {}), (9, 11, ({},))]),
                 lambda m, n: type(m)((key, key + 1, Equal(key)) for key in range(30))],
    "count": [lambda m, n: (m.count(), m.count(3, 50), m.count(None, 9))], "entry_at": [lambda m, n: (m.entry_at(3), m.entry_at(60000))],
    "first": [lambda m, n: m.first()], "last": [lambda m, n: m.last()], "freeze": [lambda m, n: m.freeze()],
    "from_arrays": [lambda m, n: type(m).from_arrays(*m.to_arrays())], "to_arrays": [lambda m, n: m.to_arrays()],
    "gap_at": [lambda m, n: (m.gap_at(3), m.gap_at(60000))], "gaps": [lambda m, n: list(m.gaps(0, 2**63))],
    "get": [lambda m, n: (m.get(3), m.get(60000), m.get(2**70, 5))], "get_many": [lambda m, n: m.get_many(KEYS), lambda m, n: m.get_many(KEYS.tolist())],
    "overlapping": [lambda m, n: list(m.overlapping(5, 40)), lambda m, n: list(m.overlapping(5, 40, reverse=True))],
    "entry_at_or_above": [lambda m, n: (m.entry_at_or_above(3), m.entry_at_or_above(60000))],
    "entry_at_or_below": [lambda m, n: (m.entry_at_or_below(3), m.entry_at_or_below(-60000))],
    "has_any": [lambda m, n: (m.has_any(3, 50), m.has_any(2**70))], "has_all": [lambda m, n: (m.has_all(0, 3), m.has_all(0, 2**70))],
    "find_gap": [lambda m, n: (m.find_gap(2), m.find_gap(2, 0, 90, last=True), m.find_gap(2**64), m.find_gap(0))],
    "ranges": [lambda m, n: list(m.ranges()), lambda m, n: list(m.ranges(5, 2**63))],
    "diff": [lambda m, n: list(m.diff(n)), lambda m, n: list(n.freeze().diff(m, "gap"))],
    "union": [lambda m, n: m.union(n, n.freeze(), m), lambda m, n: m.union()],
    "__or__": [lambda m, n: m | n, lambda m, n: m | n.freeze()], "__and__": [lambda m, n: m & n], "__sub__": [lambda m, n: m - n],
    "__xor__": [lambda m, n: m ^ n],
}
LOOKUPS |= {name: [lambda m, n, name=name: getattr(m, name)(n)] for name in ("__ror__", "__rand__", "__rsub__", "__rxor__")}
FROZEN_LOOKUPS = {"__hash__": [lambda m, n: hash(m), lambda m, n: hash(m[1:])],
                  "__setstate__": [lambda m, n: FrozenRangeMap.__new__(FrozenRangeMap).__setstate__(m.__reduce__()[2])]}
# Calls of a RangeMap that change it, or make another map.
CALLS = {
    "__setitem__": [lambda m, n: m.__setitem__(slice(2, 50), Equal(9)), lambda m, n: m.__setitem__(5, "x"), lambda m, n: m.__setitem__(
        slice(None, 70), 70**9), lambda m, n: m.__setitem__(5, []), lambda m, n: m.__setitem__(5, ([],)), lambda m, n: m.__setitem__(slice(None, None), Equal(9))],
    "__delitem__": [lambda m, n: m.__delitem__(slice(2, 50)), lambda m, n: m.__delitem__(4), lambda m, n: m.__delitem__(slice(None, None))],
    "setdefault": [lambda m, n: m.setdefault(0, 90, Equal(9))], "pop": [lambda m, n: (m.pop(4), m.pop(-4, 5))],
    "popitem": [lambda m, n: m.popitem(), lambda m, n: m.popitem(last=False)], "clear": [lambda m, n: m.clear()], "split": [lambda m, n: m.split(20)],
    "update": [lambda m, n: m.update(n), lambda m, n: m.update(n.freeze()), lambda m, n: m.update([(1, 5, "x"), (3, 9, Equal(5))]),
               lambda m, n: m.update([(1, 5, "x")]), lambda m, n: m.update((key, key + 1, Equal(key)) for key in range(30))],
    "paint_many": [lambda m, n: m.paint_many(KEYS, KEYS[1:] + KEYS[:1], [Equal(key) for key in KEYS])],
    "update_range": [lambda m, n: m.update_range(2, 40, lambda old: (old,)), lambda m, n: m.update_range(0, 90, lambda old: None),
                     lambda m, n: m.update_range(0, 3, lambda old: 5, "gap")],
    "complement": [lambda m, n: m.complement(Equal(9))], "__ior__": [lambda m, n: m.__ior__(n)], "__iand__": [lambda m, n: m.__iand__(n)],
    "__isub__": [lambda m, n: m.__isub__(n)], "__ixor__": [lambda m, n: m.__ixor__(n)],
    "__setstate__": [lambda m, n: m.__setstate__(n.__reduce__()[2])],
}
# Calls that raise TypeError, ValueError, KeyError or OverflowError.
ERRORS = {
    "wrong arguments": [lambda m, n: m["a"], lambda m, n: m.get(1.5), lambda m, n: m[0:4:2], lambda m, n: m.get_many(array("d", [1])),
                        lambda m, n: m.get_many("ab"), lambda m, n: m.get_many(memoryview(b"ab").cast("B", (1, 2))), lambda m, n: m.count("a"),
                        lambda m, n: m[3], lambda m, n: type(m)([(1, 2)]), lambda m, n: type(m)([(1, "a", 2)]), lambda m, n: hash(FrozenRangeMap([(1, 2, [])])),
                        lambda m, n: type(m)([(1, 2**70, 2)]), lambda m, n: type(m).from_arrays(KEYS, KEYS, "a"),
                        lambda m, n: type(m).from_arrays(KEYS[::-1], KEYS, [5] * len(KEYS)), lambda m, n: m < {}, lambda m, n: type(iter(m))(), lambda m, n: m.diff({}),
                        lambda m, n: m.union(n, 5), lambda m, n: m | 5],
}
NO_CALLS = {name for name in dir(object) if name not in LOOKUPS} | {"__doc__", "__module__", "__pyx_vtable__", "__hash__", "__weakref__"}
NO_CALLS |= {"__array__", "__array_ufunc__", "__dask_tokenize__"}  # (these are calls of NumPy and of Dask)


def maps(kind):
    """Two maps. A RangeMap has so many entries that few rows are set one by one."""
    if kind is list:
        return [object()], []  # (to learn of Python itself)
    count = 4 if kind is not RangeMap else 40
    m = RangeMap((4 * key, 4 * key + 3, Equal(key)) for key in range(count))
    m[-1000:-995], m[1000:1005] = Equal(7), Equal(7)  # (numbers that Python allocates)
    n = RangeMap([(2, 7, Equal(1)), (9, 10, "b"), (12, 14, [1]), (14, 15, [1])])
    if kind is Named:
        named = Named(m)
        named.name = "name"
        return named, n
    return (m.freeze(), n) if kind is FrozenRangeMap else (m, n)


def tried(kind, call, start, stop):
    """What a call did whose allocations after the first `start` ones failed, up to `stop` ones if that is not 0: 'done', 'failed', or what
    was wrong."""
    m, n = maps(kind)
    before = (contents(m), contents(n)) if kind is not list else ([], [])
    outcome, result = "done", None
    _testcapi.set_nomemory(start, stop)
    try:
        result = call(m, n)
    except MemoryError:
        outcome = "failed"
    except BaseException as raised:
        outcome = "done" if call in ERRORS["wrong arguments"] and isinstance(raised, EXPECTED) else raised
    finally:
        _testcapi.remove_mem_hooks()
    if outcome == "failed" and kind is not list and (contents(m), contents(n)) != before:
        return "a map is changed"
    list(m), list(n)
    return outcome if type(outcome) is str else f"{type(outcome).__name__}: {outcome}"


def references(is_collected):
    if is_collected:
        gc.collect()
    return array("q", [sys.getrefcount(each) for each in SINGLES] + [sys.getallocatedblocks()])


def lost_references(call):
    """How many references to single objects more there are after some calls, and how many blocks; or None if it is less than one for each
    call."""
    for run in range(6):  # (a first run may fill tables of Python, such as that of the lines of tracebacks)
        before = references(run)
        for _ in range(RUNS):
            call()
        lost = [each - other for each, other in zip(references(run), before)]
        if max(map(abs, lost)) < RUNS:
            return None
    return lost


@functools.cache
def list_loses_references():
    """Whether Python itself keeps a reference to a list that it can't copy."""
    return any(lost_references(lambda: tried(list, lambda m, n: list(m), start, start + 1)) for start in (0, 1, 2))


def search(kind, call, tell):
    """Lets each allocation of a call fail. Tells of the first that is wrong."""
    for lasting in (False, True):
        start = 0
        while True:
            tell(f"after {start} allocations, lasting {lasting}")
            outcome = tried(kind, call, start, 0 if lasting else start + 1)
            if outcome not in ("done", "failed"):
                return outcome
            lost = lost_references(lambda: tried(kind, call, start, 0 if lasting else start + 1))
            if lost and not (list_loses_references() and COPIES_LISTS & set(call.__code__.co_names)):
                return f"references of {SINGLES} and blocks: {lost}"
            if outcome == "done":
                # (a call may do without memory that it could not get)
                if all(tried(kind, call, start + more, 0 if lasting else start + more + 1) == "done" for more in range(1, 4)):
                    break
            start += 1 + start // 16
    return None


def in_a_process(kind, call):
    """What is wrong with a call whose allocations fail, or None."""
    reader, writer = os.pipe()
    child = os.fork()
    if not child:
        os.dup2(os.open(os.devnull, os.O_WRONLY), 2)
        wrong = search(kind, call, lambda text: os.write(writer, f"\n{text}".encode()))
        os.write(writer, f"\n{wrong}".encode())
        os._exit(wrong is not None)
    os.close(writer)
    with open(reader) as told:
        lines = told.read().splitlines()
    status = os.waitpid(child, 0)[1]
    return None if status == 0 else f"{lines[-2:]}, status {status}"


def python_allocations_fail():
    if _testcapi is None:
        print("bindings: there is no _testcapi here: failing allocations of Python are left out")
        return 0
    wrong, count = [], 0
    for kind, calls in ((RangeMap, LOOKUPS | CALLS | ERRORS), (FrozenRangeMap, LOOKUPS | FROZEN_LOOKUPS | ERRORS), (Named, LOOKUPS | CALLS)):
        same(set(dir(kind)) - set(calls) - NO_CALLS - {"__dict__"}, set(), f"calls of {kind.__name__} that are not tried")
        for name, each in calls.items():
            for number, call in enumerate(each):
                problem = in_a_process(kind, call)
                count += 1
                if problem:
                    wrong.append(f"{kind.__name__}.{name}, call {number}: {problem}")
    same("\n".join(wrong), "", "calls without memory")
    return count
