"""What is no part of the module's interface: its other classes, and the state of an iterator."""
import copy
import pickle

import range_map
from model import result_of, same
from range_map import FrozenRangeMap, RangeMap


def iterators():
    """Iterators of both maps, each after its first item."""
    m = RangeMap([(1, 6, "a"), (8, 10, "b"), (12, 13, "c")])
    made = [make() for each in (m, m.freeze()) for make in (
        each.__iter__, each.__reversed__, each.overlapping, each.gaps, each.ranges, lambda: each.diff(RangeMap()))]
    for each in made:
        next(each)
    return made


def iterators_are_not_copied():
    calls = [copy.copy, copy.deepcopy] + [lambda each, protocol=protocol: pickle.dumps(each, protocol) for protocol in range(6)]
    for each in iterators():
        for call in calls:
            same(result_of(lambda: call(each), TypeError), TypeError, f"a copy of {type(each).__name__}")
        same([name for name in ("__setstate__", "__setstate_cython__", "__reduce_cython__") if hasattr(each, name)], [], "a state")
        same(type(next(each)), tuple, "an iterator that was not copied")


def private_classes():
    same([name for name in vars(range_map) if not name.startswith("__") and name not in range_map.__all__], [], "names")
    kinds = {type(each) for each in iterators()} | {*RangeMap.__mro__[1:-1], *FrozenRangeMap.__mro__[1:-1]}
    waiting = [object]
    while waiting:
        kind = waiting.pop()
        waiting += type.__subclasses__(kind)
        if kind.__module__ == "range_map" and kind not in (RangeMap, FrozenRangeMap):
            kinds.add(kind)
    same(len(kinds) >= 5, True, "classes")
    for kind in kinds:
        calls = [kind, lambda: kind(()), lambda: kind.__new__(kind), lambda: kind.__new__(kind, ()), lambda: object.__new__(kind),
                 lambda: type("Made", (kind,), {})(), lambda: type("Made", (kind,), {"__new__": lambda cls: object.__new__(cls)})(),
                 lambda: type("Made", (kind,), {"__new__": lambda cls: kind.__new__(cls)})(), lambda: RangeMap.__new__(kind)]
        for number, call in enumerate(calls):
            same(result_of(call, TypeError), TypeError, f"instance {number} of {kind.__name__}")
