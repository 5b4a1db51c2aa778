#!/usr/bin/env python3
"""Compares the times of the Python module with those of two lists with `bisect`, of a map over `sortedcontainers`, and of `intervaltree`.
It prints tables in Markdown: microseconds of processor time, the least of five rounds. All sides must have the same results. A side that
is not installed is left out (Debian: python3-sortedcontainers, python3-intervaltree). Run `make -C bindings python` first.

    bench/beside.py [ENTRIES ..]        without numbers: 1000, 10000 and 100000 entries
"""
import os
import random
import sys
import time
from array import array
from bisect import bisect_left, bisect_right
from pathlib import Path

sys.path.insert(0, os.environ.get("RANGE_MAP_PYTHON") or str(Path(__file__).parent.parent / "bindings" / "python"))
from range_map import RangeMap

try:
    from intervaltree import Interval, IntervalTree
except ImportError:
    IntervalTree = None
try:
    from sortedcontainers import SortedDict
except ImportError:
    SortedDict = None


class Ours:
    def __init__(self, entries):
        self.map = RangeMap(entries)
        self.get, self.get_many = self.map.get, self.map.get_many
        self.paint, self.remove = self.map.__setitem__, self.map.__delitem__

    def paint_all(self, paints):
        m = self.map
        for start, stop, value in paints:
            m[start:stop] = value

    def remove_all(self, ranges):
        m = self.map
        for start, stop in ranges:
            del m[start:stop]

    def entries(self):
        return list(self.map)

    def union(self, other):
        return self.map | other.map


class Lists:
    """A list of bounds and a list of values: the keys from bounds[i] to below bounds[i + 1] have values[i]. A gap has the value None."""

    def __init__(self, entries):
        self.bounds, self.values = [], []
        self.paint_all(entries)

    def paint(self, start, stop, value):
        bounds, values = self.bounds, self.values
        lo, hi = bisect_left(bounds, start), bisect_right(bounds, stop)
        before = values[lo - 1] if lo else None
        after = values[hi - 1] if hi else None
        new = [(bound, now) for bound, old, now in ((start, before, value), (stop, value, after)) if old != now]
        bounds[lo:hi] = [bound for bound, _ in new]
        values[lo:hi] = [now for _, now in new]

    def get(self, key):
        at = bisect_right(self.bounds, key)
        return self.values[at - 1] if at else None

    def get_many(self, keys):
        bounds, values = self.bounds, self.values
        return [values[at - 1] if (at := bisect_right(bounds, key)) else None for key in keys]

    def paint_all(self, paints):
        for start, stop, value in paints:
            self.paint(start, stop, value)

    def remove_all(self, ranges):
        for start, stop in ranges:
            self.paint(start, stop, None)

    def entries(self):
        bounds, values = self.bounds, self.values
        return [row for row in zip(bounds, bounds[1:], values) if row[2] is not None]

    def union(self, other):
        new = Lists(())
        new.bounds, new.values = self.bounds[:], self.values[:]
        new.paint_all(other.entries())
        return new


class Sorted:
    """Disjoint entries by their starts. Touching entries are not joined."""

    def __init__(self, entries):
        self.ends = SortedDict((start, (stop, value)) for start, stop, value in entries)

    def paint(self, start, stop, value):
        self.cut(start, stop)
        self.ends[start] = (stop, value)

    def cut(self, lo, hi):
        ends = self.ends
        at = ends.bisect_right(lo) - 1
        if at >= 0:
            start, (stop, old) = ends.peekitem(at)
            if lo < stop:
                ends[start] = (lo, old)
                if hi < stop:
                    ends[hi] = (stop, old)
                if start == lo:
                    del ends[start]
        for start in list(ends.irange(lo, hi, inclusive=(True, False))):
            stop, old = ends.pop(start)
            if hi < stop:
                ends[hi] = (stop, old)

    def get(self, key):
        at = self.ends.bisect_right(key) - 1
        if at >= 0:
            stop, value = self.ends.peekitem(at)[1]
            if key < stop:
                return value
        return None

    def get_many(self, keys):
        return [self.get(key) for key in keys]

    def paint_all(self, paints):
        for start, stop, value in paints:
            self.paint(start, stop, value)

    def remove_all(self, ranges):
        for start, stop in ranges:
            self.cut(start, stop)

    def entries(self):
        return [(start, stop, value) for start, (stop, value) in self.ends.items()]

    def union(self, other):
        new = Sorted(self.entries())
        new.paint_all(other.entries())
        return new


class Tree:
    def __init__(self, entries):
        self.tree = IntervalTree(Interval(*entry) for entry in entries)

    def get(self, key):
        for interval in self.tree.at(key):
            return interval.data
        return None

    def get_many(self, keys):
        return [self.get(key) for key in keys]

    def paint_all(self, paints):
        for start, stop, value in paints:
            self.tree.chop(start, stop)
            self.tree.addi(start, stop, value)

    def remove_all(self, ranges):
        for start, stop in ranges:
            self.tree.chop(start, stop)

    def entries(self):
        return [(each.begin, each.end, each.data) for each in sorted(self.tree)]

    def union(self, other):
        new = Tree(())
        new.tree = self.tree.copy()
        new.paint_all(other.entries())
        return new


def joined(entries):
    """Returns the entries, with those that touch and have equal values as one."""
    out = []
    for start, stop, value in entries:
        if out and out[-1][1] == start and out[-1][2] == value:
            out[-1] = (out[-1][0], stop, value)
        else:
            out.append((start, stop, value))
    return out


def measure(side, prepared, few, paints, ranges, keys, is_slow):
    """Returns the least time of each work, and the results."""
    least = {}

    def timed(what, count, work):
        start = time.process_time()
        result = work()
        took = (time.process_time() - start) * 1e6 / count
        least[what] = min(least.get(what, took), took)
        return result

    for _ in range(1 if is_slow else 5):
        one = timed("make, an entry", len(prepared), lambda: side(prepared))
        other = side(few)
        get = one.get
        found = timed("a lookup", len(keys), lambda: [get(key) for key in keys])
        many = timed("many lookups, a key", len(keys), lambda: one.get_many(keys))
        united = timed("union with a tenth, an entry", len(prepared), lambda: one.union(other))
        timed("a paint", len(paints), lambda: one.paint_all(paints))
        timed("a removal", len(ranges), lambda: one.remove_all(ranges))
        entries = timed("all entries, an entry", len(prepared), one.entries)
    united = list(united) if isinstance(united, RangeMap) else united.entries()
    return least, (list(found), list(many), joined(united), joined(entries))


def compare(count):
    choose = random.Random(1)
    prepared, end = [], 0
    for _ in range(count):
        start = end + choose.randint(2, 16)
        end = start + choose.randint(1, 16)
        prepared.append((start, end, choose.choice("abcd")))
    works = min(count, 10_000)
    starts = [choose.randrange(end) for _ in range(works)]
    paints = [(start, start + choose.randint(1, 16), choose.choice("abcd")) for start in starts]
    ranges = [(start, start + choose.randint(1, 16)) for start in (choose.randrange(end) for _ in range(works))]
    keys = array("q", (choose.randrange(end) for _ in range(works)))
    few = prepared[::10]
    sides = {"range_map": Ours, "two lists, bisect": Lists, "sortedcontainers": SortedDict and Sorted, "intervaltree": IntervalTree and Tree}
    times, wanted = {}, None
    for name, side in sides.items():
        if side is None:
            print(f"bench: {name} is not installed: left out", file=sys.stderr)
            continue
        times[name], left = measure(side, prepared, few, paints, ranges, keys, is_slow=side is Tree)
        wanted = wanted or left
        for what, got, expected in zip(("lookups", "many lookups", "union", "entries"), left, wanted):
            if got != expected:
                sys.exit(f"bench: {name} leaves something else: {what}")
    print(f"| {count} entries, microseconds | " + " | ".join(times) + " |")
    print("|---" * (len(times) + 1) + "|")
    for work in times["range_map"]:
        print(f"| {work} | " + " | ".join(f"{each[work]:.3f}" for each in times.values()) + " |")
    print(flush=True)


for count in [int(word) for word in sys.argv[1:]] or [1_000, 10_000, 100_000]:
    compare(count)
