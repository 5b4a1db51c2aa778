"""Rounds of 100 random calls on small keys, also at both ends of the keys, each compared with a dictionary."""
import copy
import pickle
import random
from array import array

from model import END, Equal, KEYS, LEAST, NAN, OTHER_NAN, VALUES, differences_of, gaps_of, has_hash, mark, marked, ranges_of, result_of, runs_of, same
from range_map import FrozenRangeMap, RangeMap


def hash_or_none(frozen):
    return result_of(lambda: hash(frozen), TypeError)


class Side:
    """A map beside its dictionary, and the objects that were put into it."""

    def __init__(self, map=None, plain=(), put=()):
        self.map, self.plain, self.put = RangeMap() if map is None else map, dict(plain), dict(put)

    def give(self, value):
        """An object that is put into the map."""
        kind = random.random()
        if kind < 0.5:
            value = Equal(random.randrange(3))
        elif kind < 0.55:
            value = []
        self.put[id(value)] = value
        return value

    def check(self):
        rows = list(self.map)
        same(marked(rows), marked(runs_of(self.plain)), "the entries")
        same([value for _, _, value in rows if id(value) not in self.put], [], "values that were not put into the map")


class Round:
    """Two maps, each beside its dictionary, and a source of choices."""

    def __init__(self, choose):
        self.choose = choose
        self.base = choose.choice([0, -12, LEAST, END - KEYS])
        self.one, self.other = Side(), Side()

    def key(self):
        return self.base + self.choose.randrange(KEYS)

    def ends(self):
        """A range, sometimes empty, reversed, or with an end left out; and its keys among those in use."""
        start, stop = self.key(), self.key() + 1
        if self.choose.random() < 0.7 and start > stop:
            start, stop = stop - 1, start + 1
        return start, stop

    def value(self):
        return self.one.give(self.choose.choice(VALUES))

    def within(self, start, stop):
        return {key: value for key, value in self.one.plain.items() if start <= key < stop}

    def outside(self, start, stop):
        return {key: value for key, value in self.one.plain.items() if not start <= key < stop}

    # ---- Calls

    def set_slice(self):
        start, stop = self.ends()
        value = self.value()
        self.one.map[start:stop] = value
        self.one.plain.update(dict.fromkeys(range(start, stop), value))

    def set_key(self):
        key, value = self.key(), self.value()
        self.one.map[key] = self.one.plain[key] = value

    def setdefault(self):
        start, stop = self.ends()
        value = self.value()
        had = len(self.one.plain)
        self.one.plain = dict.fromkeys(range(start, stop), value) | self.one.plain
        same(self.one.map.setdefault(start, stop, value), len(self.one.plain) > had, "setdefault")

    def delete_slice(self):
        start, stop = self.ends()
        if self.choose.random() < 0.2:
            start, stop = self.choose.choice([(None, stop), (start, None), (LEAST - 5, stop), (start, END + 5)])
        del self.one.map[start:stop]
        self.one.plain = self.outside(LEAST if start is None else start, END if stop is None else stop)

    def pop(self):
        key = self.key()
        same(mark(self.one.map.pop(key, "none")), mark(self.one.plain.pop(key, "none")), "pop")

    def delete_key(self):
        key = self.key()
        same(result_of(lambda: self.one.map.__delitem__(key), KeyError), None if key in self.one.plain else KeyError, "del")
        self.one.plain.pop(key, None)

    def popitem(self):
        is_last = self.choose.random() < 0.5
        got = result_of(lambda: self.one.map.popitem(last=is_last), KeyError)
        if self.one.plain:
            key = (max if is_last else min)(self.one.plain)
            same((got[0], mark(got[1])), (key, mark(self.one.plain.pop(key))), "popitem")
        else:
            same(got, KeyError, "popitem")

    def ends_of_map(self):
        for call, end in ((self.one.map.first, min), (self.one.map.last, max)):
            got = result_of(call, KeyError)
            if self.one.plain:
                key = end(self.one.plain)
                same((got[0], mark(got[1])), (key, mark(self.one.plain[key])), "the ends")
            else:
                same(got, KeyError, "the ends")

    def look_up(self, map=None):
        map = self.one.map if map is None else map
        key, plain = self.key(), self.one.plain
        same(mark(map.get(key, "none")), mark(plain.get(key, "none")), "get")
        same((key in map, float(key) in map), (key in plain, int(float(key)) in plain), "in")
        got = result_of(lambda: map[key], KeyError)
        same(mark(got), mark(plain.get(key, KeyError)), "[]")
        around = [run for run in runs_of(plain) if run[0] <= key < run[1]]
        same(marked([map.entry_at(key)] if key in plain else []), marked(around), "entry_at")
        gap = [gap for gap in gaps_of(plain, LEAST, END) if gap[0] <= key < gap[1]]
        same([map.gap_at(key)] if gap else [], gap, "gap_at")
        above = [run for run in runs_of(plain) if key < run[1]][:1]
        below = [run for run in runs_of(plain) if run[0] <= key][-1:]
        same(marked(filter(None, [map.entry_at_or_above(key)])), marked(above), "entry_at_or_above")
        same(marked(filter(None, [map.entry_at_or_below(key)])), marked(below), "entry_at_or_below")
        keys = array("q", [self.key() for _ in range(5)])
        same([mark(value) for value in map.get_many(keys)], [mark(plain.get(key)) for key in keys], "get_many")

    def on_range(self, map=None):
        map = self.one.map if map is None else map
        start, stop = self.ends()
        runs = runs_of(self.one.plain)
        shared = [run for run in runs if start < stop and run[0] < stop and start < run[1]]
        same(marked(map.overlapping(start, stop)), marked(shared), "overlapping")
        same(marked(map.overlapping(start, stop, reverse=True)), marked(shared[::-1]), "overlapping, descending")
        same(list(map.gaps(start, stop)), gaps_of(self.one.plain, start, stop), "gaps")
        within = self.within(start, stop)
        same(list(map.ranges(start, stop)), ranges_of(within), "ranges")
        same(list(map.ranges()), ranges_of(self.one.plain), "all ranges")
        same((map.has_any(start, stop), map.has_any()), (len(within) > 0, len(self.one.plain) > 0), "has_any")
        same((map.has_all(start, stop), map.has_all()), (len(within) == max(0, stop - start), False), "has_all")
        same(marked(map[start:stop]), marked(runs_of(self.within(start, stop))), "a slice")
        same((map.count(start, stop), map.count(), len(map)), (len(self.within(start, stop)), len(self.one.plain), len(runs)), "count")
        same(marked(map), marked(runs), "ascending")
        same(marked(reversed(map)), marked(runs[::-1]), "descending")
        same(list(map.gaps()), gaps_of(self.one.plain, LEAST, END), "all gaps")

    def frozen(self):
        frozen = self.one.map.freeze()
        self.look_up(frozen)
        self.on_range(frozen)
        same(frozen == self.one.map, True, "a frozen map")
        if not all(map(has_hash, self.one.plain.values())):
            same(result_of(lambda: hash(frozen), TypeError), TypeError, "the hash of a map with a value that has none")
            return
        same(hash(frozen), hash(RangeMap(frozen).freeze()), "the hash of an equal map")
        if not any(value is NAN or value is OTHER_NAN for value in self.one.plain.values()):
            same(hash(frozen), hash(pickle.loads(pickle.dumps(frozen))), "the hash of a pickle")

    def find_gap(self):
        start, stop = self.ends()
        length = self.choose.randrange(1, 8)
        free = [key for key in range(start, stop - length + 1) if not any(at in self.one.plain for at in range(key, key + length))]
        gaps = [gap for gap in gaps_of(self.one.plain, LEAST, END) if gap[1] - gap[0] >= length]
        for map in (self.one.map, self.one.map.freeze()):
            same(map.find_gap(length, start, stop), free[0] if free else None, "find_gap")
            same(map.find_gap(length, start, stop, last=True), free[-1] if free else None, "find_gap, last")
            same((map.find_gap(length), map.find_gap(length, last=True)), (gaps[0][0], gaps[-1][1] - length), "find_gap of all keys")

    def update_range(self):
        start, stop = self.ends()
        if self.choose.random() < 0.2:
            start, stop = self.choose.choice([(None, stop), (start, None), (None, None)])
        missing = self.choose.choice([None, object()])
        seen, new = [], [self.choose.choice([missing, "keep", self.value()]) for _ in range(2 * KEYS)]
        if self.choose.random() < 0.2:
            new = [self.choose.choice([missing, "keep", self.value()])] * len(new)
        from_key, to_key = LEAST if start is None else start, END if stop is None else stop
        gaps = [(*gap, missing) for gap in gaps_of(self.one.plain, from_key, to_key)]
        rows = sorted(runs_of(self.within(from_key, to_key)) + gaps, key=lambda row: row[0])
        # (a piece that is long beside the dictionary keeps what it has)
        new = [old if result == "keep" or hi - lo > KEYS else result for (lo, hi, old), result in zip(rows, new)]

        def change(old):
            seen.append(old)
            return new[len(seen) - 1]

        if missing is None and self.choose.random() < 0.5:
            self.one.map.update_range(start, stop, change)
        else:
            self.one.map.update_range(start, stop, change, missing)
        same([mark(value) for value in seen], [mark(row[2]) for row in rows], "the pieces of update_range")
        for (lo, hi, old), value in zip(rows, new):
            if hi - lo > KEYS:
                continue
            for key in range(lo, hi):
                self.one.plain.pop(key, None)
                if value is not missing:
                    self.one.plain[key] = value

    def update(self):
        entries = [(*self.ends(), self.value()) for _ in range(self.choose.randrange(6))]
        if self.choose.random() < 0.5:
            self.one.map.update(entries)
        else:
            starts, stops, values = zip(*entries) if entries else ((), (), ())
            stops = [LEAST if stop == END else stop for stop in stops]
            self.one.map.paint_many(array("q", starts), array("q", stops), values)
        for start, stop, value in entries:
            self.one.plain.update(dict.fromkeys(range(start, stop), value))

    def operators(self):
        a, b = self.one.plain, self.other.plain
        both, left = {key: b[key] for key in b if key in a}, {key: a[key] for key in a if key not in b}
        wanted = {"|": a | b, "&": both, "-": left, "^": left | {key: b[key] for key in b if key not in a}}
        other = self.choose.choice([self.other.map, self.other.map.freeze()])
        for sign, plain in wanted.items():
            frozen = self.one.map.freeze()
            kept = hash_or_none(frozen)
            got = eval(f"f {sign} n", {"f": frozen, "n": other})
            same((marked(got), type(got)), (marked(runs_of(plain)), FrozenRangeMap), f"{sign} of a frozen map")
            same((marked(frozen), hash_or_none(frozen)), (marked(runs_of(a)), kept), "the frozen map")
            got = eval(f"m {sign} n", {"m": self.one.map, "n": other})
            same((marked(got), type(got)), (marked(runs_of(plain)), RangeMap), sign)
            changed = kept = self.one.map.copy()
            changed = eval(f"m.__i{ {'|': 'or', '&': 'and', '-': 'sub', '^': 'xor'}[sign] }__(n)", {"m": changed, "n": other})
            same((changed is kept, changed == got), (True, True), f"{sign}=")
        same(marked(self.other.map), marked(runs_of(b)), "the other map")
        sign = self.choose.choice("|&-^")
        self.one.map = eval(f"m {sign} n", {"m": self.one.map, "n": other})
        self.one.plain = wanted[sign]
        self.one.put.update(self.other.put)

    def union(self):
        sides = [self.choose.choice([self.one, self.other]) for _ in range(self.choose.randrange(5))]
        extra = Side()
        for _ in range(self.choose.randrange(4)):
            start, stop = self.ends()
            value = self.value()
            extra.map[start:stop] = value
            extra.plain.update(dict.fromkeys(range(start, stop), value))
        sides.insert(self.choose.randrange(len(sides) + 1), extra)
        maps = [self.choose.choice([side.map, side.map.freeze()]) for side in sides]
        plain = {}
        for side in sides:
            plain.update(side.plain)
        for first in (maps[0], RangeMap(), FrozenRangeMap()):
            got = first.union(*maps)
            same((marked(got), type(got)), (marked(runs_of(plain)), type(first)), "union")
        same([marked(side.map) for side in sides], [marked(runs_of(side.plain)) for side in sides], "the maps after a union")

    def diff(self):
        missing = self.choose.choice([None, "gap"])
        for m, n in ((self.one.map, self.other.map), (self.one.map.freeze(), self.other.map), (self.one.map, self.other.map.freeze())):
            got = list(m.diff(n, missing))
            wanted = differences_of(self.one.plain, self.other.plain, missing)
            same([(*row[:2], mark(row[2]), mark(row[3])) for row in got], [(*row[:2], mark(row[2]), mark(row[3])) for row in wanted], "diff")
            same((got == [], list(m.diff(m)), list(m.diff(m.copy()))), (m == n, [], []), "diff of equal maps")

    def with_itself(self):
        m = self.one.map
        same([marked(m | m), marked(m & m), list(m - m), list(m ^ m)], 2 * [marked(m)] + [[], []], "operators on one map twice")
        m |= m
        m &= m
        m.update(m)

    def complement(self):
        value = self.value()
        got = self.one.map.complement(value)
        same(got.count(), 2**64 - len(self.one.plain), "keys of a complement")
        self.one.plain = {key: value for key in range(self.base, self.base + KEYS) if key not in self.one.plain}
        self.one.map = got[self.base : self.base + KEYS]

    def split(self):
        key = self.choose.choice([self.key(), self.key(), LEAST - 3, END + 3])
        made = self.one.map.split(key)
        self.other = Side(made, {at: value for at, value in self.one.plain.items() if at >= key}, self.one.put)
        self.one.plain = {at: value for at, value in self.one.plain.items() if at < key}
        self.other.check()

    def copied(self):
        copies = [RangeMap.copy, copy.copy, RangeMap, lambda m: RangeMap(FrozenRangeMap(m)), lambda m: m[:],
                  lambda m: RangeMap(list(m)), lambda m: RangeMap.from_arrays(*m.to_arrays())]
        made = self.choose.choice(copies)(self.one.map)
        same((made == self.one.map, made is not self.one.map), (True, True), "a copy")
        self.other = Side(made, self.one.plain, self.one.put)

    def pickled(self):
        for again in (pickle.loads(pickle.dumps(self.one.map, self.choose.randrange(6))), copy.deepcopy(self.one.map)):
            same([(start, stop, repr(value)) for start, stop, value in again],
                 [(start, stop, repr(value)) for start, stop, value in self.one.map], "a pickle")

    def compared(self):
        a, b = ([(key, side.plain[key]) for key in sorted(side.plain)] for side in (self.one, self.other))
        for m, n in ((self.one.map, self.other.map), (self.one.map.freeze(), self.other.map)):
            for sign in ("==", "!=", "<", "<=", ">", ">="):
                wanted = result_of(lambda: eval(f"a {sign} b", {"a": a, "b": b}), TypeError)
                same(result_of(lambda: eval(f"m {sign} n", {"m": m, "n": n}), TypeError), wanted, sign)

    def swap(self):
        self.one, self.other = self.other, self.one

    def clear(self):
        if self.choose.random() < 0.3:
            self.one.map.clear()
            self.one.plain = {}

    def out_of_keys(self):
        m, (start, stop) = self.one.map, sorted((self.key(), self.key()))
        for key in (LEAST - 1, END, 2**64, -(2**70)):
            same((m.get(key), key in m, m.entry_at(key), m.gap_at(key), m.pop(key, 1)), (None, False, None, None, 1), "no key")
            for each in (m, m.freeze()):
                rows = list(each) or [None]
                near = (rows[0], None) if key < 0 else (None, rows[-1])
                same((each.entry_at_or_above(key), each.entry_at_or_below(key)) == near, True, "the nearest entries")
            same(result_of(lambda: m[key], KeyError), KeyError, "no key")
            same(result_of(lambda: m.__delitem__(key), KeyError), KeyError, "no key")
            same(result_of(lambda: m.__setitem__(key, 1), OverflowError), OverflowError, "no key")
        for ends in ((stop, start), (2**70, 2**70), (2**70, start), (start, -(2**70)), (2**70, 2**69), (None, LEAST), (END, None)):
            m[slice(*ends)] = []
            m.update([(*ends, [])])
            same((m.setdefault(*ends, []), list(m.gaps(*ends)), m.count(*ends), list(m[slice(*ends)])), (False, [], 0, []), "no keys")
            same((list(m.ranges(*ends)), m.has_any(*ends), m.has_all(*ends), m.find_gap(1, *ends)), ([], False, True, None), "no keys")
        for ends in ((LEAST - 1, stop), (start, END + 1), (2**70, 2**71), (-(2**70), None), (-(2**71), -(2**70))):
            same((m.has_all(*ends), m.freeze().has_all(*ends)), (False, False), "a range with other keys is not full")
            first, last = (LEAST - 1 if end is None else end for end in ends)
            same(m.has_any(*ends), any(first <= key and (ends[1] is None or key < last) for key in self.one.plain), "has_any of such a range")
            for call in (lambda: m.__setitem__(slice(*ends), 1), lambda: m.setdefault(*ends, 1), lambda: m.update([(*ends, 1)]),
                         lambda: m.update([(start, stop, 1), (*ends, 1)])):
                same(result_of(call, OverflowError), OverflowError, "a range with other keys")


def rounds(count, seed):
    random.seed(seed)
    choose = random
    no_calls = {"__init__", "key", "ends", "value", "within", "outside"}
    calls = [name for name, call in vars(Round).items() if callable(call) and name not in no_calls]
    failures = 0
    for number in range(count):
        one, made = Round(choose), []
        try:
            for _ in range(100):
                made.append(choose.choice(calls))
                getattr(one, made[-1])()
                one.one.check()
        except Exception as failure:
            failures += 1
            print(f"round {number} of seed {seed}, after {made[-5:]}: {failure!r}")
            if failures == 5:
                break
    return failures
