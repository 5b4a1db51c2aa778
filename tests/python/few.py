"""Few rows, which a large map sets one by one: against a plain dictionary, with each allocation failing in turn, and compared in time
with a copy of the map."""
import ctypes
import os
import random
import shutil
import subprocess
import sys
import tempfile
import time
from array import array
from pathlib import Path

from model import END, LEAST, contents, root, runs_of, same
from range_map import RangeMap

KEYS = 3000


class Large:
    """A map of some hundred entries beside its dictionary, whose tree has been changed here and there."""

    def __init__(self, choose):
        self.choose = choose
        self.base = choose.choice([0, LEAST, END - KEYS])
        self.plain, key = {}, 0
        while key < KEYS:
            stop = min(KEYS, key + choose.randrange(1, 6))
            if choose.random() < 0.8:
                self.plain.update(dict.fromkeys(range(self.base + key, self.base + stop), choose.randrange(4)))
            key = stop
        self.map = RangeMap(runs_of(self.plain))
        for _ in range(choose.randrange(200)):
            start, stop, value = self.row(4)
            if choose.random() < 0.5:
                del self.map[start:stop]
                self.remove(start, stop)
            else:
                self.map[start:stop] = value
                self.paint(start, stop, value)

    def row(self, longest):
        start = self.choose.choice([self.choose.randrange(KEYS), 0, KEYS - 2])
        stop = min(KEYS, start + self.choose.randrange(1, longest))
        return self.base + start, self.base + stop, self.choose.randrange(4)

    def rows(self):
        """Rows of any order, often next to each other, with values that the map has or has not."""
        rows = [self.row(self.choose.choice([2, 5, 40])) for _ in range(self.choose.randrange(2, 8))]
        for number in range(len(rows)):
            start, stop, value = rows[number]
            if self.choose.random() < 0.4 and stop < self.base + KEYS:
                rows.append((stop, min(self.base + KEYS, stop + self.choose.randrange(1, 4)), self.choose.randrange(5)))
        return rows

    def paint(self, start, stop, value):
        self.plain.update(dict.fromkeys(range(start, stop), value))

    def remove(self, start, stop):
        for key in range(start, stop):
            self.plain.pop(key, None)

    def call(self):
        """A random call of few rows, as a function of a map, and what the dictionary is after it."""
        rows = self.rows()
        kind = self.choose.randrange(5)
        other = RangeMap(rows)
        if kind == 0:
            call = lambda m: m.update(rows)
        elif kind == 1:
            starts, stops, values = zip(*rows)
            if END in stops:
                return self.call()
            call = lambda m: m.paint_many(array("q", starts), array("q", stops), values)
        elif kind == 2:
            call = lambda m: m.__ior__(other)
        if kind < 3:
            for row in rows:
                self.paint(*row)
            return call
        if kind == 3:
            for start, stop, _ in rows:
                self.remove(start, stop)
            return lambda m: m.__isub__(other)
        start, stop, _ = self.row(60)
        change = {None: self.choose.choice([None, 3, 9]), **{value: self.choose.choice([None, value, value, 3, 9]) for value in range(10)}}
        for key in range(start, stop):
            self.plain[key] = change[self.plain.get(key)]
            if self.plain[key] is None:
                del self.plain[key]
        return lambda m: m.update_range(start, stop, change.get)


def few_rows():
    choose = random.Random(14)
    for _ in range(60):
        large = Large(choose)
        for _ in range(20):
            call = large.call()
            call(large.map)
            same(list(large.map), runs_of(large.plain), "entries after few rows")
    return 1200


def few_rows_in_place():
    """Two rows take less time than a copy."""
    m = RangeMap((2 * key, 2 * key + 1, key) for key in range(100_000))
    two = RangeMap([(50_000, 50_001, "x"), (150_000, 150_001, "y")])
    values = iter(range(10**9))
    calls = [
        lambda: m.update([(70_001, 70_004, next(values)), (9, 11, next(values))]), lambda: m.__ior__(RangeMap([(70_001, 70_004, next(values))])),
        lambda: m.__isub__(two) and m.__ior__(two), lambda: m.update_range(50_000, 50_002, lambda old: next(values)),
        lambda: m.paint_many(array("q", [70_001, 9]), array("q", [70_004, 11]), [next(values), next(values)]),
    ]

    def least_time(call, count):
        times = []
        for _ in range(5):
            started = time.process_time()
            for _ in range(count):
                call()
            times.append((time.process_time() - started) / count)
        return min(times)

    copied = least_time(m.copy, 3)
    for number, call in enumerate(calls):
        taken = least_time(call, 20)
        if "few" in os.environ:
            print(f"call {number}: {1e6 * taken:.1f} us, a copy {1e6 * copied:.0f} us")
        same(taken < copied / 2, True, f"{taken} s for call {number}, {copied} s for a copy")
    return len(calls)


def refused():
    """Runs under tests/refuse_module.c."""
    shim = ctypes.CDLL(None)
    choose = random.Random(41)
    passed, most = 0, 0
    for number in range(120):
        large = Large(choose)
        before = contents(large.map)
        call = large.call()
        for is_lasting in (0, 1):
            request = requests = 1
            while request <= requests:
                m, raised = large.map.copy(), False
                shim.refuse_from(request, is_lasting)
                try:
                    call(m)
                except MemoryError:
                    raised = True
                requests = shim.refuse_count()
                shim.refuse_from(0, 0)
                same(contents(m) if raised else list(m), before if raised else runs_of(large.plain), f"call {number}, request {request}")
                passed += 1
                request += 1
            most = max(most, requests)
    same(0 < most < 200, True, f"{most} requests")
    print(f"{passed} passed, 0 failed")


def few_rows_refused():
    compiler = shutil.which("cc")
    if compiler is None:
        print("bindings: there is no cc here: few rows without memory are left out")
        return 0
    with tempfile.TemporaryDirectory() as folder:
        shim = f"{folder}/refuse_module.so"
        subprocess.run([compiler, "-shared", "-fPIC", "-O1", "-o", shim, str(root / "tests" / "refuse_module.c")], check=True)
        words = [sys.executable, "-c", "import few; few.refused()"]
        done = subprocess.run(words, env={**os.environ, "LD_PRELOAD": shim, "PYTHONPATH": str(Path(__file__).parent)}, capture_output=True,
                              text=True)
    same(done.returncode, 0, done.stdout[-1000:] + done.stderr[-1000:])
    return int(done.stdout.split()[0])
