"""Room for values is given back when entries are removed: bytes of the allocator, and the time of calls on what remains."""
import ctypes
import os
import subprocess
import sys
import time
from array import array
from pathlib import Path

from model import same
from range_map import RangeMap

COUNT = 100_000


class Info(ctypes.Structure):
    """The numbers of mallinfo2."""

    _fields_ = [(name, ctypes.c_size_t) for name in ("arena", "ordblks", "smblks", "hblks", "hblkhd", "usmblks", "fsmblks", "uordblks",
                                                     "fordblks", "keepcost")]


def bytes_in_use():
    library = ctypes.CDLL(None)
    library.mallinfo2.restype = Info
    info = library.mallinfo2()
    return info.uordblks + info.hblkhd


def full():
    """A map of many entries, each with its own value."""
    keys = array("q", range(COUNT))
    m = RangeMap()
    m.update(zip(keys, range(1, COUNT + 1), range(10**6, 10**6 + COUNT)))
    return m


def popped(m):
    while len(m) > 3:
        m.popitem()


# Each leaves at most five entries, at either end of the keys.
REMOVALS = [
    lambda m: m.clear(), lambda m: m.__delitem__(slice(1, None)), lambda m: m.__delitem__(slice(None, COUNT - 1)),
    lambda m: m.__setitem__(slice(2, None), "x"), lambda m: m.split(3), lambda m: m.__isub__(RangeMap([(5, COUNT, 1)])),
    lambda m: m.__isub__(RangeMap([(0, COUNT - 2, 1)])), lambda m: m.__iand__(m[COUNT - 3 :]), lambda m: m.update([(0, COUNT, 1), (3, 4, 2)]),
    lambda m: m.update_range(0, COUNT - 2, lambda old: None), lambda m: m.update_range(None, None, lambda old: 1), popped,
]


def measured():
    """Prints for each removal the bytes that remain in use, and the seconds of 300 paints and 30 copies."""
    for removal in REMOVALS:
        before = bytes_in_use()
        m = full()
        removal(m)
        remaining = bytes_in_use() - before
        started = time.process_time()
        for number in range(300):
            m[5] = number + 0.5
        for _ in range(30):
            m.copy()
        print(len(m), remaining, time.process_time() - started)


def removals_give_room_back():
    if not hasattr(ctypes.CDLL(None), "mallinfo2"):
        print("bindings: there is no mallinfo2 here: left out")
        return 0
    words = [sys.executable, "-c", "import room; room.measured()"]
    environment = {**os.environ, "PYTHONMALLOC": "malloc", "PYTHONPATH": str(Path(__file__).parent), "MALLOC_MMAP_THRESHOLD_": "131072"}
    done = subprocess.run(words, env=environment, capture_output=True, text=True)
    rows = [line.split() for line in done.stdout.splitlines()]
    same((done.returncode, len(rows)), (0, len(REMOVALS)), done.stderr)
    for number, (entries, remaining, seconds) in enumerate(rows):
        same(int(entries) <= 7, True, f"entries after removal {number}")
        same(int(remaining) < 40_000, True, f"{remaining} bytes in use after removal {number}")
        same(float(seconds) < 0.02, True, f"{seconds} s for paints and copies after removal {number}")
    return len(rows)


def values_keep_their_entries():
    """The values of what remains after removals between which new values come; and iterators during calls that change nothing."""
    for step in (1, 3, 50):
        m, plain = RangeMap(), {}
        for key in range(3000):
            m[key] = plain[key] = (key, "first")
        for key in range(0, 2990, step):
            m.pop(key)
            del plain[key]
            if key % 700 == 0:
                m[key - 2 : key] = plain[key - 2] = plain[key - 1] = (key, "second")
        rest = m.split(1500)
        wanted = sorted(plain.items())
        for each, part in ((m, [pair for pair in wanted if pair[0] < 1500]), (rest, [pair for pair in wanted if pair[0] >= 1500])):
            same([(key, value) for start, stop, value in each for key in range(start, stop)], part, f"entries, step {step}")
            same([(key, value) for start, stop, value in each.copy() for key in range(start, stop)], part, f"a copy, step {step}")
    m = RangeMap((key, key + 1, key) for key in range(5000))
    del m[3:]
    walk = iter(m)
    same(next(walk), (0, 1, 0), "an iterator")
    for number in range(200):
        m[2] = 2
        m.setdefault(0, 2, (number,))
    same(list(walk), [(1, 2, 1), (2, 3, 2)], "an iterator during calls that change nothing")
