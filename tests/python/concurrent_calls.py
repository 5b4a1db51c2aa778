"""Long calls: other threads run meanwhile, none of them changes a map that the call reads, and a signal is seen soon."""
import signal
import sys
import threading
import time

from model import same
from range_map import RangeMap

COUNT = 300_000


def large(first, count=COUNT, values=1000):
    return RangeMap((3 * key + first, 3 * key + first + 1, str(key % values)) for key in range(count))


LONG = {
    "|": lambda m, n: m | n, "&": lambda m, n: m & n, "^": lambda m, n: m ^ n, "|=": lambda m, n: m.__ior__(n), "==": lambda m, n: m == m.copy(),
    "repr": lambda m, n: repr(m), "update": lambda m, n: m.update([(key, key + 1, 5) for key in range(1, 3 * COUNT, 3)]),
    "copies": lambda m, n: [m.copy() for _ in range(5)], "freeze": lambda m, n: m.freeze(),
    "update_range": lambda m, n: m.update_range(None, None, str, "gap"), "complement": lambda m, n: [m.complement(1) for _ in range(5)],
    "union": lambda m, n: m.union(n), "diff": lambda m, n: sum(1 for _ in m.diff(n)), "diff of equal maps": lambda m, n: list(m.diff(m.copy())),
    "frozen |": lambda m, n: m.freeze() | n,
}


def bound(m):
    """A tenth of a second, and the time that some passes of the library over a map's entries take on this machine."""
    taken = []
    for _ in range(3):
        started = time.process_time()
        m.copy()
        taken.append(time.process_time() - started)
    return 0.1 + 5 * min(taken)


def longest_gap(call, operands):
    """The longest time between two counts of another thread during a call, how many counts there were, and how long the call took."""
    gaps, is_done = [], threading.Event()

    def count():
        last = time.perf_counter()
        while not is_done.is_set():
            at = time.perf_counter()
            gaps.append(at - last)
            last = at

    counter = threading.Thread(target=count)
    counter.start()
    started = time.perf_counter()
    result = call(*operands)
    taken = time.perf_counter() - started
    is_done.set()
    counter.join()
    del result
    return max(gaps), len(gaps), taken


def other_threads_run():
    """Another thread counts during each long call. Without the pauses it would wait for most of the call, in each of three tries."""
    m, n = large(0), large(1)
    allowed = bound(m)
    for name, call in LONG.items():
        for _ in range(3):
            gap, counts, taken = longest_gap(call, (m.copy(), n))
            if is_shared := counts > 100 and gap < max(allowed, taken / 2):
                break
        same(is_shared, True, f"{name}: {taken:.3f} s, {counts} counts, {gap:.3f} s between two")
    return len(LONG)


def signals_are_seen():
    """The seconds of this process between a signal and its handler, during calls of several tenths of a second."""
    class Seen(Exception):
        pass

    def handler(number, frame):
        seen.append(time.process_time())
        if is_armed:
            raise Seen

    m, n = large(0, 2 * COUNT, COUNT**2), large(1, 2 * COUNT, COUNT**2)
    allowed = bound(m)
    before = signal.signal(signal.SIGPROF, handler)
    try:
        for name, call in LONG.items():
            changed, in_time = m.copy(), set()
            started = time.process_time()
            call(changed, n)
            taken = time.process_time() - started
            for part in (0.1, 0.1, 0.1, 0.5, 0.5, 0.5):
                if part in in_time:
                    continue
                seen, operand, is_armed = [], m.copy(), True
                started = time.process_time()
                signal.setitimer(signal.ITIMER_PROF, part * taken)
                try:
                    call(operand, n)
                    is_armed = False
                except Seen:
                    same(operand == m or operand == changed, True, f"{name}: a map with all changes, or none, after a signal")
                is_armed = False
                signal.setitimer(signal.ITIMER_PROF, 0)
                delay = (seen[0] if seen else time.process_time()) - started - part * taken
                if delay < allowed:
                    in_time.add(part)
            same(in_time, {0.1, 0.5}, f"{name}: {delay:.3f} s after a signal at {part} of {taken:.3f} s, in each of three tries")
    finally:
        signal.setitimer(signal.ITIMER_PROF, 0)
        signal.signal(signal.SIGPROF, before)
    return 2 * len(LONG)


def changes_wait():
    """While threads copy, combine and read a map, another one changes two keys at once. No thread sees one of them alone."""
    count, wrong, is_done = 20_000, [], threading.Event()
    m = RangeMap((2 * key, 2 * key + 1, "old") for key in range(count))
    low, high = 1000, 2 * count - 2
    rows = RangeMap((4 * key, 4 * key + 1, "row") for key in range(300, count // 4))

    def checked(read):
        try:
            while not is_done.is_set():
                made = read()
                same(made[low] == made[high], True, "two keys that change at once")
                same(len(made) >= count, True, "entries")
        except Exception as failure:
            wrong.append(failure)

    reads = [m.copy, lambda: m | rows, lambda: m[:], m.freeze, lambda: RangeMap(list(m[:]))]
    interval = sys.getswitchinterval()
    sys.setswitchinterval(1e-5)
    threads = [threading.Thread(target=checked, args=(read,)) for read in reads]
    for thread in threads:
        thread.start()
    started, number = time.monotonic(), 0
    while time.monotonic() - started < 3 and not wrong:
        number += 1
        value = (number,)
        m.update([(low, low + 1, value), (high, high + 1, value)])
        if number % 5 == 0:
            m.update((key, key + 1, value) for key in (low, high, *range(1, 4 * 2000, 4)))
            m |= RangeMap((key, key + 1, "more") for key in range(9, 4 * 2000, 4))
            del m[1:1]
            m.setdefault(5, 6, value)
            m.pop(5)
            m.update_range(low, low + 1, lambda old: old)
    is_done.set()
    for thread in threads:
        thread.join()
    sys.setswitchinterval(interval)
    same(wrong, [], "threads that read")
    same((number > 5, m[low] == m[high] == (number,)), (True, True), f"{number} changes")
