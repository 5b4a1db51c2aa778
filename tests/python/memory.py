"""Values and maps that are gone, memory that stays flat, each allocation failing in turn, and the address sanitizer."""
import ctypes
import gc
import os
import pickle
import shutil
import subprocess
import sys
import sysconfig
import tempfile
import weakref
from array import array
from pathlib import Path

from model import contents, root, same
from range_map import FrozenRangeMap, RangeMap

here = Path(__file__).resolve().parent


def values_are_dropped():
    class Value:
        alive = 0

        def __init__(self):
            Value.alive += 1

        def __del__(self):
            Value.alive -= 1

    m = RangeMap()
    for key in range(10_000):
        m[key % 10] = Value()
        if Value.alive > 3 * 10 + 17:
            raise AssertionError(f"{Value.alive} values are alive")
    m[:] = "a"
    m.clear()
    for work in (lambda: m.update((key, key + 1, Value()) for key in range(1000)), m.clear):
        work()
    same(Value.alive <= 16, True, "values of a cleared map")
    m.update((key, key + 1, Value()) for key in range(1000))
    rest = m.split(500)
    same((len(m), len(rest)), (500, 500), "a split map")
    del rest
    same(Value.alive <= 1000, True, "values of a split map")
    for operation in (lambda: m | m, lambda: m[3:7], lambda: m - RangeMap([(0, 490, 1)]), m.freeze, m.copy):
        operation()
    del m, operation, work
    gc.collect()
    same(Value.alive, 0, "values of maps that are gone")


def collected():
    class Holder:
        pass

    def held(make):
        holder = Holder()
        holder.map = make(holder)
        holder.again = [iter(holder.map), reversed(holder.map), holder.map.gaps()]
        return weakref.ref(holder)

    for make in (lambda value: RangeMap([(0, 1, value)]), lambda value: FrozenRangeMap([(0, 1, value)])):
        gc.collect()
        gone = held(make)
        gc.collect()
        same(gone(), None, "a cycle through a map")
        m = make(1)
        gone = weakref.ref(m)
        del m
        same(gone(), None, "a weak reference")


def memory_is_flat():
    def resident():
        gc.collect()
        return int(Path("/proc/self/statm").read_text().split()[1]) * os.sysconf("SC_PAGE_SIZE")

    def overwrite(count):
        m = RangeMap((10 * key, 10 * key + 10, key) for key in range(50))
        for number in range(count):
            at = number * 7 % 500
            m[at : at + 5] = float(number)

    def drop(count):
        for number in range(count):
            m = RangeMap([(0, 5, number), (7, 9, "b")])
            m |= m.freeze()
            list(m)

    def update(count):
        m = RangeMap((10 * key, 10 * key + 5, key) for key in range(20))
        for number in range(count):
            at = number * 7 % 200
            m.update_range(at, at + 25, lambda old: float(number) if old is None else None if number % 3 else old)
            try:
                m.update_range(0, 200, lambda old: object() if old else number // 0)
            except ZeroDivisionError:
                pass

    overwrite(100_000)
    drop(10_000)
    update(5_000)
    before = resident()
    overwrite(1_000_000)
    drop(100_000)
    update(50_000)
    grown = resident() - before
    same(grown < 2**20, True, f"{grown} bytes more memory")


# ---- In other processes


def refused():
    """Each allocation of the module and the library fails in turn, alone and with all later ones. Runs under
    tests/refuse_module.c."""
    shim = ctypes.CDLL(None)

    def maps():
        m = RangeMap((4 * key, 4 * key + 3, key % 50) for key in range(150))
        n = RangeMap((6 * key, 6 * key + 2, key % 70) for key in range(80))
        return m, n, RangeMap([(0, 4, "a")]), m.freeze()

    starts, stops = array("q", range(0, 450, 3)), array("q", range(2, 452, 3))
    calls = [
        lambda m, n, s, f: m.__setitem__(slice(9, 501), "new"), lambda m, n, s, f: m.__setitem__(1, object()),
        lambda m, n, s, f: m.__delitem__(slice(1, 2)), lambda m, n, s, f: m.__delitem__(1), lambda m, n, s, f: m.pop(5),
        lambda m, n, s, f: m.setdefault(0, 3000, "new"), lambda m, n, s, f: m.popitem(), lambda m, n, s, f: m.popitem(last=False),
        lambda m, n, s, f: m.update([(1, 2, "x"), (5, 90, "y"), (500, 501, "z")]), lambda m, n, s, f: m.update(n),
        lambda m, n, s, f: m.update((key, key + 1, object()) for key in range(0, 400, 2)), lambda m, n, s, f: s.update(m),
        lambda m, n, s, f: m.paint_many(starts, stops, range(150)), lambda m, n, s, f: m.update_range(0, 99, lambda old: old and -old),
        lambda m, n, s, f: m.update_range(0, 9, lambda old: old or "new"), lambda m, n, s, f: m.update_range(0, 2, str),
        lambda m, n, s, f: m.update_range(0, 600, lambda old: 30, "gap"), lambda m, n, s, f: m.update_range(0, 600, lambda old: None),
        lambda m, n, s, f: m.update_range(0, 600, lambda old: object()), lambda m, n, s, f: m.update_range(1, 2, lambda old: None),
        lambda m, n, s, f: m | n, lambda m, n, s, f: m & n, lambda m, n, s, f: m - n, lambda m, n, s, f: m ^ n,
        lambda m, n, s, f: m.__ior__(n), lambda m, n, s, f: m.__iand__(n), lambda m, n, s, f: m.__isub__(n),
        lambda m, n, s, f: m.__ixor__(n), lambda m, n, s, f: m.__ior__(s), lambda m, n, s, f: m.__ior__(f), lambda m, n, s, f: m == n,
        lambda m, n, s, f: m.copy(), lambda m, n, s, f: m.split(400), lambda m, n, s, f: m[5:400], lambda m, n, s, f: f[5:400],
        lambda m, n, s, f: m.complement("x"), lambda m, n, s, f: FrozenRangeMap(m), lambda m, n, s, f: m.to_arrays(),
        lambda m, n, s, f: RangeMap.from_arrays(*m.to_arrays()), lambda m, n, s, f: pickle.dumps(m), lambda m, n, s, f: repr(s),
        lambda m, n, s, f: pickle.loads(pickle.dumps(f)), lambda m, n, s, f: f.get_many(starts), lambda m, n, s, f: m < f,
        lambda m, n, s, f: m.__setstate__(n.__reduce__()[2]), lambda m, n, s, f: RangeMap(n), lambda m, n, s, f: m.clear(),
        lambda m, n, s, f: list(m.gaps()), lambda m, n, s, f: m.get_many(starts),
        lambda m, n, s, f: m.paint_many(list(starts), list(stops), range(150)), lambda m, n, s, f: f.get_many(list(starts)),
        lambda m, n, s, f: m.union(n, s, f), lambda m, n, s, f: f.union(n, s), lambda m, n, s, f: f | n, lambda m, n, s, f: f & n,
        lambda m, n, s, f: f - n, lambda m, n, s, f: f ^ n, lambda m, n, s, f: list(m.diff(n)), lambda m, n, s, f: list(m.ranges()),
        lambda m, n, s, f: m == RangeMap((4 * key, 4 * key + 3, float(key % 50)) for key in range(150)),
        lambda m, n, s, f: m.setdefault(0, 3000, []), lambda m, n, s, f: m.update((key, key + 1, []) for key in range(0, 400, 2)),
    ]
    passed = failed = 0
    for number, call in enumerate(calls):
        for is_lasting in (0, 1):
            request = 1
            while True:
                operands = maps()
                before = [contents(each) for each in operands]
                result = None
                shim.refuse_from(request, is_lasting)
                try:
                    result = call(*operands)
                    raised = None
                except MemoryError:
                    raised = MemoryError
                requests = shim.refuse_count()
                shim.refuse_from(0, 0)
                if requests < request:
                    break
                # (a call may do without memory that it could not get, as the sweep of values does)
                fine = raised is None or [contents(each) for each in operands] == before
                for each in operands[:3]:
                    each[0:5] = "after"
                    fine = fine and each[0] == "after"
                passed, failed = passed + fine, failed + (not fine)
                if not fine:
                    print(f"call {number}, request {request}, lasting {is_lasting}: {raised}")
                request += max(1, request // 8)
            if request == 1 and requests < 0:
                print("the module was not found by the shim")
                failed += 1
    # few edits are made in the map itself
    m = RangeMap((key, key + 1, key) for key in range(20_000))
    for start, function in ((7, lambda old: 8), (17, lambda old: old + 1)):
        shim.refuse_from(0, 0)
        m.update_range(start, start + 3, function)
        requests = shim.refuse_count()
        if 1 <= requests <= 50:
            passed += 1
        else:
            failed += 1
            print(f"{requests} requests of update_range")
    print(f"{passed} passed, {failed} failed")
    sys.exit(failed != 0)


def counted(words, environment, what):
    """The result of a process that ends with 'N passed, M failed'."""
    done = subprocess.run(words, env={**os.environ, **environment}, capture_output=True, text=True)
    last = (done.stdout.splitlines() or [""])[-1].split()
    if done.returncode or len(last) != 4 or last[2] != "0":
        raise AssertionError(f"{what}: {done.stdout[-2000:]}{done.stderr[-2000:]}")
    return int(last[0])


def refused_memory():
    compiler = shutil.which("cc")
    if compiler is None:
        print("bindings: there is no cc here: refused memory is left out")
        return 0
    with tempfile.TemporaryDirectory() as folder:
        shim = f"{folder}/refuse_module.so"
        subprocess.run([compiler, "-shared", "-fPIC", "-O1", "-o", shim, str(root / "tests" / "refuse_module.c")], check=True)
        return counted([sys.executable, str(here), "refused"], {"LD_PRELOAD": shim}, "refused memory")


def sanitized():
    """Values that raise and change maps, with a module that is built with the address sanitizer."""
    compiler = shutil.which("cc")
    asan = compiler and subprocess.run([compiler, "-print-file-name=libasan.so"], capture_output=True, text=True).stdout.strip()
    out = Path(os.environ.get("RANGE_MAP_OUT") or root / "bindings" / "out")
    source = root / "bindings" / "python" / "range_map.c"
    if not compiler or not Path(asan).is_absolute() or not source.is_file() or not (out / "librange_map.a").is_file():
        print("bindings: there is no address sanitizer, range_map.c or archive here: left out")
        return
    with tempfile.TemporaryDirectory() as folder:
        package = Path(folder) / "range_map"
        package.mkdir()
        include = [f"-I{each}" for each in (out, root / "bindings", sysconfig.get_paths()["include"])]
        subprocess.run([compiler, "-shared", "-fPIC", "-O1", "-w", "-fsanitize=address", *include, "-o", str(
            package / f"__init__{sysconfig.get_config_var('EXT_SUFFIX')}"), str(source), str(out / "librange_map.a")], check=True)
        environment = {"LD_PRELOAD": asan, "ASAN_OPTIONS": "detect_leaks=0", "PYTHONMALLOC": "malloc", "RANGE_MAP_PYTHON": folder}
        cases = ["wild_values", "values_of_all_kinds", "subclasses", "columns_of_all_kinds", "rejected_states", "values_without_hash",
                 "lists_are_dropped", "copied_and_pickled", "changed_meanwhile", "compared_once", "differences", "unions", "frozen_operators"]
        counted([sys.executable, str(here), *cases], environment, "the address sanitizer")
