"""What other modules see of a map: NumPy, Dask, pandas and `inspect`; and the version."""
import ast
import ctypes
import gc
import inspect
import operator
import os
import pickle
import re
import shutil
import subprocess
import sys
import tempfile
from pathlib import Path

from model import END, LEAST, module, result_of, root, same  # (it says where range_map is)
import range_map
from range_map import FrozenRangeMap, RangeMap

try:
    import numpy
except ImportError:
    numpy = None
try:
    from dask.base import tokenize
    from dask.sizeof import sizeof
except ImportError:
    tokenize = None


class Named(RangeMap):
    """A subclass with attributes, and its own []."""

    __slots__ = ("__dict__", "slot")

    def __getitem__(self, keys):
        return super().__getitem__(keys)


def numpy_arrays():
    """A map is one object in an array, and no operand of NumPy's functions."""
    if numpy is None:
        print("bindings: there is no numpy here: left out")
        return
    entries = [(0, 3, "a"), (5, 9, "b")]
    for m in (RangeMap(entries), FrozenRangeMap(entries), Named(entries), RangeMap(), FrozenRangeMap()):
        for one in (numpy.array(m), numpy.asarray(m), numpy.array(m, object)):
            same((one.shape, one.dtype, one[()] is m), ((), numpy.dtype(object), True), "an array of a map")
        two = numpy.array([m, m])
        same((two.shape, two.dtype, two[0] is m, two[1] is m), ((2,), numpy.dtype(object), True, True), "an array of two maps")
        others = [numpy.array(items) for items in ([1, 2], ["a"], [m], 1)]
        for other in (*others, numpy.int64(3), numpy.float64(0.5)):
            for function in (operator.or_, operator.and_, operator.sub, operator.xor, operator.add, operator.mul, operator.lt, operator.ge,
                             operator.ior, operator.isub):
                for left, right in ((m, other), (other, m)):
                    same(result_of(lambda: function(left, right), Exception), TypeError, f"{function.__name__} of {left!r} and {right!r}")
            for left, right in ((m, other), (other, m)):
                same((left == right, left != right), (False, True), f"== of {left!r} and {right!r}")
        for function in (numpy.add, numpy.bitwise_or, numpy.equal, numpy.less):
            same(result_of(lambda: function(m, 1), Exception), TypeError, f"{function.__name__} of a map")
        same(list(m), entries if m else [], "the map after all that")


def in_use():
    """The bytes that malloc has given out."""

    class Information(ctypes.Structure):
        _fields_ = [(name, ctypes.c_size_t) for name in (
            "arena", "ordblks", "smblks", "hblks", "hblkhd", "usmblks", "fsmblks", "uordblks", "fordblks", "keepcost")]

    mallinfo = ctypes.CDLL(None).mallinfo2
    mallinfo.restype = Information
    gc.collect()
    found = mallinfo()
    return found.uordblks + found.hblkhd


def sizes():
    """What sys.getsizeof says beside what malloc has given out."""
    count = 300_000
    same(sys.getsizeof(RangeMap()) < 1000 > sys.getsizeof(FrozenRangeMap()), True, "the size of empty maps")
    if not hasattr(ctypes.CDLL(None), "mallinfo2"):
        print("bindings: there is no mallinfo2 here: left out")
        return
    numbers = list(range(count))
    for kind, most in ((1, 1), (count, 1)):
        before = in_use()
        m = RangeMap([(2 * key, 2 * key + 1, numbers[key % kind]) for key in range(count)])
        real = in_use() - before
        same(real / 1.8 < sys.getsizeof(m) < 2.2 * real, True, f"{sys.getsizeof(m)} bytes of a RangeMap in place of {real}")
        before = in_use()
        f = m.freeze()
        real = in_use() - before
        same(0.9 * real < sys.getsizeof(f) < 1.1 * real, True, f"{sys.getsizeof(f)} bytes of a FrozenRangeMap in place of {real}")
        if tokenize is not None:
            same((sizeof(m), sizeof(f)), (sys.getsizeof(m), sys.getsizeof(f)), "the sizes for Dask")
        m.clear()
        same(sys.getsizeof(m) < sys.getsizeof(f), True, "the size of a cleared map")
        del m, f


def named_maps():
    """Maps by what Dask must name them: each name has maps that are the same."""
    plain = [(1, 6, "a"), (8, 10, ("b", 2)), (12, END, None)]
    painted = RangeMap([(0, 3, "x"), (8, 9, "y"), (12, None, None)])
    painted[1:6] = "a"
    del painted[0]
    painted[8:10] = ("b", 2)
    with_attributes = [Named(plain) for _ in range(3)]
    with_attributes[1].name = with_attributes[2].name = "n"
    with_attributes[2].slot = 1
    lists = [plain[:2], plain[1:], [(1, 6, "a"), (8, 10, ("b", 3)), (12, END, None)], [(1, 6, "a"), (8, 11, ("b", 2)), (12, END, None)], []]
    lists += [[(1, 2, value)] for value in (1, 1.0, True, "1", None, (1, 2), (1, 3))]
    lists += [[(1, 3, 1)], [(LEAST, 3, 1)], [(1, 2, 1), (2, 3, 2)], [(1, 2, 2), (2, 3, 1)]]
    lists += [[(1, 2, 1), (2, 3, 2), (3, 4, 1)], [(1, 2, 1), (2, 3, 2), (3, 4, 2)]]
    same_maps = [[RangeMap(plain), painted, painted.copy(), painted[:], RangeMap(plain[::-1]), RangeMap(FrozenRangeMap(plain)),
                  RangeMap.from_arrays(*painted.to_arrays()), pickle.loads(pickle.dumps(painted))],
                 [FrozenRangeMap(plain), painted.freeze(), pickle.loads(pickle.dumps(painted.freeze()))]]
    same_maps += [[each, each.copy(), pickle.loads(pickle.dumps(each))] for each in with_attributes]
    return same_maps + [[RangeMap(each), RangeMap(each[::-1]), RangeMap(each).copy()] for each in lists]


def dask_names():
    """Maps that are the same have the same name, in each process, and other maps have other names."""
    if tokenize is None:
        print("bindings: there is no Dask here: left out")
        return 0
    names = [[tokenize(each) for each in maps] for maps in named_maps()]
    for number, (first, *others) in enumerate(names):
        same(others, len(others) * [first], f"the names of the maps {number}")
    same(len({first for first, *_ in names}), len(names), "how many names there are")
    code = "import others; print([others.tokenize(maps[0]) for maps in others.named_maps()])"
    for seed in ("0", "1", "77"):
        environment = {**os.environ, "PYTHONHASHSEED": seed, "RANGE_MAP_PYTHON": module}
        done = subprocess.run([sys.executable, "-c", code], cwd=Path(__file__).parent, env=environment, capture_output=True, text=True)
        same(done.stdout, f"{[first for first, *_ in names]}\n", f"the names in another process: {done.stderr}")
    return len(names)


def version():
    header = (root / "bindings" / "range_map.h").read_text()
    same(range_map.__version__, re.search(r'#define RANGE_MAP_VERSION "(.*)"', header)[1], "__version__")


def names_in_stub():
    """The names of the arguments of each public method, by its class, or None for the base of both, and its name. The last of more than
    one way to call it is taken."""
    stub = ast.parse((root / "bindings" / "python" / "range_map" / "__init__.pyi").read_text())
    names = {}
    for kind in stub.body:
        for method in kind.body if isinstance(kind, ast.ClassDef) else ():
            if isinstance(method, ast.FunctionDef):
                last = [each.arg for each in method.args.kwonlyargs]
                more = [f"*{method.args.vararg.arg}"] if method.args.vararg else ["*"] * bool(last)
                names[kind.name if kind.name in range_map.__all__ else None, method.name] = [each.arg for each in method.args.args[1:]] + more + last
    return names


def signatures():
    """The signature of each public method has the names of the stub, in its order."""
    wanted = names_in_stub()
    for kind in (RangeMap, FrozenRangeMap):
        for name in [name for name in dir(kind) if not name.startswith("_")]:
            names = wanted.get((kind.__name__, name), wanted.get((None, name)))
            found = str(inspect.signature(getattr(kind(), name)))
            same(re.sub(r"=\w+", "", found), f"({', '.join(names)})", name)
            same(getattr(kind, name).__doc__.lstrip()[:1].isupper(), True, f"the docstring of {name}")
        same(str(inspect.signature(kind)), "(entries=())", kind.__name__)
        same(kind.__doc__.startswith("A map"), True, f"the docstring of {kind.__name__}")
    m = RangeMap()
    same(str(inspect.signature(m.find_gap)), "(length, start=None, stop=None, *, last=False)", "find_gap")
    same(str(inspect.signature(m.update_range)), "(start, stop, function, missing=None)", "update_range")
    same((str(inspect.signature(m.diff)), str(inspect.signature(m.union))), ("(other, missing=None)", "(*others)"), "diff and union")
    same(str(inspect.signature(RangeMap.from_arrays)), "(starts, stops, values)", "from_arrays")
    for call in (lambda: RangeMap.get(5, 3), lambda: RangeMap.copy(FrozenRangeMap()), lambda: FrozenRangeMap.freeze(m)):
        same(result_of(call, TypeError), TypeError, "a method of another object")


def typed():
    """mypy --strict over the stub and the examples."""
    if shutil.which("mypy") is None:
        print("bindings: there is no mypy here: left out")
        return 0
    examples = root / "bindings" / "examples"
    runs = [["-p", "range_map"], [str(examples / "owners.py")]] + [[str(examples / "cluster.py")]] * (tokenize is not None)
    with tempfile.TemporaryDirectory() as folder:
        for words in runs:
            environment = {**os.environ, "MYPYPATH": module, "PYTHONPATH": module}
            done = subprocess.run(["mypy", "--strict", *words], cwd=folder, env=environment, capture_output=True, text=True)
            same((done.returncode, done.stdout if done.returncode else ""), (0, ""), f"mypy --strict {words[-1]}")
    return len(runs)
