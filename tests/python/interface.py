"""What the module says of itself: the examples of its docstrings, and its types."""
import doctest
import os
import re
import shutil
import subprocess
import tempfile
from pathlib import Path

import range_map
from model import module, root, same
from range_map import FrozenRangeMap, RangeMap


def examples():
    range_map.__test__ = {kind.__name__: kind for kind in RangeMap.__mro__[1:-1]}  # (classes without a public name)
    told = doctest.testmod(range_map)
    same((told.failed, told.attempted > 70), (0, True), "the examples of docstrings")
    for kind in (RangeMap, FrozenRangeMap):
        public = [name for name in dir(kind) if not name.startswith("_")]
        same([name for name in public if ">>>" not in getattr(kind, name).__doc__], [], "methods without an example")
    return told.attempted


def pages():
    """The examples of the module's page and of docs/TASKS.md."""
    page = (root / "bindings" / "python" / "README.md").read_text()
    tasks = re.search(r"^```python\n(.*?)^```$", (root / "docs" / "TASKS.md").read_text(), re.M | re.S)[1]
    told = [doctest.DocTestRunner().run(doctest.DocTestParser().get_doctest(text, {}, name, name, 0)) for name, text in (
        ("README.md", page), ("TASKS.md", tasks))]
    same(([each.failed for each in told], min(each.attempted for each in told) > 7), ([0, 0], True), "the examples of pages")
    return sum(each.attempted for each in told)


def types():
    code = ("from range_map import FrozenRangeMap, RangeMap\nm: RangeMap[str] = RangeMap([(1, 2, 'a')])\nm[3:5] = 'b'\n"
            "value: str = m[3]\nother: RangeMap[str] = m[1:4] | m.freeze()\nnone: str | None = m.get(7)\n"
            "rows: list[tuple[int, int, str]] = list(m.overlapping(1, 3))\ntable: FrozenRangeMap[str] = m.freeze()\n"
            "m.update_range(1, 5, lambda old: old and old.upper())\nm.update_range(1, 5, lambda old: 0 if old else old, 0)\n"
            "lists: RangeMap[list[int]] = RangeMap([(1, 2, [3])])\nlists[1].append(4)\nfrozen: FrozenRangeMap[str] = table | m\n"
            "changes: list[tuple[int, int, str | None, int | None]] = list(m.diff(RangeMap([(1, 2, 5)])))\n"
            "gaps: list[tuple[int, int, str, str]] = list(m.diff(table, 'gap'))\nboth: RangeMap[str] = RangeMap[str]().union(m, table)\n"
            "near: tuple[int, int, str] | None = table.entry_at_or_above(3)\nfull: bool = table.has_any(1) and m.has_all(1, 5)\n"
            "ends: list[tuple[int, int]] = list(m.ranges(stop=4))\nfree: int | None = table.find_gap(3, last=True)\n")
    if shutil.which("mypy") is None:
        print("bindings: there is no mypy here: left out")
        return
    with tempfile.TemporaryDirectory() as folder:
        environment = {**os.environ, "MYPYPATH": module, "PYTHONPATH": module}
        (Path(folder) / "used.py").write_text(code)
        for words in (["mypy", "--strict", "used.py"], ["stubtest", "range_map"]):
            if shutil.which(words[0]):
                done = subprocess.run(words, cwd=folder, env=environment, capture_output=True, text=True)
                same((done.returncode, done.stdout if done.returncode else ""), (0, ""), " ".join(words))
            else:
                print(f"bindings: there is no {words[0]} here: left out")
