"""Prints what `regions` must print: a dictionary has the region of each page of 4096 bytes."""
import sys
from typing import TypeVar

PAGE = 4096
Value = TypeVar("Value")
Run = tuple[int, int, Value]  # the first page, the last page, the value


def pages(text: str) -> dict[int, str]:
    table = {}
    for line in text.splitlines():
        words = line.split(maxsplit=5)
        start, end = (int(end, 16) for end in words[0].split("-"))
        name = words[5].strip() if len(words) == 6 else "-"
        for page in range(start // PAGE, end // PAGE):
            table[page] = f"{words[1]} {name}"
    return table


def runs(table: dict[int, Value]) -> list[Run[Value]]:
    """The greatest ranges of pages with one value."""
    found: list[Run[Value]] = []
    for page in sorted(table):
        start = page
        if found and found[-1][1] == page - 1 and found[-1][2] == table[page]:
            start = found.pop()[0]
        found.append((start, page, table[page]))
    return found


def text(first: int, last: int) -> str:
    return f"{first * PAGE:x}..={last * PAGE + PAGE - 1:x}"


def show(table: dict[int, str]) -> None:
    found = runs(table)
    print(f"{len(found)} regions, {len(table) * PAGE} bytes")
    for left, right in zip(found, found[1:]):
        if left[1] + 1 < right[0]:
            print("gap", text(left[1] + 1, right[0] - 1))


def place_of(found: list[Run[str]], run: Run[str]) -> Run[str] | None:
    size = run[1] - run[0]
    return next((other for other in found if other[2] == run[2] and other[1] - other[0] == size), None)


parts = [pages(part) for part in sys.stdin.read().split("\n\n")]
for part in parts:
    show(part)
if len(parts) == 2:
    first, later = parts
    gone = runs({page: first[page] for page in first.keys() - later.keys()})
    new = runs({page: later[page] for page in later.keys() - first.keys()})
    for run in gone:
        to = place_of(new, run)
        print(f"moved {run[0] * PAGE:x} to {to[0] * PAGE:x} {run[2]}" if to else f"gone {text(*run[:2])} {run[2]}")
    for run in new:
        if not place_of(gone, run):
            print(f"new {text(*run[:2])} {run[2]}")
    both = first.keys() & later.keys()
    for start, end, (old, value) in runs({page: (first[page], later[page]) for page in both}):
        if old != value:
            print(f"changed {text(start, end)} {old} to {value}")
    print(f"{len(both) * PAGE} bytes in both, {len(first.keys() | later.keys()) * PAGE} in either")
