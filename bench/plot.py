#!/usr/bin/env python3
"""Draws the driver's figures: the time of a paint, of a lookup and of a union against the number of entries, on four sides.

    bench/run.sh paint get 'equal sizes' | bench/plot.py >docs/speed.svg

Both scales are logarithmic. A side that did few operations has no point there. A side that was not measured has no line, such as Boost
without its headers.

>>> nanoseconds("1,234"), nanoseconds("1,234 (fewer)"), nanoseconds("-"), entries("10^4"), entries("2000")
(1234.0, None, None, 10000, 2000)
"""
import math
import sys
from collections.abc import Iterable, Iterator
from html import escape
from typing import NamedTuple

# The colour of each side, and the dashes of its line. Two lines that overlap are both visible, since their dashes differ.
SIDES = {"library": ("#1f5fa8", "none"), "plain Rust": ("#6f6f6f", "2 4"), "the crate's way": ("#b3541e", "8 4"), "Boost": ("#3f7d3a", "12 3 2 3")}
PANELS = {"paint": "a paint", "get": "a lookup", "`a \\| b`, equal sizes": "a | b, for each entry of both"}
WIDTH, HEIGHT, LEFT, RIGHT, TOP, BOTTOM = 340, 300, 64, 32, 64, 40


class Point(NamedTuple):
    """The time of one operation of a work on one side, for maps with a number of entries."""

    work: str
    side: str
    entries: int
    time: float


def nanoseconds(cell: str) -> float | None:
    """Returns the time in a cell of the driver's table, or None if the side did few operations or was not measured."""
    return None if cell == "-" or cell.endswith("(fewer)") else float(cell.replace(",", ""))


def entries(cell: str) -> int:
    """Returns the number of entries in a cell."""
    base, _, power = cell.partition("^")
    number: int = int(base) ** int(power or 1)
    return number


def read(lines: Iterable[str]) -> Iterator[Point]:
    """Yields the points of a table in Markdown, whose first line names its columns.

    >>> head = "| work | entries | time of one | plain Rust, ns | library, ns |"
    >>> list(read([head, "|---|---|---|---|---|", "| get | 10^3 | key | 90 | 80.5 |"]))[1]
    Point(work='get', side='library', entries=1000, time=80.5)
    """
    columns: list[str] = []
    for line in lines:
        cells = line.strip().strip("|").strip().split(" | ")
        if cells[0] == "work":
            columns = cells
        elif cells[0] in PANELS and len(cells) == len(columns):
            for side in ("plain Rust", "library", "the crate's way", "Boost"):
                place = columns.index(f"{side}, ns") if f"{side}, ns" in columns else None
                time = nanoseconds(cells[place]) if place is not None else None
                if time is not None:
                    yield Point(cells[0], side, entries(cells[1]), time)


def text(x: float, y: float, words: str, anchor: str = "middle", colour: str = "#333333", size: int = 12) -> str:
    """Returns the SVG of words at a position."""
    return f'<text x="{x:.1f}" y="{y:.1f}" text-anchor="{anchor}" font-size="{size}" fill="{colour}">{escape(words)}</text>'


def panel(left: float, title: str, points: list[Point]) -> Iterator[str]:
    """Yields the SVG of one work: its scales, and a line for each side."""
    counts, times = [p.entries for p in points], [p.time for p in points]
    powers = range(math.floor(math.log10(min(counts))), math.ceil(math.log10(max(counts))) + 1)
    steps = [first * 10**power for power in range(-1, 10) for first in (1, 2, 5)]
    low = max(step for step in steps if step <= min(times))
    high = min(step for step in steps if step >= max(times) and step > low)
    wide, tall = WIDTH - LEFT - RIGHT, HEIGHT - TOP - BOTTOM

    def across(count: float) -> float:
        return left + LEFT + wide * (math.log10(count) - powers[0]) / max(len(powers) - 1, 1)

    def up(time: float) -> float:
        return TOP + tall * math.log10(high / time) / math.log10(high / low)

    yield text(left + LEFT + wide / 2, TOP - 14, title, size=14)
    for power in powers:
        yield text(across(10**power), HEIGHT - BOTTOM + 18, f"{10**power:,}", size=11)
    for time in (step for step in steps if low <= step <= high):
        yield f'<path d="M{left + LEFT:.1f} {up(time):.1f}h{wide}" stroke="#dddddd"/>'
        yield text(left + LEFT - 6, up(time) + 4, f"{time:,g} ns", "end", size=11)
    for side, (colour, dashes) in SIDES.items():
        mine = sorted((p.entries, p.time) for p in points if p.side == side)
        if mine:
            way = "L".join(f"{across(count):.1f} {up(time):.1f}" for count, time in mine)
            yield f'<path d="M{way}" fill="none" stroke="{colour}" stroke-width="2" stroke-dasharray="{dashes}"/>'
            yield from (f'<circle cx="{across(count):.1f}" cy="{up(time):.1f}" r="3" fill="{colour}"/>' for count, time in mine)


def picture(points: list[Point]) -> Iterator[str]:
    """Yields the lines of the SVG."""
    works = [work for work in PANELS if any(p.work == work for p in points)]
    width = WIDTH * max(len(works), 1)
    yield f'<svg xmlns="http://www.w3.org/2000/svg" viewBox="0 0 {width} {HEIGHT}" font-family="sans-serif">'
    yield f'<rect width="{width}" height="{HEIGHT}" fill="#ffffff"/>'
    for number, side in enumerate(side for side in SIDES if any(p.side == side for p in points)):
        colour, dashes = SIDES[side]
        yield f'<path d="M{LEFT + 150 * number} 20h24" stroke="{colour}" stroke-width="3" stroke-dasharray="{dashes}"/>'
        yield text(LEFT + 150 * number + 30, 24, side, "start")
    for number, work in enumerate(works):
        yield from panel(WIDTH * number, PANELS[work], [p for p in points if p.work == work])
    yield text(width / 2, HEIGHT - 4, "entries of the map; both scales are logarithmic", size=11)
    yield "</svg>"


if __name__ == "__main__":
    print("\n".join(picture(list(read(sys.stdin)))))
