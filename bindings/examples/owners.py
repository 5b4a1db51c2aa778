"""Merges two tables of address blocks, and prints the blocks that changed hands: `owners.py OLD NEW`.

A table is a file of lines `ADDRESS/LENGTH OWNER`, where the owner is all that is behind the one blank. A line that starts with `#` is
skipped. The later line wins. An invalid line ends the program with `owners: line N: invalid` and exit status 1.
"""
import sys
from io import TextIOWrapper
from ipaddress import IPv4Address
from pathlib import Path

sys.path.append(str(Path(__file__).parent.parent / "python"))
from range_map import RangeMap


def number(text: str, most: int) -> int:
    """A decimal number without a sign, blanks, or zeros before it."""
    value = int(text) if text.isascii() and text.isdigit() else -1
    if str(value) != text or value > most:
        raise ValueError
    return value


def block(line: str) -> tuple[int, int, str]:
    """The entry of a line. ValueError if the line is invalid."""
    network, _, owner = line.partition(" ")
    address, _, length = network.partition("/")
    parts = [number(part, 255) for part in address.split(".")]
    size = 2 ** (32 - number(length, 32))
    start = int.from_bytes(parts, "big")
    if len(parts) != 4 or start % size or not owner or owner.startswith(" "):
        raise ValueError
    return start, start + size, owner


def read(name: str) -> RangeMap[str]:
    """The table of a file."""
    table: RangeMap[str] = RangeMap()
    with open(name, encoding="utf-8", errors="surrogateescape", newline="\n") as lines:
        for count, line in enumerate(lines, 1):
            if not line.startswith("#"):
                try:
                    start, stop, owner = block(line.removesuffix("\n").removesuffix("\r"))
                except ValueError:
                    sys.exit(f"owners: line {count}: invalid")
                table[start:stop] = owner
    return table


if len(sys.argv) != 3:
    sys.exit("usage: owners.py OLD NEW")
if isinstance(sys.stdout, TextIOWrapper):
    sys.stdout.reconfigure(encoding="utf-8", errors="surrogateescape")  # owners are printed byte for byte
old, new = (read(name) for name in sys.argv[1:])
merged = old | new
print(f"merged: {len(merged)} ranges, {merged.count()} addresses")
moved: RangeMap[bool] = RangeMap()
for start, stop, before in old:
    for lo, hi, after in merged[start:stop]:
        if before != after:
            print(f"{IPv4Address(lo)} to {IPv4Address(hi - 1)}: {before}, then {after}")
            moved[lo:hi] = True
print(f"changed hands: {moved.count()} addresses")
