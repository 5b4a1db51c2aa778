"""Prints what the examples must print for two tables: `expected.py OLD NEW`. It looks at each address where a block starts or ends,
and knows no ranges. An invalid line is an error, as in the examples."""
import re
import sys
from ipaddress import AddressValueError, IPv4Address, IPv4Network, NetmaskValueError
from itertools import groupby, pairwise

LINE = re.compile(rb"([0-9.]+/(?:[0-9]|[12][0-9]|3[0-2])) ([^ ].*)")


class InvalidLine(Exception):
    pass


def read(name):
    """The blocks of a table with their owners, in order."""
    blocks = []
    with open(name, "rb") as file:
        lines = file.read().split(b"\n")
    if lines[-1] == b"":
        lines.pop()
    for number, line in enumerate(lines, 1):
        line = line.removesuffix(b"\r")
        if line.startswith(b"#"):
            continue
        found = LINE.fullmatch(line)
        try:
            blocks.append((IPv4Network(found[1].decode()), found[2].decode()))
        except (TypeError, AddressValueError, NetmaskValueError, ValueError):
            raise InvalidLine(f"owners: line {number}: invalid") from None
    return blocks


def owner_of(table, address):
    return next((owner for block, owner in reversed(table) if address in block), None)


def expected(old_name, new_name):
    """The lines that the examples print."""
    old, new = read(old_name), read(new_name)
    starts = {start for block, _ in old + new for start in (int(block[0]), int(block[-1]) + 1)}
    rows = []
    for start, end in pairwise(sorted(starts)):
        before = owner_of(old, IPv4Address(start))
        rows.append((start, end - 1, before, owner_of(new, IPv4Address(start)) or before))
    merged = [(owner, list(run)) for owner, run in groupby(rows, lambda row: row[3]) if owner]
    yield f"merged: {len(merged)} ranges, {sum(end - start + 1 for _, run in merged for start, end, _, _ in run)} addresses"
    moved = 0
    for (before, after), run in groupby(rows, lambda row: row[2:]):
        run = list(run)
        if before and before != after:
            moved += run[-1][1] - run[0][0] + 1
            yield f"{IPv4Address(run[0][0])} to {IPv4Address(run[-1][1])}: {before}, then {after}"
    yield f"changed hands: {moved} addresses"


if __name__ == "__main__":
    try:
        print("\n".join(expected(*sys.argv[1:])))
    except InvalidLine as error:
        sys.exit(str(error))
